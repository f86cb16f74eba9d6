//! Counts in words, and as a table of numbers.

use rudzaviks::{Counts, Reduced};

use crate::colour::{Page, Style};
use crate::input::Input;
use crate::json::{Fields, Json};
use crate::wrap::{wrap, WIDTH};

/// So many of what has this name.
pub fn number_of(count: impl TryInto<u64>, name: &str) -> String {
    let count = count.try_into().unwrap_or(u64::MAX);
    let plural = if count == 1 { "" } else { "s" };
    format!("{count} {name}{plural}")
}

/// How full the registers get, in words.
pub fn fullest(fullest: u32, count_regs: u32) -> String {
    match fullest {
        0 => "no value is needed past the instruction that writes it".to_string(),
        _ => format!("at most {fullest} of {} needed at once", number_of(count_regs, "register")),
    }
}

/// The counts of a list, or of several in all. Of registers they have the most of any list.
#[derive(Clone, Copy, Debug, Default, PartialEq, Eq)]
pub struct Sums {
    before: u64,
    after: u64,
    nops: u64,
    loads: u64,
    moves: u64,
    saves: u64,
    values: u64,
    locations: u64,
    registers: u32,
    fullest: u32,
    uncovered: u64,
}

impl Sums {
    /// The counts of a list, of which so many instructions are covered by no theorem.
    pub fn of(input: &Input, reduced: &Reduced, uncovered: usize) -> Sums {
        let Counts { records, statics, members, nops, loads, moves, saves, fullest } =
            reduced.counts;
        Sums {
            before: reduced.outcomes.len() as u64,
            after: records.into(),
            nops: nops.into(),
            loads: loads.into(),
            moves: moves.into(),
            saves: saves.into(),
            values: statics.into(),
            locations: members.into(),
            registers: input.settings.count_regs,
            fullest,
            uncovered: uncovered as u64,
        }
    }

    pub fn add(&mut self, other: &Sums) {
        self.before += other.before;
        self.after += other.after;
        self.nops += other.nops;
        self.loads += other.loads;
        self.moves += other.moves;
        self.saves += other.saves;
        self.values += other.values;
        self.locations += other.locations;
        self.registers = self.registers.max(other.registers);
        self.fullest = self.fullest.max(other.fullest);
        self.uncovered += other.uncovered;
    }

    /// What there was before and is after, and what was dropped.
    fn shortened(&self) -> String {
        let sorts =
            [(self.nops, "nop"), (self.loads, "load"), (self.moves, "move"), (self.saves, "save")];
        let dropped = sorts.iter().filter(|(count, _)| *count > 0);
        let dropped: Vec<String> = dropped.map(|(count, name)| number_of(*count, name)).collect();
        let dropped = if dropped.is_empty() { "nothing".to_string() } else { dropped.join(", ") };
        let before = number_of(self.before, "instruction");
        format!("{before} before, {} after; dropped: {dropped}", self.after)
    }

    /// What became of a list, and how full the registers get.
    pub fn summary(&self, count_regs: u32) -> Page {
        Page::plain(&format!("{}\n{}\n", self.shortened(), fullest(self.fullest, count_regs)))
    }

    /// What became of several lists, and how full the registers get in any of them.
    pub fn total(&self) -> Page {
        let fullest = match self.fullest {
            0 => fullest(0, 0),
            most => format!("at most {} needed at once in one list", number_of(most, "register")),
        };
        let mut page = Page::default();
        let lines = wrap(&self.shortened(), WIDTH).into_iter();
        lines.chain([fullest]).for_each(|line| page.add(Style::Plain, line));
        page
    }

    /// The numbers, with what each is for people and for programs.
    fn rows(&self) -> [(&'static str, &'static str, u64); 11] {
        [
            ("instructions before", "before", self.before),
            ("instructions after", "after", self.after),
            ("nops dropped", "nops", self.nops),
            ("loads dropped", "loads", self.loads),
            ("moves dropped", "moves", self.moves),
            ("saves dropped", "saves", self.saves),
            ("values written to general registers", "values", self.values),
            ("locations read", "locations", self.locations),
            ("general registers", "registers", self.registers.into()),
            ("most registers needed at once", "fullest", self.fullest.into()),
            ("instructions that no theorem covers", "uncovered", self.uncovered),
        ]
    }

    /// The numbers alone, one to a line.
    pub fn table(&self) -> Page {
        let rows = self.rows().map(|(name, _, number)| (name, number.to_string()));
        let name = rows.iter().map(|(name, _)| name.len()).max().unwrap_or(0);
        let number = rows.iter().map(|(_, number)| number.len()).max().unwrap_or(0);
        let mut page = Page::default();
        for (of, count) in &rows {
            page.add(Style::Plain, format!("{of:name$}  {count:>number$}"));
        }
        page
    }

    /// The numbers, for programs.
    pub fn fields(&self) -> Fields {
        self.rows().map(|(_, name, number)| (name, Json::Number(number))).to_vec()
    }
}
