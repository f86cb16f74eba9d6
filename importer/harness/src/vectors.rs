//! Stored answers, for a replay without Rust.
//!
//! All words are 32 bits, little-endian. Word 0 is the number of cases. A case is: the operation;
//! count_regs, args, complex, arm, compress; the label (0 where there is none); the table's length
//! in words and its words; the list's length in words and its words; the answer's low and high
//! word. The operations are
//!
//! - 1, the registers of `survey` alone, of a list of at most 32: the answer is the low word of
//!   their mask in bits 0 to 31 and how many it names in bits 56 to 63, or the refusal. The high
//!   word has every bit with `compress`, and else none;
//! - 2, the label's place of `survey` alone: the answer is the place, or the refusal;
//! - 3, `optimize`, and 4, `survey`: the answer is the entry's, and the lent slices follow, those of
//!   `optimize` being output, colours, ends, set and counts, and that of `survey` its parts.
//!
//! Of the lent slices first come their lengths in words. Then comes for each the number of words
//! that it starts with in the end, and these words; all others are FILL, as they were. With
//! operations 1 and 2 there is room for the parts. Each answer is the questions' or the original's,
//! of `optimize` the amended copy's, a mask of more than 32 registers that of `used`, and the last
//! of the counts that of `fullest`; none is the verified code's.

use crate::damage::Fault::{CountRegs, Kind, OddTable, PartialRecord};
use crate::damage::{damaged, damaged_branches};
use crate::file::bytes;
use crate::kinds::branch;
use crate::lent::{room, Lent, PARTS};
use crate::limits::MOST_REGS;
use crate::lists::{
    all_live_list, any_branch_list, drawn, drawn_narrow, drawn_wide, list, List, Profile, USED_REGS,
};
use crate::random::Random;
use crate::settings::{set_flag, Settings};
use crate::{answers, branch_cases, limits, stored_lists, worked_examples};

/// The replay's buffers hold this many records and pairs.
pub const MOST_RECORDS: usize = 512;
pub const MOST_PAIRS: usize = 512;

/// The lengths of the replay's slices, in words: what these ask for, and four words more.
pub const MOST_LENT: [usize; 5] = [4100, 1028, 1028, 3076, 12];

/// The same for the slice of `survey`: what it asks for, and three words more.
pub const MOST_PARTS: usize = PARTS + 3;

/// What every word of a lent slice is at first.
pub const FILL: u32 = 2_779_096_485;

#[derive(Clone, Debug, PartialEq, Eq)]
pub enum Operation {
    /// The registers of a survey alone.
    Registers,
    /// The place of this label alone.
    Place(u32),
    /// With slices of these lengths.
    Optimize([usize; 5]),
    /// The whole of it.
    Survey { label: u32, parts_len: usize },
}

use Operation::*;

impl Operation {
    /// The operation's number in the file.
    fn number(&self) -> u32 {
        match self {
            Registers => 1,
            Place(_) => 2,
            Optimize(_) => 3,
            Survey { .. } => 4,
        }
    }

    /// The label that is asked for, 0 where there is none.
    fn label(&self) -> u32 {
        match self {
            Registers | Optimize(_) => 0,
            Place(label) | Survey { label, .. } => *label,
        }
    }
}

pub struct Case {
    pub operation: Operation,
    pub list: List,
    /// The word of a flag that is set: any but 0.
    pub flag: u32,
}

impl Case {
    pub fn answer(&self) -> u64 {
        let survey = || answers::Survey::of(&self.list);
        match self.operation {
            Registers => survey().registers(),
            Place(label) => survey().answer(label, PARTS).word,
            Optimize(lengths) => answers::optimize(&self.list, lengths).word,
            Survey { label, parts_len } => survey().answer(label, parts_len).word,
        }
    }

    /// The lent slices' lengths, and what they start with in the end.
    fn lent(&self) -> (Vec<usize>, Vec<Vec<u32>>) {
        match self.operation {
            Registers | Place(_) => (Vec::new(), Vec::new()),
            Optimize(lengths) => {
                (lengths.to_vec(), answers::optimize(&self.list, lengths).lent.to_vec())
            }
            Survey { label, parts_len } => {
                let answer = answers::Survey::of(&self.list).answer(label, parts_len);
                (vec![parts_len], vec![answer.lent])
            }
        }
    }

    fn words(&self) -> Vec<u32> {
        let mut words = vec![self.operation.number()];
        words.extend(self.list.settings.words(self.flag));
        words.push(self.operation.label());
        add_parts(&mut words, &[&self.list.table, &self.list.words]);
        let answer = self.answer();
        words.extend([answer as u32, (answer >> 32) as u32]);
        let (lengths, lent) = self.lent();
        words.extend(lengths.iter().map(|length| *length as u32));
        add_parts(&mut words, &lent.iter().map(Vec::as_slice).collect::<Vec<_>>());
        words
    }
}

/// Each part's length and words.
fn add_parts(words: &mut Vec<u32>, parts: &[&[u32]]) {
    for part in parts {
        words.push(part.len() as u32);
        words.extend(*part);
    }
}

/// Slices as the replay lends them.
pub fn filled(lengths: [usize; 5]) -> Lent {
    lengths.map(|length| vec![FILL; length])
}

struct Builder {
    random: Random,
    cases: Vec<Case>,
}

impl Builder {
    fn add(&mut self, list: List, operation: Operation) {
        let flag = set_flag(&mut self.random);
        self.cases.push(Case { operation, list, flag });
    }

    /// The list for operation 1 or 2: with a label that it has, or with one that it may lack.
    fn add_any(&mut self, list: List) {
        let labels = list.labels();
        let operation = match self.random.below(4) {
            0 | 1 => Registers,
            2 if !labels.is_empty() => Place(self.random.pick(&labels)),
            _ => Place(self.random.pick(&[0, 1, 2, u32::MAX])),
        };
        self.add(list, operation);
    }

    fn add_both(&mut self, list: List, label: u32) {
        self.add(list.clone(), Registers);
        self.add(list, Place(label));
    }

    /// The list to be reduced: slices as long as is asked, or some words longer.
    fn add_optimize(&mut self, list: List) {
        let longer = self.random.index(2) * 3;
        let lengths = room(&list).map(|asked| asked + longer);
        self.add(list, Optimize(lengths));
    }

    /// The list to be reduced, with one slice a word too short.
    fn add_too_short(&mut self, list: List, slice: usize) {
        let mut lengths = room(&list).map(|asked| asked + 1);
        lengths[slice] -= 2;
        self.add(list, Optimize(lengths));
    }

    /// The list to be surveyed for a label: parts as long as is asked, or up to three words longer.
    fn add_survey(&mut self, list: List, label: u32) {
        let parts_len = PARTS + self.random.index(2) * self.random.index(4);
        self.add(list, Survey { label, parts_len });
    }

    /// The same for a label that it has, or for one that it may lack.
    fn add_survey_of_any(&mut self, list: List) {
        let labels = list.labels();
        let label = match self.random.below(4) {
            0..=2 if !labels.is_empty() => self.random.pick(&labels),
            _ => self.random.pick(&[0, 1, 2, u32::MAX]),
        };
        self.add_survey(list, label);
    }

    fn add_reduced_and_surveyed(&mut self, list: List) {
        self.add_optimize(list.clone());
        self.add_survey_of_any(list);
    }
}

/// The cases, always the same ones.
pub fn cases() -> Vec<Case> {
    let mut builder = Builder { random: Random::new(2028), cases: Vec::new() };
    for case in worked_examples::cases() {
        builder.add_both(case.list, 7);
    }
    builder.add_both(largest_fields(USED_REGS), u32::MAX);
    for _ in 0..125 {
        let list = drawn_narrow(&mut builder.random, 16);
        builder.add_any(list.clone());
        let copy = damaged(&mut builder.random, &list);
        builder.add_any(copy);
        let copy = damaged(&mut builder.random, &list);
        builder.add_any(copy);
    }
    add_long(&mut builder);
    add_reduced(&mut builder);
    add_surveyed(&mut builder);
    add_wide(&mut builder);
    add_branches(&mut builder);
    builder.cases
}

/// A list over so many registers, every field as large as it may be.
fn largest_fields(count_regs: u32) -> List {
    limits::largest_fields(Settings { count_regs, ..Settings::default() })
}

/// The longest list and table that fit; then the same with a last record of no kind.
fn add_long(builder: &mut Builder) {
    let profile = Profile { pairs: MOST_PAIRS, labels: 20, ..Profile::plain(MOST_RECORDS) };
    let mut long = drawn(&mut builder.random, &profile);
    let label = long.labels()[0];
    builder.add_both(long.clone(), label);
    long.record_mut(MOST_RECORDS - 1)[0] = 21;
    builder.add(long, Registers);
}

/// Lists to be reduced: known ones, random ones with a damaged copy, each slice too short, the
/// longest list that fits, and three more known ones.
fn add_reduced(builder: &mut Builder) {
    worked_examples::cases().into_iter().for_each(|case| builder.add_optimize(case.list));
    stored_lists::stored().into_iter().for_each(|list| builder.add_optimize(list));
    builder.add_optimize(largest_fields(MOST_REGS));
    for _ in 0..45 {
        let list = drawn_narrow(&mut builder.random, 16);
        builder.add_optimize(list.clone());
        let copy = damaged(&mut builder.random, &list);
        builder.add_optimize(copy);
    }
    for slice in 0..5 {
        let list = drawn(&mut builder.random, &Profile::plain(3));
        builder.add_too_short(list, slice);
    }
    let long = drawn(&mut builder.random, &Profile::plain(MOST_RECORDS));
    builder.add_optimize(long);
    stored_lists::two_part().into_iter().for_each(|named| builder.add_optimize(named.list));
}

/// Lists to be surveyed: known ones, random ones with a damaged copy, many labels with few numbers,
/// and parts that are too short.
fn add_surveyed(builder: &mut Builder) {
    worked_examples::cases().into_iter().for_each(|case| builder.add_survey(case.list, 7));
    builder.add_survey(largest_fields(MOST_REGS), u32::MAX);
    for _ in 0..14 {
        let list = drawn_narrow(&mut builder.random, 12);
        builder.add_survey_of_any(list.clone());
        let copy = damaged(&mut builder.random, &list);
        builder.add_survey_of_any(copy);
    }
    for turn in 0..8 {
        let profile = Profile::labelled(&mut builder.random, 12, USED_REGS);
        let mut list = drawn(&mut builder.random, &profile);
        list.settings.compress = turn % 2 == 0;
        builder.add_survey(list, turn / 2);
    }
    add_parts_too_short(builder);
}

/// Each length that is too short: for a list that passes, which is refused by 4, and for one with a
/// fault, which comes with room as well. Questions 1 and 3 come before the fourth, 5 after it.
fn add_parts_too_short(builder: &mut Builder) {
    for parts_len in 0..PARTS {
        let list = drawn(&mut builder.random, &Profile::plain(3));
        builder.add(list, Survey { label: 0, parts_len });
    }
    for (parts_len, fault) in [CountRegs, PartialRecord, OddTable, Kind].into_iter().enumerate() {
        let mut list = drawn(&mut builder.random, &Profile::plain(3));
        fault.put(&mut builder.random, &mut list, 0);
        builder.add(list.clone(), Survey { label: 0, parts_len });
        builder.add_survey(list, 0);
    }
}

/// Lists of more than 32 registers, to be reduced and surveyed: a known one, some with all registers
/// live at once, and random ones with a damaged copy, the last of which has one register too many.
fn add_wide(builder: &mut Builder) {
    builder.add_optimize(stored_lists::every_colour_holds(MOST_REGS));
    let live = live_lists(&mut builder.random);
    let mut compressed = live[0].clone();
    compressed.settings.compress = true;
    live.into_iter().for_each(|list| builder.add_reduced_and_surveyed(list));
    builder.add_survey_of_any(compressed);
    for turn in 0..6 {
        let list = drawn_wide(&mut builder.random, 12);
        builder.add_reduced_and_surveyed(list.clone());
        let too_many = Settings { count_regs: MOST_REGS + 1, ..list.settings };
        let copy = match turn {
            5 => List { settings: too_many, ..list },
            _ => damaged(&mut builder.random, &list),
        };
        builder.add_reduced_and_surveyed(copy);
    }
}

/// Lists with branches, to be reduced: known ones, of which those that 15 or 16 refuses are surveyed
/// too; random ones with a damaged copy; and the longest list that fits, which passes, then with a
/// branch to no Label at the very end.
fn add_branches(builder: &mut Builder) {
    builder.add_optimize(stored_lists::branches().list);
    for case in branch_cases::cases() {
        if let Some((15 | 16, _)) = case.refused {
            builder.add_survey_of_any(case.list.clone());
        }
        builder.add_optimize(case.list);
    }
    for _ in 0..40 {
        let list = any_branch_list(&mut builder.random, 16);
        builder.add_optimize(list.clone());
        let copy = damaged_branches(&mut builder.random, &list);
        builder.add_optimize(copy);
    }
    let mut long = list(&mut builder.random, &Profile::plain(MOST_RECORDS));
    builder.add_optimize(long.clone());
    long.record_mut(MOST_RECORDS - 1).copy_from_slice(&branch(65_535));
    builder.add_optimize(long);
}

/// Lists with all registers live at once, without and with records between. Of each the records
/// alone tell the mask.
fn live_lists(random: &mut Random) -> Vec<List> {
    let sizes =
        [33, 48, 63, 64].into_iter().flat_map(|count_regs| [(count_regs, 0), (count_regs, 6)]);
    let live = |(count_regs, most)| {
        let mut list = all_live_list(random, count_regs, most);
        list.settings.compress = false;
        list
    };
    sizes.map(live).collect()
}

/// The whole file.
pub fn file() -> Vec<u8> {
    let cases = cases();
    let mut words = vec![cases.len() as u32];
    words.extend(cases.iter().flat_map(Case::words));
    bytes(&words)
}
