//! Running the original on a list of records: its unchanged copy, and the amended one.

use std::fmt;

use oracle::{AmendedAllocator, Config, GreedyAllocator, Instruction, Loc, Mir, MirWriter, Reg};

use crate::lists::List;
use crate::record::{decode_list, encode_list, spans, WORDS};
use crate::reduced::Reduced;
use crate::tally::By;

/// The list as the original holds it; none if a record has no meaning.
pub fn mir(list: &List) -> Option<Mir> {
    let mut mir = Mir::new(list.settings.config());
    for ins in decode_list(&list.words, &list.table)? {
        mir.code.push(&ins);
    }
    Some(mir)
}

/// A copy of the original, to be run as any other.
pub trait Allocator: fmt::Debug {
    fn new(config: Config, count_regs: usize) -> Self;

    /// Reduces a list. Panics as the original does.
    fn optimize(&mut self, mir: &mut Mir);
}

pub type Unchanged = GreedyAllocator;
pub type Amended = AmendedAllocator;

macro_rules! copies {
    ($($copy:ty),*) => {$(
        impl Allocator for $copy {
            fn new(config: Config, count_regs: usize) -> Self {
                <$copy>::new(config, count_regs)
            }

            fn optimize(&mut self, mir: &mut Mir) {
                <$copy>::optimize(self, mir).expect("no carried-over function makes an error");
            }
        }
    )*};
}

copies!(Unchanged, Amended);

/// A list and a copy of the original, ready for it.
pub struct Ready<A> {
    mir: Mir,
    allocator: A,
}

impl<A: Allocator> Ready<A> {
    /// Panics where a record has no meaning.
    pub fn new(list: &List) -> Ready<A> {
        let count_regs = list.settings.count_regs as usize;
        Ready {
            mir: mir(list).expect("each record has a meaning"),
            allocator: A::new(list.settings.config(), count_regs),
        }
    }

    /// Reduces the list. Panics as the original does.
    pub fn optimize(&mut self) {
        self.allocator.optimize(&mut self.mir);
    }

    /// The records, those of the given list or what is left of them.
    fn words(&self, list: &List) -> Vec<u32> {
        encode_list(self.mir.code.iter(), &list.table, &spans(&list.words))
    }

    /// The statics' colours and ends, in order. They are private in the original, but its Debug
    /// text has a line for each: `σ0 := (Static { reg: %1, end: 2 })`.
    fn statics(&self) -> Vec<(u32, u32)> {
        let text = format!("{:?}", self.allocator);
        let number = |text: &str| text.parse().ok();
        let pair = |line: &str| {
            let (_, numbers) = line.split_once('%')?;
            let (colour, rest) = numbers.split_once(',')?;
            let end = rest.strip_prefix(" end: ")?.strip_suffix(" })")?;
            Some((number(colour)?, number(end)?))
        };
        let lines = text.lines().filter(|line| line.starts_with('σ'));
        lines.map(|line| pair(line).expect("a static's colour and end")).collect()
    }

    /// Which of these Stack cells, all at or above the fixed mark, are in the original's read set.
    /// The set is private there, but is kept for the next list too: of Saves alone, those to
    /// members are left.
    pub fn members_among(&mut self, cells: &[u32]) -> Vec<u32> {
        self.mir.code = MirWriter::new();
        for index in cells {
            self.mir.code.push(&Instruction::Save { src: Reg::Ret, loc: Loc::Stack(*index) });
        }
        self.optimize();
        let left = self.mir.code.iter().map(|ins| match ins {
            Instruction::Save { loc: Loc::Stack(index), .. } => index,
            _ => unreachable!("{ins:?} was not in the list"),
        });
        left.collect()
    }
}

/// All that a copy leaves, or panics.
pub fn left_by<A: Allocator>(list: &List) -> Reduced {
    let mut ready = Ready::<A>::new(list);
    ready.optimize();
    Reduced::new(list, ready.words(list), ready.statics())
}

/// All that the unchanged copy leaves, or panics.
pub fn original(list: &List) -> Reduced {
    left_by::<Unchanged>(list)
}

/// What both copies leave of a list.
pub struct Both {
    pub original: Reduced,
    pub amended: Reduced,
}

/// Runs both copies, or panics. They never part in a colour or an end, nor on a list without
/// two-part loads and saves.
pub fn both(list: &List) -> Both {
    let both = Both { original: original(list), amended: left_by::<Amended>(list) };
    assert_eq!(both.original.statics, both.amended.statics, "{list:?}");
    assert!(both.by() == By::Original || has_two_part(list), "{list:?}");
    both
}

fn has_two_part(list: &List) -> bool {
    list.words.chunks_exact(WORDS).any(|record| record[0] == 7 || record[0] == 8)
}

impl Both {
    /// Whose answer the port is held to.
    pub fn by(&self) -> By {
        if self.original == self.amended {
            By::Original
        } else {
            By::Amended
        }
    }

    /// What the port is to leave. Where the copies agree it is the original's too.
    pub fn expected(self) -> Reduced {
        self.amended
    }
}

/// All that is expected, or panics.
pub fn reduced(list: &List) -> Reduced {
    both(list).expected()
}

/// The reduced list that is expected, or panics.
pub fn optimize(list: &List) -> Vec<u32> {
    reduced(list).words
}
