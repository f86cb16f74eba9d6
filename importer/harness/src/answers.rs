//! The words that the C entries are to answer: what a copy of the original leaves, or the refusal
//! of the first question that is answered no. A mask of used registers is stated a second time, and
//! is the original's wherever that can tell it.
//!
//! Bits 32 to 55 hold the question's number, 0 for none. With a number, bits 0 to 31 hold the
//! record's index.

use std::collections::HashMap;

use crate::file;
use crate::lent::{has_room, Lent, PARTS};
use crate::lists::{List, USED_REGS};
use crate::questions::{refusal, refusal_beside, Refusal};
use crate::reduced::Reduced;
use crate::tally::By;
use crate::{run, used};

/// The place of a label that no Label has.
pub const ABSENT: u32 = 4_294_967_295;

/// What an entry is to answer and to leave.
#[derive(Debug, PartialEq, Eq)]
pub struct Answer<L> {
    /// The number of records that are left, or the label's place; or a refusal.
    pub word: u64,
    /// What the slices, or the output, then start with. A refusal puts nothing there.
    pub lent: L,
    pub by: By,
}

impl<L: Default> Answer<L> {
    fn refused(no: Refusal) -> Answer<L> {
        Answer { word: refused(no), lent: L::default(), by: By::Question }
    }

    fn reduced(list: &List, lent: impl Fn(&Reduced) -> L) -> Answer<L> {
        let both = run::both(list);
        let (by, reduced) = (both.by(), both.expected());
        Answer { word: u64::from(reduced.counts()[0]), lent: lent(&reduced), by }
    }
}

pub fn refused((number, index): Refusal) -> u64 {
    (u64::from(number) << 32) | index as u64
}

/// What is said of a list that passes.
struct Said {
    /// Register r has bit r.
    mask: u64,
    /// The last index of each label, by the original.
    labels: HashMap<String, usize>,
}

impl Said {
    fn of(list: &List) -> Said {
        let mut mir = run::mir(list).expect("a list that passes has a meaning");
        mir.populate_labels();
        let mask = used::mask(list);
        if list.settings.count_regs <= USED_REGS {
            assert_eq!(mask as u32, used::by_original(&mir), "{list:?}");
        }
        Said { mask, labels: mir.labels }
    }

    /// The index of the last Label with the number, or ABSENT.
    fn place(&self, label: u32) -> u32 {
        self.labels.get(&label.to_string()).map_or(ABSENT, |index| *index as u32)
    }
}

/// What `survey` is to answer, whatever label it is asked for: the original runs only once.
pub struct Survey {
    /// With a slice that has room.
    with_room: Result<Said, Refusal>,
    /// With one that has not.
    too_short: Refusal,
}

impl Survey {
    pub fn of(list: &List) -> Survey {
        let no = |room| refusal_beside(list.settings.count_regs, &list.words, &list.table, room);
        let with_room = match no(true) {
            Some(no) => Err(no),
            None => Ok(Said::of(list)),
        };
        Survey { with_room, too_short: no(false).expect("a refusal, at the latest by 4") }
    }

    /// The answer with a slice of this many words, and what the slice then starts with.
    pub fn answer(&self, label: u32, parts_len: usize) -> Answer<Vec<u32>> {
        if parts_len < PARTS {
            return Answer::refused(self.too_short);
        }
        match &self.with_room {
            Ok(said) => {
                let place = said.place(label);
                let mask = said.mask;
                let lent = vec![mask as u32, (mask >> 32) as u32, mask.count_ones(), place];
                Answer { word: u64::from(place), lent, by: By::Original }
            }
            Err(no) => Answer::refused(*no),
        }
    }

    /// The mask, or a refusal.
    pub fn mask(&self) -> Result<u64, Refusal> {
        self.with_room.as_ref().map(|said| said.mask).map_err(|no| *no)
    }

    /// The registers alone, in one word: the mask's low word in bits 0 to 31, how many registers the
    /// whole mask names in bits 56 to 63; or a refusal.
    pub fn registers(&self) -> u64 {
        match self.mask() {
            Ok(mask) => (u64::from(mask.count_ones()) << 56) | (mask & 0xffff_ffff),
            Err(no) => refused(no),
        }
    }
}

/// The answer with slices of these lengths.
pub fn optimize(list: &List, lengths: [usize; 5]) -> Answer<Lent> {
    let room = has_room(list, lengths);
    match refusal(&list.settings, &list.words, &list.table, room) {
        Some(no) => Answer::refused(no),
        None => Answer::reduced(list, Reduced::lent),
    }
}

/// The list of a file, where it passes with an output of this many bytes; else the refusal.
pub fn passing(file: &[u8], out_len: usize) -> Result<List, Refusal> {
    let list = file::decode(file).ok_or((3, 0))?;
    let room = file::room(&list) <= out_len;
    match refusal(&list.settings, &list.words, &list.table, room) {
        Some(no) => Err(no),
        None => Ok(list),
    }
}

/// The answer to a file with an output of this many bytes.
pub fn reduce(file: &[u8], out_len: usize) -> Answer<Vec<u8>> {
    match passing(file, out_len) {
        Ok(list) => Answer::reduced(&list, |reduced| file::output(&reduced.words)),
        Err(no) => Answer::refused(no),
    }
}
