//! Reducing a list.

use super::{entry, refusal, Refusal};

entry! {
    fn rudzaviks_optimize(
        list: *const u32,
        list_len: usize,
        table: *const u32,
        table_len: usize,
        count_regs: u32,
        args: u32,
        complex: u32,
        arm: u32,
        compress: u32,
        out: *mut u32,
        out_len: usize,
        colours: *mut u32,
        colours_len: usize,
        ends: *mut u32,
        ends_len: usize,
        set: *mut u32,
        set_len: usize,
        counts: *mut u32,
        counts_len: usize,
    ) -> u64;
}

/// How many numbers `Counts` has.
const COUNTS: usize = 8;

/// What a list is reduced for.
#[derive(Clone, Copy, Debug, Default, PartialEq, Eq)]
pub struct Settings {
    /// How many Gen registers there are, at most 64.
    pub count_regs: u32,
    /// How many arguments the list has, at most 65,535.
    pub args: u32,
    /// Whether an argument takes two Stack cells.
    pub complex: bool,
    /// Whether it is for Arm. It changes no answer.
    pub arm: bool,
    /// Whether every register counts as used.
    pub compress: bool,
}

/// How many records, statics and members of the read set there are, how many records of each sort
/// were dropped, and how many registers were in use at once.
#[derive(Clone, Copy, Debug, PartialEq, Eq)]
pub struct Counts {
    /// Records that are left.
    pub records: u32,
    /// Statics: general registers written, each time anew.
    pub statics: u32,
    /// Locations in the read set.
    pub members: u32,
    /// Dropped Nop.
    pub nops: u32,
    /// Dropped Load and LoadComplex.
    pub loads: u32,
    /// Dropped Mov.
    pub moves: u32,
    /// Dropped Save and SaveComplex.
    pub saves: u32,
    /// How full the registers got: each time that one is chosen for a value, those are counted that
    /// are still in use past the record, and this is the most. At most `count_regs`; 0 exactly if no
    /// record reads a general register.
    pub fullest: u32,
}

/// What becomes of a list.
#[derive(Clone, Copy, Debug, PartialEq, Eq)]
pub enum Answer {
    /// It is reduced, and the lent slices say to what.
    Reduced(Counts),
    /// It is not, and the lent slices are as they were.
    Refused(Refusal),
}

/// The slices that are lent to be written. Each may be longer than is asked; the words past those
/// that are written stay as they are, and all words do if the list is refused.
#[derive(Debug, PartialEq, Eq)]
pub struct Lent<'a> {
    /// Starts with the reduced list. At least as long as the list.
    pub out: &'a mut [u32],
    /// Starts with the statics' colours, in order. At least two words per record.
    pub colours: &'a mut [u32],
    /// Starts with the statics' ends, in order. At least two words per record.
    pub ends: &'a mut [u32],
    /// Starts with the read set, a space and an index for each member, in joining order. At least
    /// four words per record and the table's length.
    pub set: &'a mut [u32],
    /// Starts with the counts, in their order. At least eight words.
    pub counts: &'a mut [u32],
}

/// Room for the slices of one list, which [`Lent`] explains.
#[derive(Clone, Debug, PartialEq, Eq)]
#[allow(missing_docs)]
pub struct Buffers {
    pub out: Vec<u32>,
    pub colours: Vec<u32>,
    pub ends: Vec<u32>,
    pub set: Vec<u32>,
    pub counts: Vec<u32>,
}

impl Settings {
    /// Stack cells below this index are looked at after the run; from it on they are the list's
    /// own.
    pub fn fixed_mark(self) -> u64 {
        let slots = if self.complex { 2 } else { 1 };
        slots * u64::from(self.args) + 16
    }

    /// The settings as an entry takes them.
    pub(crate) fn words(self) -> [u32; 5] {
        let [complex, arm, compress] = [self.complex, self.arm, self.compress].map(u32::from);
        [self.count_regs, self.args, complex, arm, compress]
    }

    /// The meaning of the words; a flag is set if its word is not 0.
    pub(crate) fn from_words(words: [u32; 5]) -> Settings {
        let [count_regs, args, complex, arm, compress] = words;
        let [complex, arm, compress] = [complex, arm, compress].map(|flag| flag != 0);
        Settings { count_regs, args, complex, arm, compress }
    }
}

impl Answer {
    /// The meaning of a word that the entry answers, with the counts that it leaves.
    pub fn from_words(word: u64, counts: &[u32]) -> Answer {
        if let Some(refusal) = refusal(word) {
            return Answer::Refused(refusal);
        }
        let [records, statics, members, nops, loads, moves, saves, fullest] =
            *counts.first_chunk::<COUNTS>().expect("the entry asks for room for the counts");
        Answer::Reduced(Counts { records, statics, members, nops, loads, moves, saves, fullest })
    }
}

impl Buffers {
    /// As much room as a list and a table of these lengths need, in words.
    pub fn new(list_len: usize, table_len: usize) -> Buffers {
        let records = list_len / 8;
        Buffers {
            out: vec![0; list_len],
            colours: vec![0; 2 * records],
            ends: vec![0; 2 * records],
            set: vec![0; 4 * records + table_len],
            counts: vec![0; COUNTS],
        }
    }

    /// The slices, to be lent.
    pub fn lend(&mut self) -> Lent<'_> {
        Lent {
            out: &mut self.out,
            colours: &mut self.colours,
            ends: &mut self.ends,
            set: &mut self.set,
            counts: &mut self.counts,
        }
    }
}

/// Reduces the list into the lent slices.
pub fn optimize(list: &[u32], table: &[u32], settings: Settings, mut lent: Lent) -> Answer {
    let word = optimize_word(list, table, settings.words(), &mut lent);
    Answer::from_words(word, lent.counts)
}

/// `optimize` as the entry answers it. The settings are in their order; a flag is set if its word
/// is not 0.
pub fn optimize_word(list: &[u32], table: &[u32], settings: [u32; 5], lent: &mut Lent) -> u64 {
    let [count_regs, args, complex, arm, compress] = settings;
    // SAFETY: every slice is lent for the call, with its length; the entry only reads the list and
    // the table, and no two of the others overlap, each being borrowed to be changed.
    unsafe {
        rudzaviks_optimize(
            list.as_ptr(),
            list.len(),
            table.as_ptr(),
            table.len(),
            count_regs,
            args,
            complex,
            arm,
            compress,
            lent.out.as_mut_ptr(),
            lent.out.len(),
            lent.colours.as_mut_ptr(),
            lent.colours.len(),
            lent.ends.as_mut_ptr(),
            lent.ends.len(),
            lent.set.as_mut_ptr(),
            lent.set.len(),
            lent.counts.as_mut_ptr(),
            lent.counts.len(),
        )
    }
}

#[cfg(test)]
mod tests {
    use super::*;

    #[test]
    fn words_have_their_meaning() {
        let counts = Counts {
            records: 65_536,
            statics: 1,
            members: 2,
            nops: 3,
            loads: 4,
            moves: 5,
            saves: 6,
            fullest: 7,
        };
        let words = [65_536, 1, 2, 3, 4, 5, 6, 7, 8];
        assert_eq!(Answer::from_words(65_536, &words), Answer::Reduced(counts));
        assert_eq!(Answer::from_words(65_536, &words[..8]), Answer::Reduced(counts));
        let refusal = Refusal { number: 9, index: 65_535 };
        assert_eq!(Answer::from_words((9 << 32) | 65_535, &words), Answer::Refused(refusal));
        let refusal = Refusal { number: 4, index: 0 };
        assert_eq!(Answer::from_words(4 << 32, &[]), Answer::Refused(refusal));
    }

    #[test]
    fn settings_go_in_their_order() {
        let settings = Settings { count_regs: 64, args: 7, ..Settings::default() };
        assert_eq!(settings.words(), [64, 7, 0, 0, 0]);
        assert_eq!(Settings { complex: true, ..settings }.words(), [64, 7, 1, 0, 0]);
        assert_eq!(Settings { arm: true, ..settings }.words(), [64, 7, 0, 1, 0]);
        assert_eq!(Settings { compress: true, ..settings }.words(), [64, 7, 0, 0, 1]);
    }

    #[test]
    fn buffers_have_the_room_that_is_asked() {
        let mut buffers = Buffers::new(24, 4);
        let Lent { out, colours, ends, set, counts } = buffers.lend();
        let room = [out.len(), colours.len(), ends.len(), set.len(), counts.len()];
        assert_eq!(room, [24, 6, 6, 16, 8]);
    }
}
