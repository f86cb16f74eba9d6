//! The operation beside the passes: which registers a list uses, and where a label is.

use super::{entry, refusal, Refusal};

entry! {
    fn rudzaviks_survey(
        list: *const u32,
        list_len: usize,
        table: *const u32,
        table_len: usize,
        count_regs: u32,
        compress: u32,
        label: u32,
        parts: *mut u32,
        parts_len: usize,
    ) -> u64;
}

/// How many words the entry writes: the mask's low and high word, how many registers it names, and
/// the label's place.
pub const PARTS: usize = 4;

/// What one walk over a list gives.
#[derive(Clone, Copy, Debug, PartialEq, Eq)]
pub struct Survey {
    /// Register r has bit r.
    pub mask: u64,
    /// How many bits are set.
    pub count: u32,
    /// Where the list has the label.
    pub place: Place,
}

/// Where a list has a label.
#[derive(Clone, Copy, Debug, PartialEq, Eq)]
pub enum Place {
    /// The index of the last Label with the number.
    At(u32),
    /// No Label has the number.
    Absent,
}

impl Place {
    /// The meaning of a word that the entry writes.
    fn from_word(word: u32) -> Place {
        match word {
            u32::MAX => Place::Absent,
            index => Place::At(index),
        }
    }
}

impl Survey {
    /// The meaning of the words that the entry writes.
    pub fn from_parts([low, high, count, place]: [u32; PARTS]) -> Survey {
        let mask = u64::from(high) << 32 | u64::from(low);
        Survey { mask, count, place: Place::from_word(place) }
    }
}

/// The registers that the list writes, and BranchIf's conditions, every one of 64 if `compress`; and
/// the place of the last Label with the number.
pub fn survey(
    list: &[u32],
    table: &[u32],
    count_regs: u32,
    compress: bool,
    label: u32,
) -> Result<Survey, Refusal> {
    let mut parts = [0; PARTS];
    let word = survey_word(list, table, count_regs, u32::from(compress), label, &mut parts);
    match refusal(word) {
        Some(refusal) => Err(refusal),
        None => Ok(Survey::from_parts(parts)),
    }
}

/// `survey` as the entry answers it: the label's place or a refusal. `compress` is set if not 0;
/// `parts` should have room for PARTS words.
pub fn survey_word(
    list: &[u32],
    table: &[u32],
    count_regs: u32,
    compress: u32,
    label: u32,
    parts: &mut [u32],
) -> u64 {
    // SAFETY: the slices are lent for the call, with their lengths; the entry writes into the last.
    unsafe {
        rudzaviks_survey(
            list.as_ptr(),
            list.len(),
            table.as_ptr(),
            table.len(),
            count_regs,
            compress,
            label,
            parts.as_mut_ptr(),
            parts.len(),
        )
    }
}

#[cfg(test)]
mod tests {
    use super::*;

    #[test]
    fn words_have_their_meaning() {
        let all = Survey { mask: u64::MAX, count: 64, place: Place::At(65_535) };
        assert_eq!(Survey::from_parts([u32::MAX, u32::MAX, 64, 65_535]), all);
        let none = Survey { mask: 0, count: 0, place: Place::At(0) };
        assert_eq!(Survey::from_parts([0, 0, 0, 0]), none);
        let high = Survey { mask: 5 << 32 | 6, count: 4, place: Place::Absent };
        assert_eq!(Survey::from_parts([6, 5, 4, u32::MAX]), high);
    }
}
