//! Reducing a list that comes as a file.

use super::{entry, refusal, Refusal};

entry! {
    fn rudzaviks_reduce(file: *const u8, file_len: usize, out: *mut u8, out_len: usize) -> u64;
}

/// Reduces the list of a file, all in words of four bytes, low byte first: the five settings, the
/// count of pairs and the pairs, the count of records and the records. Gives the number of records
/// that are left; the output then starts with that number and the records.
///
/// The output must have room for the number and for as many records as the file has.
pub fn reduce(file: &[u8], out: &mut [u8]) -> Result<usize, Refusal> {
    let word = reduce_word(file, out);
    match refusal(word) {
        Some(refusal) => Err(refusal),
        None => Ok(word as usize),
    }
}

/// `reduce` as the entry answers it.
pub fn reduce_word(file: &[u8], out: &mut [u8]) -> u64 {
    // SAFETY: both slices are lent for the call, with their lengths; the entry only reads the file,
    // and the output does not overlap it, being borrowed to be changed.
    unsafe { rudzaviks_reduce(file.as_ptr(), file.len(), out.as_mut_ptr(), out.len()) }
}
