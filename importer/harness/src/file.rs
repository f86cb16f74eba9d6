//! A list as a file of bytes, and what is left of it as an output of bytes.
//!
//! All words are 32 bits, little-endian. A file is the five settings, the pair count and the pairs,
//! the record count and the records. An output is a record count and records.

use crate::lists::List;
use crate::record::WORDS;
use crate::settings::Settings;

/// The most pairs, and the most records, that a file may have.
pub const MOST: usize = 512;

/// The longest file, in bytes.
pub const LONGEST: usize = 20_508;

/// Where a file has the pair count, in bytes.
pub const PAIR_COUNT: usize = 20;

pub fn bytes(words: &[u32]) -> Vec<u8> {
    words.iter().flat_map(|word| word.to_le_bytes()).collect()
}

/// The words of these bytes; none where the last word is not whole.
pub fn words(bytes: &[u8]) -> Option<Vec<u32>> {
    let (words, rest) = bytes.as_chunks();
    rest.is_empty().then(|| words.iter().map(|word| u32::from_le_bytes(*word)).collect())
}

/// The file of a list, of any length; `flag` is the word of one that is set.
pub fn encode(list: &List, flag: u32) -> Vec<u8> {
    let mut words = list.settings.words(flag).to_vec();
    words.push(list.table.len() as u32 / 2);
    words.extend(&list.table);
    words.push(list.records() as u32);
    words.extend(&list.words);
    bytes(&words)
}

/// Where the file of a list has the record count, in bytes.
pub fn record_count(list: &List) -> usize {
    PAIR_COUNT + 4 + 4 * list.table.len()
}

/// A copy of a file with another word at a place, in bytes.
pub fn with_word(file: &[u8], at: usize, word: u32) -> Vec<u8> {
    let mut file = file.to_vec();
    file[at..at + 4].copy_from_slice(&word.to_le_bytes());
    file
}

/// The list of a file; none where a count is over 512, or the file too short or too long.
pub fn decode(file: &[u8]) -> Option<List> {
    let words = words(file)?;
    let mut rest = &words[..];
    let settings = Settings::from_words(rest.split_off(..5)?.try_into().ok()?);
    let table = counted(&mut rest, 2)?;
    let words = counted(&mut rest, WORDS)?;
    rest.is_empty().then_some(List { settings, table, words })
}

/// Takes off a count and as many entries, each of the given length.
fn counted(rest: &mut &[u32], entry: usize) -> Option<Vec<u32>> {
    let count = *rest.split_off_first()? as usize;
    if count > MOST {
        return None;
    }
    Some(rest.split_off(..entry * count)?.to_vec())
}

/// The fewest bytes that question 4 asks of an output.
pub fn room(list: &List) -> usize {
    4 + 32 * list.records()
}

/// An output with these records, and nothing after them.
pub fn output(records: &[u32]) -> Vec<u8> {
    let count = records.len() / WORDS;
    bytes(&[&[count as u32], records].concat())
}

/// The records that an output starts with; none where it is too short for as many as it counts.
pub fn records(output: &[u8]) -> Option<Vec<u32>> {
    let (words, _) = output.as_chunks();
    let mut words = words.iter().map(|word| u32::from_le_bytes(*word));
    let count = words.next()? as usize;
    let records: Vec<u32> = words.take(WORDS * count).collect();
    (records.len() == WORDS * count).then_some(records)
}
