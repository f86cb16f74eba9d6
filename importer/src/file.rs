//! A list as a file: words of four bytes, low byte first, in the order settings, count of pairs,
//! pairs, count of records, records.
//!
//! ```
//! use rudzaviks::file::{self, Malformed};
//! use rudzaviks::mir::{load_mem, reg};
//! use rudzaviks::record::Records;
//! use rudzaviks::Settings;
//!
//! let settings = Settings { count_regs: 1, ..Settings::default() };
//! let records = Records::new(&[load_mem(reg(0), 3)]);
//! let file = file::write(&records, &settings)?;
//! assert_eq!(file.len(), 60);
//! assert_eq!(file::read(&file)?, (records, settings));
//!
//! let why = file::read(&file[..59]).unwrap_err();
//! assert_eq!(why, Malformed::WrongLength { bytes: 59, pairs: 0, records: 1 });
//! # Ok::<(), Box<dyn std::error::Error>>(())
//! ```

use std::error::Error;
use std::fmt;

use crate::ffi::{self, Refusal, Settings};
use crate::record::{Records, WORDS};

/// The most records, and the most pairs, that a file holds.
pub const MOST: usize = 512;

/// A file that is too short or too long, or has a count over [`MOST`], is refused like this, before
/// any question is put.
pub const NO_FILE: Refusal = Refusal { number: 3, index: 0 };

/// The bytes of a file of no pairs and no records: five settings and two counts.
const LEAST: usize = 28;

/// Where the count of pairs is.
const PAIR_COUNT: usize = 20;

/// Where the pairs are.
const PAIRS: usize = 24;

const PAIR_BYTES: usize = 8;

const RECORD_BYTES: usize = 4 * WORDS;

/// The most that is taken.
struct Limits {
    pairs: usize,
    records: usize,
}

/// Of a file.
const FILE: Limits = Limits { pairs: MOST, records: MOST };

/// Of any list.
const LIST: Limits = Limits { pairs: 32_768, records: 65_536 };

/// Why bytes are no file.
#[derive(Clone, Debug, PartialEq, Eq)]
pub enum Malformed {
    /// They are fewer than any file has.
    TooShort {
        /// How many bytes there are.
        bytes: usize,
    },
    /// The count of pairs is over the most that is taken.
    TooManyPairs {
        /// The count.
        pairs: u32,
        /// The most.
        most: usize,
    },
    /// They end before the count of records, which comes after the pairs.
    NoRecordCount {
        /// How many bytes there are.
        bytes: usize,
        /// The count of pairs.
        pairs: u32,
    },
    /// The count of records is over the most that is taken.
    TooManyRecords {
        /// The count of pairs.
        pairs: u32,
        /// The count of records.
        records: u32,
        /// The most.
        most: usize,
    },
    /// They are fewer or more than the two counts ask for.
    WrongLength {
        /// How many bytes there are.
        bytes: usize,
        /// The count of pairs.
        pairs: u32,
        /// The count of records.
        records: u32,
    },
}

impl Malformed {
    /// How [`reduce`] refuses such bytes.
    pub fn refusal(&self) -> Refusal {
        NO_FILE
    }
}

impl fmt::Display for Malformed {
    fn fmt(&self, f: &mut fmt::Formatter) -> fmt::Result {
        match *self {
            Malformed::TooShort { bytes } => {
                let s = if bytes == 1 { "" } else { "s" };
                let least = "five settings and two counts of four bytes each";
                write!(f, "it has {bytes} byte{s}, and a file has at least {LEAST}: {least}")
            }
            Malformed::TooManyPairs { pairs, most } => {
                let count = format!("its count of pairs, {pairs} at byte {PAIR_COUNT}");
                write!(f, "{count}, is over {}", limit(most))
            }
            Malformed::NoRecordCount { bytes, pairs } => {
                let count = format!("its count of pairs, {pairs} at byte {PAIR_COUNT}");
                let least = length(pairs, 0);
                write!(f, "{count}, asks for at least {least} bytes, and it has {bytes}")
            }
            Malformed::TooManyRecords { pairs, records, most } => {
                let at = record_count(pairs);
                let count = format!("its count of records, {records} at byte {at}");
                write!(f, "{count}, is over {}", limit(most))
            }
            Malformed::WrongLength { bytes, pairs, records } => {
                let at = record_count(pairs);
                let counts = format!("{pairs} at byte {PAIR_COUNT} and {records} at byte {at}");
                write!(f, "its counts of pairs and records, {counts}, ask for ")?;
                write!(f, "{}", wrong_length(bytes, length(pairs, records)))
            }
        }
    }
}

impl Error for Malformed {}

fn wrong_length(bytes: usize, expected: usize) -> String {
    let side = if bytes < expected { "few" } else { "many" };
    format!("{expected} bytes, and it has {bytes}, {} too {side}", bytes.abs_diff(expected))
}

/// The most, and whose it is.
fn limit(most: usize) -> String {
    let whose = if most == MOST { "a file holds" } else { "a list has" };
    format!("{most}, the most that {whose}")
}

/// Where the count of records is, after so many pairs.
fn record_count(pairs: u32) -> usize {
    PAIRS + PAIR_BYTES * pairs as usize
}

/// The bytes of a file.
fn length(pairs: u32, records: u32) -> usize {
    record_count(pairs) + 4 + RECORD_BYTES * records as usize
}

/// A list that is too long for a file.
#[derive(Clone, Debug, PartialEq, Eq)]
pub struct TooLong {
    /// How many records it has.
    pub records: usize,
    /// How many pairs its table has.
    pub pairs: usize,
}

impl fmt::Display for TooLong {
    fn fmt(&self, f: &mut fmt::Formatter) -> fmt::Result {
        let TooLong { records, pairs } = *self;
        let instructions = format!("{MOST} instructions");
        let locations = format!("{MOST} locations of LoadArgs (pairs)");
        let (most, has) = match (records > MOST, pairs > MOST) {
            (true, false) => (instructions, records.to_string()),
            (false, true) => (locations, pairs.to_string()),
            _ => (format!("{instructions} and {locations}"), format!("{records} and {pairs}")),
        };
        write!(f, "a file holds at most {most}, and this list has {has}")
    }
}

impl Error for TooLong {}

/// The file of a list, which must not be longer than a file may be.
pub fn write(records: &Records, settings: &Settings) -> Result<Vec<u8>, TooLong> {
    let pairs = records.table.len() / 2;
    if pairs > MOST || records.len() > MOST {
        return Err(TooLong { records: records.len(), pairs });
    }
    let mut words = settings.words().to_vec();
    words.push(pairs as u32);
    words.extend(&records.table);
    words.push(records.len() as u32);
    words.extend(&records.list);
    Ok(words.into_iter().flat_map(u32::to_le_bytes).collect())
}

/// The list of a file. Its records need not have a meaning.
pub fn read(file: &[u8]) -> Result<(Records, Settings), Malformed> {
    read_within(file, FILE)
}

/// The same of one that may have as many records and pairs as any list, 65,536 and 32,768: too many
/// for [`reduce`], but to be looked at.
pub fn read_long(file: &[u8]) -> Result<(Records, Settings), Malformed> {
    read_within(file, LIST)
}

/// A count is asked whether it is over its limit before any length that follows from it.
fn read_within(file: &[u8], limits: Limits) -> Result<(Records, Settings), Malformed> {
    let bytes = file.len();
    if bytes < LEAST {
        return Err(Malformed::TooShort { bytes });
    }
    let pairs = word(file, PAIR_COUNT);
    if pairs as usize > limits.pairs {
        return Err(Malformed::TooManyPairs { pairs, most: limits.pairs });
    }
    if bytes < length(pairs, 0) {
        return Err(Malformed::NoRecordCount { bytes, pairs });
    }
    let records = word(file, record_count(pairs));
    if records as usize > limits.records {
        return Err(Malformed::TooManyRecords { pairs, records, most: limits.records });
    }
    if bytes != length(pairs, records) {
        return Err(Malformed::WrongLength { bytes, pairs, records });
    }
    let settings = std::array::from_fn(|at| word(file, 4 * at));
    let table = words(&file[PAIRS..record_count(pairs)]);
    let list = words(&file[length(pairs, 0)..]);
    Ok((Records { list, table }, Settings::from_words(settings)))
}

/// The word at a place, in bytes, which must be there.
fn word(file: &[u8], at: usize) -> u32 {
    u32::from_le_bytes(*file[at..].first_chunk().expect("a whole word"))
}

/// The words of bytes that are whole ones.
fn words(bytes: &[u8]) -> Vec<u32> {
    let (words, _) = bytes.as_chunks();
    words.iter().map(|bytes| u32::from_le_bytes(*bytes)).collect()
}

/// Reduces the list of a file; gives the words of the records that are left. They stand for
/// instructions with the file's own table.
pub fn reduce(file: &[u8]) -> Result<Vec<u32>, Refusal> {
    // As long as the file is long enough: it has every record, and more counts than one.
    let mut out = vec![0; file.len()];
    let count = ffi::reduce(file, &mut out)?;
    Ok(words(&out[4..][..count * RECORD_BYTES]))
}

#[cfg(test)]
mod tests {
    use super::*;
    use crate::instruction::{Instruction, Loc};
    use crate::mir::{load_args, load_const, load_mem, nop, reg, save_mem, save_stack};

    /// Case B of document 01, with a LoadArgs behind it.
    fn sample() -> (Records, Settings) {
        let list = [
            load_const(reg(0), 5),
            save_mem(reg(0), 3),
            load_mem(reg(0), 3),
            save_stack(reg(0), 16),
            load_args(vec![Loc::Mem(7)], true),
        ];
        let settings =
            Settings { count_regs: 1, args: 0, complex: true, arm: false, compress: true };
        (Records::new(&list), settings)
    }

    #[test]
    fn a_file_has_its_sections_in_order() {
        let (records, settings) = sample();
        let file = write(&records, &settings).unwrap();
        let (words, rest) = file.as_chunks();
        let words: Vec<u32> = words.iter().map(|bytes| u32::from_le_bytes(*bytes)).collect();
        assert_eq!((&words[..9], rest), (&[1, 0, 1, 0, 1, 1, 1, 7, 5][..], &[][..]));
        assert_eq!(words[9..], records.list);
        assert_eq!(read(&file), Ok((records, settings)));
    }

    #[test]
    fn what_is_left_comes_back_as_records() {
        let (records, settings) = sample();
        let left = reduce(&write(&records, &settings).unwrap()).unwrap();
        assert_eq!(left, [records.record(0), records.record(1), records.record(4)].concat());
    }

    /// What is wrong with these bytes, which [`reduce`] refuses too.
    fn why(file: &[u8]) -> String {
        let why = read(file).expect_err("no file");
        assert_eq!(reduce(file), Err(why.refusal()));
        why.to_string()
    }

    /// A file of five pairs and three records.
    fn five_and_three() -> Vec<u8> {
        let locs = (0..5).map(Loc::Mem).collect();
        let records = Records::new(&[load_args(locs, false), nop(), nop()]);
        write(&records, &Settings::default()).unwrap()
    }

    #[test]
    fn a_file_of_a_wrong_length_is_none() {
        let file = five_and_three();
        let least = "and a file has at least 28: five settings and two counts of four bytes each";
        for (length, has) in [(0, "0 bytes"), (1, "1 byte"), (27, "27 bytes")] {
            assert_eq!(why(&file[..length]), format!("it has {has}, {least}"));
        }
        let pairs = "its count of pairs, 5 at byte 20, asks for at least 68 bytes, and it has ";
        for length in [28, 40, 67] {
            assert_eq!(why(&file[..length]), format!("{pairs}{length}"));
        }
        let both = "its counts of pairs and records, 5 at byte 20 and 3 at byte 64, ask for 164 \
                    bytes, and it has ";
        for (length, few) in [(68, 96), (160, 4), (163, 1)] {
            assert_eq!(why(&file[..length]), format!("{both}{length}, {few} too few"));
        }
        for many in [1, 4, 1000] {
            let longer = [&file[..], &vec![10; many]].concat();
            assert_eq!(why(&longer), format!("{both}{}, {many} too many", 164 + many));
        }
    }

    /// A copy of a file with another word at a place.
    fn with_word(file: &[u8], at: usize, word: u32) -> Vec<u8> {
        let mut file = file.to_vec();
        file[at..at + 4].copy_from_slice(&word.to_le_bytes());
        file
    }

    #[test]
    fn a_count_over_the_most_is_told_before_a_length() {
        let file = five_and_three();
        for count in [513, 600, u32::MAX] {
            let most = "is over 512, the most that a file holds";
            let pairs = format!("its count of pairs, {count} at byte 20, {most}");
            let records = format!("its count of records, {count} at byte 64, {most}");
            assert_eq!(why(&with_word(&file, 20, count)), pairs);
            assert_eq!(why(&with_word(&file[..28], 20, count)), pairs);
            assert_eq!(why(&with_word(&file, 64, count)), records);
            assert_eq!(why(&with_word(&file[..68], 64, count)), records);
        }
        assert!(why(&with_word(&file, 20, 512)).contains("asks for at least 4124 bytes"));
        assert!(why(&with_word(&file, 64, 512)).contains("ask for 16452 bytes"));
    }

    #[test]
    fn a_long_file_may_be_looked_at() {
        let file = five_and_three();
        assert_eq!(read_long(&file), read(&file));
        assert_eq!(read_long(&file[..163]), read(&file[..163]));
        let bytes = file.len();
        let over = with_word(&file, 20, 600);
        assert_eq!(read_long(&over), Err(Malformed::NoRecordCount { bytes, pairs: 600 }));
        let over = with_word(&file, 64, 600);
        let (pairs, records) = (5, 600);
        assert_eq!(read_long(&over), Err(Malformed::WrongLength { bytes, pairs, records }));
        let why = |at: usize, count: u32| {
            read_long(&with_word(&file, at, count)).unwrap_err().to_string()
        };
        assert!(why(20, 32_768).contains("asks for at least 262172 bytes"));
        let pairs = "its count of pairs, 32769 at byte 20, is over 32768, the most that a list has";
        assert_eq!(why(20, 32_769), pairs);
        assert!(why(64, 65_536).contains("ask for 2097220 bytes"));
        let records =
            "its count of records, 65537 at byte 64, is over 65536, the most that a list has";
        assert_eq!(why(64, 65_537), records);
        assert!(why(20, u32::MAX).contains("4294967295 at byte 20, is over 32768"));
    }

    #[test]
    fn a_file_holds_so_much_and_no_more() {
        let settings = Settings::default();
        let most = Records::new(&vec![nop(); MOST]);
        assert_eq!(reduce(&write(&most, &settings).unwrap()), Ok(vec![]));
        let args = |count: u32| load_args((0..count).map(Loc::Mem).collect(), false);
        assert!(write(&Records::new(&[args(512)]), &settings).is_ok());
        let too_long = |list: &[Instruction]| write(&Records::new(list), &settings).unwrap_err();
        let list = too_long(&vec![nop(); 513]);
        assert_eq!(list, TooLong { records: 513, pairs: 0 });
        let table = too_long(&[args(513)]);
        assert_eq!(table, TooLong { records: 1, pairs: 513 });
        let both = too_long(&vec![args(513); 600]);
        let instructions = "a file holds at most 512 instructions";
        assert_eq!(list.to_string(), format!("{instructions}, and this list has 513"));
        let locations = "512 locations of LoadArgs (pairs)";
        let text = format!("a file holds at most {locations}, and this list has 513");
        assert_eq!(table.to_string(), text);
        let text = format!("{instructions} and {locations}, and this list has 600 and 513");
        assert_eq!(both.to_string(), text);
    }
}
