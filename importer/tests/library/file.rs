//! Lists as files: they come back, the entry for files answers as that for words does, and what is
//! no file to the entry is none to the library.

use crate::support::{each_list, instructions, records, settings};
use harness::file::{decode, encode, record_count, with_word, PAIR_COUNT};
use harness::how_many;
use harness::lists::{any_list, list, List, Profile};
use harness::random::Random;
use harness::record::WORDS;
use rudzaviks::file::{self, Malformed, TooLong, MOST, NO_FILE};
use rudzaviks::record::Records;

#[test]
fn lists_come_back_from_their_files() {
    each_list(81, how_many(20_000), 600, |list| {
        let (records, settings) = (records(list), settings(list));
        match file::write(&records, &settings) {
            Ok(bytes) => assert_eq!(file::read(&bytes), Ok((records, settings))),
            Err(too_long) => {
                assert!(records.len() > MOST);
                let pairs = records.table.len() / 2;
                assert_eq!(too_long, TooLong { records: records.len(), pairs });
            }
        }
    });
}

#[test]
fn lists_come_back_from_their_records() {
    each_list(82, how_many(20_000), 300, |list| {
        let code = instructions(list);
        let records = Records::new(&code);
        assert_eq!(records.instructions().as_ref(), Ok(&code));
        // Its own table has the pairs that are named, and those alone.
        assert!(records.table.chunks_exact(2).all(|pair| has_pair(list, pair)));
    });
}

fn has_pair(list: &List, pair: &[u32]) -> bool {
    list.table.chunks_exact(2).any(|other| other == pair)
}

#[test]
fn both_entries_leave_the_same() {
    each_list(83, how_many(20_000), 300, |list| {
        let bytes = file::write(&records(list), &settings(list)).expect("a list that fits");
        let left = file::reduce(&bytes).expect("a list that passes");
        let left = Records { list: left, table: list.table.clone() }.instructions();
        let reduced = rudzaviks::reduce(&instructions(list), &settings(list)).unwrap();
        assert_eq!(left, Ok(reduced.list));
    });
}

/// How often bytes were a file, and how often they were none for each reason.
#[derive(Default)]
struct Tally {
    files: u64,
    none: [u64; 5],
}

impl Tally {
    /// Counts bytes, on which the library, the entry and the harness must agree.
    fn count(&mut self, bytes: &[u8]) {
        let read = file::read(bytes);
        let expected = decode(bytes).map(|list| (records(&list), settings(&list)));
        assert_eq!(read.as_ref().ok(), expected.as_ref());
        assert_eq!(read.is_err(), file::reduce(bytes) == Err(NO_FILE));
        match read {
            Ok(_) => self.files += 1,
            Err(why) => self.none[reason(&why, bytes)] += 1,
        }
    }
}

/// The number of the reason, which must be true of the bytes.
fn reason(why: &Malformed, file: &[u8]) -> usize {
    let word = |at: u32| u32::from_le_bytes(*file[at as usize..].first_chunk().expect("a word"));
    let has_counts = |pairs: u32, records: u32| {
        assert_eq!((pairs, records), (word(20), word(24 + 8 * pairs)));
    };
    match *why {
        Malformed::TooShort { bytes } => {
            assert!(bytes == file.len() && bytes < 28);
            0
        }
        Malformed::TooManyPairs { pairs, most } => {
            assert!(pairs == word(20) && pairs > 512 && most == 512);
            1
        }
        Malformed::NoRecordCount { bytes, pairs } => {
            assert!(pairs == word(20) && bytes == file.len() && bytes < 28 + 8 * pairs as usize);
            2
        }
        Malformed::TooManyRecords { pairs, records, most } => {
            has_counts(pairs, records);
            assert!(records > 512 && most == 512);
            3
        }
        Malformed::WrongLength { bytes, pairs, records } => {
            has_counts(pairs, records);
            assert!(bytes == file.len() && bytes != (28 + 8 * pairs + 32 * records) as usize);
            4
        }
    }
}

/// A word that a count may be.
fn any_count(random: &mut Random) -> u32 {
    match random.below(4) {
        0 => random.below(8),
        1 => random.between(505, 520),
        2 => 1 << random.below(32),
        _ => random.word(),
    }
}

/// A copy of a list's file with something changed that may make it none.
fn damaged(random: &mut Random, list: &List) -> Vec<u8> {
    let mut file = encode(list, 1);
    match random.below(5) {
        0 => file.truncate(random.index(file.len())),
        1 => file.extend(vec![0; random.index(40)]),
        2 => file = with_word(&file, PAIR_COUNT, any_count(random)),
        3 => file = with_word(&file, record_count(list), any_count(random)),
        _ => {
            let at = random.index(file.len());
            file[at] = random.word() as u8;
        }
    }
    file
}

/// That such bytes are a file to both or to none, and that enough of them are, and are none for each
/// reason.
fn agree(seed: u64, count: u64, files: u64, mut bytes: impl FnMut(&mut Random) -> Vec<u8>) {
    let mut random = Random::new(seed);
    let mut tally = Tally::default();
    for _ in 0..count {
        tally.count(&bytes(&mut random));
    }
    assert!(tally.files > files, "{}", tally.files);
    assert!(tally.none.iter().all(|none| *none > count / 100), "{:?}", tally.none);
}

#[test]
fn damaged_files_are_files_to_both_or_to_none() {
    let count = how_many(20_000);
    agree(84, count, count / 10, |random| {
        let list = any_list(random, 60);
        damaged(random, &list)
    });
}

/// Random bytes, three in four with counts as a file has them, as far as there is room.
fn any_bytes(random: &mut Random) -> Vec<u8> {
    let length = if random.percent(50) { random.below(120) } else { 28 + 8 * random.below(12) };
    let mut bytes: Vec<u8> = (0..length).map(|_| random.word() as u8).collect();
    if length < 28 || random.percent(25) {
        return bytes;
    }
    let pairs = random.below(4);
    bytes = with_word(&bytes, PAIR_COUNT, pairs);
    let at = PAIR_COUNT + 4 + 8 * pairs as usize;
    if at + 4 > bytes.len() {
        return bytes;
    }
    let records = if random.percent(75) { random.below(4) } else { any_count(random) };
    with_word(&bytes, at, records)
}

#[test]
fn random_bytes_are_files_to_both_or_to_none() {
    let count = how_many(100_000);
    agree(85, count, count / 100, any_bytes);
}

#[test]
fn a_part_of_a_file_is_none_to_both() {
    let mut random = Random::new(86);
    let mut tally = Tally::default();
    for [records, pairs] in [[0, 0], [0, 1], [1, 0], [1, 1], [3, 2], [11, 40]] {
        let list = list(&mut random, &Profile { pairs, ..Profile::plain(records) });
        let file = encode(&list, 1);
        (0..=file.len()).for_each(|length| tally.count(&file[..length]));
        (1..=40).for_each(|more| tally.count(&[&file[..], &vec![0; more]].concat()));
    }
    assert_eq!(tally.files, 6);
}

/// A list of so many records, each a Nop, and so many pairs of zeros.
fn zeros(records: usize, pairs: usize) -> List {
    let settings = harness::settings::Settings { count_regs: 1, ..Default::default() };
    List { settings, table: vec![0; 2 * pairs], words: vec![0; WORDS * records] }
}

#[test]
fn a_list_too_long_for_the_entry_can_be_read() {
    for [records, pairs] in
        [[0, MOST + 1], [MOST + 1, 0], [65_536, 0], [1, 32_768], [65_536, 32_768]]
    {
        let list = zeros(records, pairs);
        let file = encode(&list, 1);
        assert_eq!(file::reduce(&file), Err(NO_FILE));
        assert!(file::read(&file).is_err());
        let (read, settings) = file::read_long(&file).expect("a list");
        assert_eq!((read.len(), read.table.len()), (records, 2 * pairs));
        assert_eq!(settings.count_regs, 1);
        for wrong in [&file[..file.len() - 1], &[&file[..], &[0]].concat()] {
            assert!(file::read_long(wrong).is_err());
        }
    }
    let over = |records: usize, pairs: usize| file::read_long(&encode(&zeros(records, pairs), 1));
    let why = Malformed::TooManyPairs { pairs: 32_769, most: 32_768 };
    assert_eq!(over(0, 32_769), Err(why));
    let why = Malformed::TooManyRecords { pairs: 1, records: 65_537, most: 65_536 };
    assert_eq!(over(65_537, 1), Err(why));
}

#[test]
fn whatever_is_a_file_is_a_long_one_too() {
    each_list(87, how_many(20_000), 300, |list| {
        let file = encode(list, 1);
        assert_eq!(file::read_long(&file), Ok((records(list), settings(list))));
    });
}
