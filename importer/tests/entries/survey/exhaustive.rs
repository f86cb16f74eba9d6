//! Short lists, all of them as far as that makes sense.

use super::support::agree;
use harness::lists::List;
use harness::settings::Settings;

/// Words at and around every limit.
const VALUES: [u32; 27] = [
    0,
    1,
    2,
    3,
    4,
    5,
    14,
    15,
    19,
    20,
    21,
    31,
    32,
    33,
    63,
    64,
    65,
    255,
    256,
    257,
    259,
    260,
    65_536,
    1 << 31,
    (1 << 31) + 1,
    u32::MAX - 1,
    u32::MAX,
];

fn one_record(count_regs: u32, compress: bool, record: [u32; 8]) -> List {
    let settings = Settings { count_regs, compress, ..Settings::default() };
    List { settings, table: vec![0, 16, 1, u32::MAX, 2, 0, 3, 0], words: record.to_vec() }
}

#[test]
fn every_kind_with_one_word_changed() {
    for kind in 0..=21 {
        for count_regs in [0, 1, 2, 31, 32, 33, 63, 64, 65] {
            for word in 0..8 {
                for value in VALUES {
                    let mut record = [kind, 0, 0, 0, 0, 0, 0, 0];
                    record[word] = value;
                    agree(&one_record(count_regs, false, record), &[0, value]);
                    agree(&one_record(count_regs, true, record), &[0]);
                }
            }
        }
    }
}

#[test]
fn every_kind_with_two_words_changed() {
    for kind in 0..=21 {
        for first in 1..8 {
            for second in first + 1..8 {
                for (a, b) in VALUES.iter().flat_map(|a| VALUES.map(|b| (*a, b))) {
                    let mut record = [kind, 0, 0, 0, 0, 0, 0, 0];
                    record[first] = a;
                    record[second] = b;
                    agree(&one_record(4, false, record), &[0]);
                }
            }
        }
    }
}

/// Every register word in every place of every kind, the other registers named or not.
#[test]
fn every_register_in_every_place() {
    for kind in 0..=20 {
        for other in [0, 256] {
            for word in 1..8 {
                for register in 0..262 {
                    let mut record = [kind, 0, 0, 0, 0, 0, 0, 0];
                    let words: &[usize] = registers(kind);
                    words.iter().for_each(|place| record[*place] = other);
                    record[word] = register;
                    for count_regs in [17, 32, 64] {
                        agree(&one_record(count_regs, false, record), &[0]);
                    }
                }
            }
        }
    }
}

fn registers(kind: u32) -> &'static [usize] {
    match kind {
        2 | 18 | 19 => &[2, 3],
        3 => &[2, 3, 4],
        4 | 7 | 8 => &[1, 2],
        5 | 6 | 9 | 17 => &[1],
        13 => &[2, 3, 4, 5],
        14 => &[1, 2, 3],
        20 => &[2, 3, 4, 5, 6, 7],
        _ => &[],
    }
}

/// Both destinations of the two-part kinds, each any register.
#[test]
fn every_two_destinations() {
    for (x, y) in (0..260).flat_map(|x| (0..260).map(move |y| (x, y))) {
        for count_regs in [32, 64] {
            agree(&one_record(count_regs, false, [7, x, y, 0, 0, 0, 0, 0]), &[0]);
            agree(&one_record(count_regs, false, [20, 0, x, y, 256, 256, 256, 256]), &[0]);
        }
    }
}

/// Every list of up to six records out of four: two labels, a branch to one, a Nop.
#[test]
fn every_short_list_of_labels() {
    let records = [[15, 0], [15, 1], [16, 0], [0, 0]];
    for len in 0..=6 {
        for code in 0..4usize.pow(len) {
            let choice = |at: u32| records[code / 4usize.pow(at) % 4];
            let words = (0..len).flat_map(|at| [choice(at), [0; 2], [0; 2], [0; 2]].concat());
            let list =
                List { settings: Settings::default(), table: vec![], words: words.collect() };
            agree(&list, &[0, 1, 2]);
        }
    }
}

/// Every span over a table of four pairs, with each pair bad in turn.
#[test]
fn every_span_and_bad_pair() {
    for bad in 0..=4 {
        for (first, count) in (0..7).flat_map(|first| (0..7).map(move |count| (first, count))) {
            let mut list = one_record(0, false, [10, first, count, 0, 0, 0, 0, 0]);
            list.table = vec![0, 16, 1, u32::MAX, 2, 0, 0, u32::MAX];
            if bad < 4 {
                list.table[2 * bad] = 3;
            }
            agree(&list, &[0]);
        }
    }
}

#[test]
fn every_short_length() {
    for words in 0..40 {
        for table in 0..8 {
            let settings = Settings::default();
            let list = List { settings, table: vec![0; table], words: vec![0; words] };
            agree(&list, &[0]);
        }
    }
}
