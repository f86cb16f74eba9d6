//! Files that are too short, too long, or count too many.

use super::support::{agree, passes, refuses};
use crate::arbitrary::any_word;
use harness::answers::refused;
use harness::file::{bytes, encode, record_count, room, with_word, MOST, PAIR_COUNT};
use harness::how_many;
use harness::lists::{list, List, Profile};
use harness::random::Random;
use harness::record::WORDS;
use rudzaviks::ffi::reduce_word;

/// Numbers of records and of pairs.
const SIZES: [[usize; 2]; 8] =
    [[0, 0], [1, 0], [0, 1], [1, 1], [3, 2], [11, 6], [40, 100], [MOST, MOST]];

fn lists(random: &mut Random) -> [List; 8] {
    SIZES.map(|[records, pairs]| list(random, &Profile { pairs, ..Profile::plain(records) }))
}

#[test]
fn too_short_and_too_long() {
    let mut random = Random::new(1001);
    for list in lists(&mut random) {
        passes(&mut random, &list);
        let file = encode(&list, 1);
        for by in (1..=8).chain([16, 28, 32, 33]).filter(|by| *by <= file.len()) {
            refuses(&mut random, &file[..file.len() - by], room(&list), 3);
            for fill in [0, 1, 255] {
                refuses(&mut random, &[&file[..], &vec![fill; by]].concat(), room(&list), 3);
            }
            agree(&mut random, &file[by..], room(&list));
        }
    }
}

/// The missing bytes stand right behind the slice.
#[test]
fn a_part_of_a_file() {
    let mut random = Random::new(1002);
    for list in &lists(&mut random)[..6] {
        let file = encode(list, 1);
        let mut out = vec![165; room(list)];
        for end in 0..file.len() {
            assert_eq!(reduce_word(&file[..end], &mut out), refused((3, 0)), "{end} bytes");
        }
        assert!(out.iter().all(|byte| *byte == 165));
        assert!(reduce_word(&file, &mut out) <= list.records() as u64);
    }
}

/// Empty slices, wherever they point.
#[test]
fn nothing_lent() {
    assert_eq!(reduce_word(&[], &mut []), refused((3, 0)));
    assert_eq!(reduce_word(&[0; 28], &mut []), refused((4, 0)));
    let mut out = [165; 8];
    assert_eq!(reduce_word(&[], &mut out), refused((3, 0)));
    assert_eq!(out, [165; 8]);
}

#[test]
fn every_short_length() {
    let mut random = Random::new(1003);
    for len in 0..=40 {
        for fill in [0, 1, 255] {
            for out_len in 0..=40 {
                agree(&mut random, &vec![fill; len], out_len);
            }
        }
    }
}

#[test]
fn short_files_of_any_words() {
    let mut random = Random::new(1004);
    let mut passed = 0;
    let files = how_many(200_000);
    for _ in 0..files {
        let words: Vec<u32> = (0..10).map(|_| any_word(&mut random)).collect();
        let len = if random.percent(50) { random.index(41) } else { 4 * random.index(11) };
        let out_len = random.index(41);
        let word = agree(&mut random, &bytes(&words)[..len], out_len);
        passed += u64::from(word == 0);
    }
    assert!(passed > files / 500, "{passed}");
}

/// Either count too high or too low for the file, too high for any file, or right but for one bit,
/// so that a product of it may wrap around to the right length.
#[test]
fn wrong_counts() {
    let mut random = Random::new(1005);
    for list in lists(&mut random) {
        let file = encode(&list, 1);
        let counts = [list.table.len() / 2, list.records()].map(|count| count as u32);
        for (at, count) in [PAIR_COUNT, record_count(&list)].into_iter().zip(counts) {
            let high = [513, 514, 1_023, 1_024, 65_536, 1 << 31, u32::MAX - 1, u32::MAX];
            let wrapping = (10..32).map(|bit| count ^ (1 << bit));
            for wrong in high.into_iter().chain(wrapping) {
                refuses(&mut random, &with_word(&file, at, wrong), room(&list), 3);
            }
            for near in [count.wrapping_sub(1), count + 1] {
                agree(&mut random, &with_word(&file, at, near), room(&list));
            }
        }
        for count in [513, u32::MAX] {
            let both = with_word(&file, PAIR_COUNT, count);
            let both = with_word(&both, record_count(&list), count);
            refuses(&mut random, &both, room(&list), 3);
        }
    }
}

/// As long as they say, and too long by no more than their last entry.
#[test]
fn one_entry_over_the_limit() {
    let mut random = Random::new(1006);
    for [records, pairs] in [[MOST + 1, 0], [0, MOST + 1], [MOST + 1, MOST], [MOST, MOST + 1]] {
        let mut list = list(&mut random, &Profile { pairs, ..Profile::plain(records) });
        refuses(&mut random, &encode(&list, 1), room(&list), 3);
        list.words.truncate(MOST * WORDS);
        list.table.truncate(MOST * 2);
        agree(&mut random, &encode(&list, 1), room(&list));
    }
}

/// The form comes before every question.
#[test]
fn the_form_decides() {
    let mut random = Random::new(1007);
    for mut list in lists(&mut random) {
        list.settings.count_regs = 65;
        refuses(&mut random, &encode(&list, 1), 0, 1);
        list.settings.args = 65_536;
        for record in list.words.chunks_exact_mut(WORDS) {
            record[0] = 21;
        }
        let file = encode(&list, 1);
        for out_len in [0, room(&list) - 1, room(&list)] {
            refuses(&mut random, &file, out_len, 1);
            refuses(&mut random, &file[..file.len() - 1], out_len, 3);
            refuses(&mut random, &[&file[..], &[0]].concat(), out_len, 3);
            for at in [PAIR_COUNT, record_count(&list)] {
                refuses(&mut random, &with_word(&file, at, 513), out_len, 3);
            }
        }
    }
}
