//! Random files, reduced through the C entry and by the copies of the original.

use super::support::{agree, agree_with_room, passes};
use crate::arbitrary::{any_word, arbitrary_list};
use harness::damage::{damaged, damaged_branches};
use harness::file::{encode, room, with_word, MOST};
use harness::how_many;
use harness::lists::{any_branch_list, any_list, list, two_part_list, List, Profile};
use harness::questions::LAST;
use harness::random::Random;
use harness::record::WORDS;
use harness::roles::KINDS;
use harness::settings::set_flag;
use harness::tally::Tally;

/// One bit for each kind that the list has.
fn kinds(list: &List) -> u32 {
    list.words.chunks_exact(WORDS).fold(0, |kinds, record| kinds | 1 << record[0])
}

fn passing(seed: u64, lists: u64) {
    let mut random = Random::new(seed);
    let mut times = [0u64; KINDS];
    let mut shortened = 0;
    let mut tally = Tally::default();
    for _ in 0..lists {
        let list = any_list(&mut random, 80);
        let (left, by) = passes(&mut random, &list);
        tally.add(by);
        shortened += u64::from(left < list.records());
        let kinds = kinds(&list);
        for (kind, times) in times.iter_mut().enumerate() {
            *times += u64::from(kinds >> kind & 1);
        }
    }
    assert!(shortened > lists / 4, "{shortened}");
    assert!(times.iter().all(|times| *times > lists / 20), "{times:?}");
    tally.print(&format!("reduce, any lists of seed {seed}"));
}

#[test]
fn passing_lists() {
    passing(801, how_many(500_000) / 2);
}

#[test]
fn more_passing_lists() {
    passing(802, how_many(500_000) / 2);
}

#[test]
fn two_part_lists() {
    let mut random = Random::new(811);
    let mut tally = Tally::default();
    for _ in 0..how_many(100_000) {
        let list = two_part_list(&mut random, 20);
        tally.add(passes(&mut random, &list).1);
    }
    tally.print("reduce, two-part lists");
}

#[test]
fn lists_with_branches() {
    let mut random = Random::new(812);
    let lists = how_many(100_000);
    let (mut tally, mut times) = (Tally::default(), [0u64; LAST + 1]);
    for _ in 0..lists {
        let list = any_branch_list(&mut random, 40);
        tally.add(passes(&mut random, &list).1);
        let copy = damaged_branches(&mut random, &list);
        count(&mut times, agree_with_room(&mut random, &copy));
    }
    tally.print("reduce, lists with branches");
    for number in [0, 5, 6, 7, 8, 9, 15, 16] {
        assert!(times[number] > lists / 500, "{times:?}");
    }
}

/// A list of any profile with so many records and pairs.
fn sized(random: &mut Random, records: usize, pairs: usize) -> List {
    let profile = Profile::random(random, 0);
    let cells = random.pick(&[1, 2, 6, 40, 2_000]);
    list(random, &Profile { records, pairs, cells, ..profile })
}

#[test]
fn lists_up_to_the_limits() {
    let mut random = Random::new(803);
    for _ in 0..how_many(200_000) / 25 {
        let [records, pairs] = [0, 1].map(|_| random.index(MOST + 1));
        let list = sized(&mut random, records, pairs);
        passes(&mut random, &list);
    }
}

#[test]
fn as_many_records_and_pairs_as_may_be() {
    let mut random = Random::new(804);
    for _ in 0..how_many(200_000) / 200 {
        let list = sized(&mut random, MOST, MOST);
        passes(&mut random, &list);
        let copy = damaged(&mut random, &list);
        agree_with_room(&mut random, &copy);
    }
}

/// Counts the question that an answered word names, 0 for none.
fn count(times: &mut [u64; LAST + 1], word: u64) {
    times[(word >> 32) as usize] += 1;
}

#[test]
fn damaged_copies() {
    let mut random = Random::new(805);
    let lists = how_many(200_000);
    let mut times = [0u64; LAST + 1];
    for _ in 0..lists {
        let list = any_list(&mut random, 80);
        let copy = damaged(&mut random, &list);
        count(&mut times, agree_with_room(&mut random, &copy));
    }
    for number in [0, 1, 2, 3, 5, 6, 7, 8, 9] {
        assert!(times[number] > lists / 200, "{times:?}");
    }
}

/// Damages copies of files, also in their settings and counts, and lends outputs that may be a
/// little too short.
fn damaged_files(seed: u64, damage: impl Fn(&mut Random, &mut Vec<u8>)) {
    let mut random = Random::new(seed);
    let lists = how_many(200_000);
    let mut times = [0u64; LAST + 1];
    for _ in 0..lists {
        let list = any_list(&mut random, 16);
        let mut file = encode(&list, set_flag(&mut random));
        for _ in 0..random.between(1, 3) {
            damage(&mut random, &mut file);
        }
        let short = if random.percent(95) { 0 } else { random.index(5) };
        count(&mut times, agree(&mut random, &file, room(&list) - short));
    }
    for number in [0, 1, 2, 3, 4, 5, 6, 7, 9] {
        assert!(times[number] > lists / 500, "{times:?}");
    }
}

#[test]
fn flipped_bits() {
    damaged_files(806, |random, file| {
        let at = random.index(file.len());
        file[at] ^= 1 << random.below(8);
    });
}

#[test]
fn changed_words() {
    damaged_files(807, |random, file| {
        let at = 4 * random.index(file.len() / 4);
        *file = with_word(file, at, any_word(random));
    });
}

#[test]
fn bytes_put_in_or_taken_out() {
    let mut random = Random::new(808);
    for _ in 0..how_many(200_000) / 4 {
        let list = any_list(&mut random, 16);
        let mut file = encode(&list, set_flag(&mut random));
        let at = random.index(file.len());
        let end = (at + random.index(5)).min(file.len());
        file.splice(at..end, (0..random.below(5)).map(|_| random.word() as u8).collect::<Vec<_>>());
        agree(&mut random, &file, room(&list));
    }
}

#[test]
fn any_words() {
    let mut random = Random::new(809);
    for _ in 0..how_many(200_000) {
        let list = arbitrary_list(&mut random);
        agree_with_room(&mut random, &list);
    }
}

#[test]
fn any_bytes() {
    let mut random = Random::new(810);
    for _ in 0..how_many(200_000) / 4 {
        let file: Vec<u8> = (0..random.below(400)).map(|_| random.word() as u8).collect();
        let out_len = random.index(400);
        agree(&mut random, &file, out_len);
    }
}
