//! Random lists, reduced through the C entry and by the copies of the original.

use super::support::{agree_with_room, passes};
use crate::arbitrary::arbitrary_list;
use crate::support::shown;
use harness::damage::damaged;
use harness::limits::MOST_REGS;
use harness::lists::{all_live_list, any_list, list, two_part_list, wide_list, List, Profile};
use harness::questions::LAST;
use harness::random::Random;
use harness::settings::Settings;
use harness::tally::Tally;
use harness::{how_many, limits, run};
use rudzaviks::ffi::{self, optimize, Answer, Buffers, Counts};

/// What was met in lists that pass, and by whose answers they were compared.
#[derive(Default)]
struct Met {
    times: [u64; 8],
    tally: Tally,
}

impl Met {
    fn add(&mut self, random: &mut Random, list: &List) {
        let (counts, by) = passes(random, list);
        self.tally.add(by);
        let Counts { statics, members, nops, loads, moves, saves, .. } = counts;
        let many = u32::from(members > 20);
        let complex = u32::from(list.settings.complex);
        let seen = [statics, members, nops, loads, moves, saves, many, complex];
        for (times, seen) in self.times.iter_mut().zip(seen) {
            *times += u64::from(seen > 0);
        }
    }

    /// Each of them was met, more than once in a hundred lists.
    fn print(&self, lists: u64, what: &str) {
        assert!(self.times.iter().all(|times| *times > lists / 100), "{:?}", self.times);
        self.tally.print(what);
    }
}

fn passing(seed: u64, lists: u64) {
    let mut random = Random::new(seed);
    let mut met = Met::default();
    for _ in 0..lists {
        let list = any_list(&mut random, 200);
        met.add(&mut random, &list);
    }
    met.print(lists, &format!("optimize, any lists of seed {seed}"));
}

#[test]
fn passing_lists() {
    passing(501, how_many(1_000_000) / 2);
}

#[test]
fn more_passing_lists() {
    passing(502, how_many(1_000_000) / 2);
}

#[test]
fn wide_lists() {
    let mut random = Random::new(511);
    let mut met = Met::default();
    let lists = how_many(200_000);
    for _ in 0..lists {
        let list = wide_list(&mut random, 200);
        met.add(&mut random, &list);
        let list = damaged(&mut random, &list);
        agree_with_room(&mut random, &list);
    }
    met.print(lists, "optimize, lists of more than 32 registers");
}

/// Every number of registers, with records between the loads and the saves or with none: then every
/// colour is taken.
#[test]
fn all_registers_live() {
    let mut random = Random::new(512);
    for _ in 0..how_many(200_000) / 1_000 {
        for count_regs in 0..=MOST_REGS {
            for most in [0, 40] {
                let list = all_live_list(&mut random, count_regs, most);
                let (counts, _) = passes(&mut random, &list);
                assert!(counts.statics >= count_regs, "{}", shown(&list));
            }
        }
    }
}

/// Up to so many records each.
fn two_part(seed: u64, lists: u64, most_records: u32) {
    let mut random = Random::new(seed);
    let mut tally = Tally::default();
    for _ in 0..lists {
        let list = two_part_list(&mut random, most_records);
        tally.add(passes(&mut random, &list).1);
    }
    tally.print(&format!("optimize, two-part lists of up to {most_records} records"));
}

#[test]
fn two_part_lists() {
    two_part(509, how_many(300_000), 12);
}

#[test]
fn longer_two_part_lists() {
    two_part(510, how_many(300_000) / 10, 32);
}

#[test]
fn damaged_copies() {
    let mut random = Random::new(503);
    let lists = how_many(200_000);
    let mut times = [0u64; LAST + 1];
    for _ in 0..lists {
        let list = any_list(&mut random, 80);
        let list = damaged(&mut random, &list);
        let number = match agree_with_room(&mut random, &list) {
            Answer::Reduced(_) => 0,
            Answer::Refused(refusal) => refusal.number as usize,
        };
        times[number] += 1;
    }
    for number in [0, 1, 2, 3, 5, 6, 7, 8, 9] {
        assert!(times[number] > lists / 200, "{times:?}");
    }
}

#[test]
fn any_words() {
    let mut random = Random::new(504);
    for _ in 0..how_many(200_000) {
        let list = arbitrary_list(&mut random);
        agree_with_room(&mut random, &list);
    }
}

#[test]
fn longer_lists() {
    let mut random = Random::new(505);
    for _ in 0..how_many(200_000) / 1_000 {
        let list = any_list(&mut random, 5_000);
        passes(&mut random, &list);
        let list = damaged(&mut random, &list);
        agree_with_room(&mut random, &list);
    }
}

/// Of all kinds, with few locations and with many.
#[test]
fn the_longest_lists() {
    let mut random = Random::new(508);
    for cells in [1, 2, 6, 40, 2_000] {
        let settings = Profile::random(&mut random, 0).settings;
        let profile = Profile { settings, cells, ..Profile::plain(limits::MOST_RECORDS) };
        let list = list(&mut random, &profile);
        passes(&mut random, &list);
    }
}

/// The decoded form says the same as the words.
#[test]
fn decoded_answers() {
    let mut random = Random::new(507);
    for _ in 0..2_000 {
        let list = any_list(&mut random, 80);
        let list = if random.percent(50) { list } else { damaged(&mut random, &list) };
        let (words, table) = (&list.words, &list.table);
        let Settings { count_regs, args, complex, arm, compress } = list.settings;
        let settings = ffi::Settings { count_regs, args, complex, arm, compress };
        let mut buffers = Buffers::new(words.len(), table.len());
        let answer = optimize(words, table, settings, buffers.lend());
        assert_eq!(answer, agree_with_room(&mut random, &list));
        if let Answer::Reduced(counts) = answer {
            let expected = run::reduced(&list);
            assert_eq!(buffers.out[..8 * counts.records as usize], expected.words);
            assert_eq!(buffers.set[..2 * counts.members as usize], expected.lent()[3]);
        }
    }
}
