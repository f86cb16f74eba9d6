//! Random lists, surveyed through the C entry, beside what is expected: the mask by the original,
//! and with more than 32 registers by the plain statement. Questions 15 and 16 would refuse some.

use super::support::{agree, labels, question};
use harness::damage::damaged;
use harness::limits::MOST_REGS;
use harness::lists::{any_drawn, drawn, Profile, USED_REGS};
use harness::random::Random;
use harness::settings::Settings;
use harness::{answers, how_many, limits};
use rudzaviks::ffi::{survey, Place, Refusal, Survey};

fn passing(seed: u64, lists: u64) {
    let mut random = Random::new(seed);
    let (mut present, mut repeated, mut absent, mut compressed) = (0, 0, 0, 0);
    let [mut narrow, mut wide] = [0; 2];
    for _ in 0..lists {
        let list = any_drawn(&mut random, 80);
        agree(&list, &labels(&list));
        let all = list.labels();
        present += u64::from(!all.is_empty());
        repeated += u64::from(all.first().is_some_and(|label| all[1..].contains(label)));
        absent += u64::from(!all.contains(&5));
        compressed += u64::from(list.settings.compress);
        *(if list.settings.count_regs > USED_REGS { &mut wide } else { &mut narrow }) += 1;
    }
    let times = [present, repeated, absent, compressed, narrow, wide];
    assert!(times.iter().all(|times| *times > lists / 50), "{times:?}");
}

#[test]
fn passing_lists() {
    passing(101, how_many(500_000));
}

#[test]
fn more_passing_lists() {
    passing(102, how_many(500_000));
}

#[test]
fn damaged_copies() {
    let mut random = Random::new(103);
    let lists = how_many(500_000);
    let mut times = [0u64; 10];
    for _ in 0..lists {
        let list = any_drawn(&mut random, 80);
        let list = damaged(&mut random, &list);
        agree(&list, &labels(&list));
        times[question(&list)] += 1;
    }
    for number in [0, 1, 3, 5, 6, 7] {
        assert!(times[number] > lists / 100, "{times:?}");
    }
}

#[test]
fn longer_lists() {
    let mut random = Random::new(104);
    for _ in 0..how_many(500_000) / 2_500 {
        let list = any_drawn(&mut random, 5_000);
        agree(&list, &labels(&list));
        let list = damaged(&mut random, &list);
        agree(&list, &labels(&list));
    }
}

#[test]
fn lists_at_the_limits() {
    for (_, list) in limits::lists() {
        agree(&list, &labels(&list));
    }
}

/// The decoded form says the same as the words.
#[test]
fn decoded_answers() {
    let mut random = Random::new(105);
    for _ in 0..2_000 {
        let count_regs = random.between(0, 66);
        let settings = Settings { count_regs, compress: random.percent(20), ..Settings::default() };
        let list = drawn(&mut random, &Profile { settings, ..Profile::plain(12) });
        let surveyed = survey(&list.words, &list.table, count_regs, settings.compress, 1);
        if count_regs > MOST_REGS {
            assert_eq!(surveyed, Err(Refusal { number: 1, index: 0 }));
            continue;
        }
        let mask = answers::Survey::of(&list).mask().expect("a list that passes");
        let place = match list.words.chunks(8).rposition(|record| record[..2] == [15, 1]) {
            Some(index) => Place::At(index as u32),
            None => Place::Absent,
        };
        assert_eq!(surveyed, Ok(Survey { mask, count: mask.count_ones(), place }));
    }
}
