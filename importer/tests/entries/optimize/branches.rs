//! Lists with many labels and branches, reduced through the C entry and by the copies of the
//! original.

use super::refusals::refused;
use super::support::{agree_with_room, compared_with_room, passes};
use harness::damage::damaged_branches;
use harness::kinds::{branch, branch_if, label, load_const};
use harness::limits::MOST_RECORDS;
use harness::lists::{any_branch_list, branch_list, List, Profile};
use harness::mended::{mended, target, with_targets};
use harness::questions::LAST;
use harness::random::Random;
use harness::settings::Settings;
use harness::short::{Alphabet, Cells};
use harness::sorts::Sorts;
use harness::tally::{By, Tally};
use harness::{branch_cases, how_many, lists, run};
use rudzaviks::ffi::Answer;

/// A damaged copy comes with one list in so many.
const DAMAGED: u64 = 4;

/// How often each question refused a list, 0 for none.
#[derive(Debug, Default)]
struct Refused([u64; LAST + 1]);

impl Refused {
    fn add(&mut self, answer: &Answer) {
        self.0[match answer {
            Answer::Reduced(_) => 0,
            Answer::Refused(no) => no.number as usize,
        }] += 1;
    }
}

fn with_branches(seed: u64, lists: u64, generate: fn(&mut Random, u32) -> List) {
    let mut random = Random::new(seed);
    let (mut sorts, mut tally, mut copies) =
        (Sorts::default(), Tally::default(), Refused::default());
    let mut dropped = [0u64; 4];
    for turn in 0..lists {
        let list = generate(&mut random, 40);
        let (counts, by) = passes(&mut random, &list);
        tally.add(by);
        sorts.add(&list);
        let of_list = [counts.nops, counts.loads, counts.moves, counts.saves];
        dropped.iter_mut().zip(of_list).for_each(|(times, count)| *times += u64::from(count > 0));
        if turn % DAMAGED == 0 {
            let copy = damaged_branches(&mut random, &list);
            copies.add(&agree_with_room(&mut random, &copy));
        }
    }
    let what = format!("optimize, lists with branches of seed {seed}");
    tally.print(&what);
    sorts.print(&what, lists);
    println!("{what}: nops, loads, moves and saves dropped in {dropped:?}");
    println!("{what}: damaged copies by question {:?}", copies.0);
    assert!(dropped.iter().all(|times| *times > lists / 50), "{dropped:?}");
    for number in [0, 2, 5, 6, 7, 9, 15, 16] {
        assert!(copies.0[number] > lists / DAMAGED / 500, "{number}: {copies:?}");
    }
}

#[test]
fn lists_with_branches() {
    with_branches(521, how_many(500_000) / 2, branch_list);
}

#[test]
fn lists_with_branches_of_all_kinds() {
    with_branches(522, how_many(500_000) / 2, any_branch_list);
}

#[test]
fn longer_lists_with_branches() {
    let mut random = Random::new(523);
    for _ in 0..how_many(200_000) / 1_000 {
        let list = any_branch_list(&mut random, 4_000);
        passes(&mut random, &list);
        let copy = damaged_branches(&mut random, &list);
        agree_with_room(&mut random, &copy);
    }
}

/// Lists as they are drawn: those that 15 or 16 refuses leave the oracle runs, for the original
/// reduces them.
#[test]
fn lists_that_leave_the_oracle_runs() {
    let mut random = Random::new(524);
    let lists = how_many(200_000);
    let mut refused = Refused::default();
    for _ in 0..lists {
        let profile = Profile::branching(&mut random, 24);
        let list = lists::drawn(&mut random, &Profile { fresh: false, ..profile });
        let answer = agree_with_room(&mut random, &list);
        refused.add(&answer);
        if let Answer::Refused(no) = answer {
            assert!(matches!(no.number, 15 | 16), "{no:?}");
            run::both(&list);
        }
    }
    let [stale, lost] = [15, 16].map(|number| refused.0[number]);
    println!(
        "optimize, drawn lists: {stale} by 15 and {lost} by 16 of {lists} left the oracle runs"
    );
    assert!([0, 15, 16].iter().all(|number| refused.0[*number] > lists / 20), "{refused:?}");
}

#[test]
fn lists_by_hand() {
    let mut random = Random::new(525);
    for case in branch_cases::cases() {
        match (agree_with_room(&mut random, &case.list), case.refused) {
            (Answer::Reduced(_), None) => {}
            (answer, Some((number, index))) => {
                assert_eq!(answer, refused(number, index), "{}", case.name);
            }
            (answer, None) => panic!("{answer:?}: {}", case.name),
        }
    }
}

/// Mov, Load, Save, LoadConst, and labels and branches of two numbers: alone, and with both Labels
/// behind them.
#[test]
fn every_short_list_with_branches() {
    let mut random = Random::new(526);
    let mut alphabet = Alphabet::new(&[4, 5, 6, 9, 15, 16, 17], Cells(16, 1));
    alphabet.records.extend([label(1), branch(1), branch_if(0, 1, 1), branch_if(1, 1, 0)]);
    let mut refused = Refused::default();
    let mut tally = Tally::default();
    let written = [load_const(0, 0), load_const(1, 1)];
    for first in [&[][..], &written] {
        for mut list in (1..=4).flat_map(|len| alphabet.lists(first, len)) {
            for _ in 0..2 {
                let (answer, by) = compared_with_room(&mut random, &list);
                refused.add(&answer);
                tally.add(by);
                list.words.extend([label(0), label(1)].as_flattened());
            }
        }
    }
    println!("optimize, every short list with branches by question: {:?}", refused.0);
    assert!([0, 9, 15, 16].iter().all(|number| refused.0[*number] > 5_000), "{refused:?}");
    assert_eq!(tally.of(By::Amended), 0);
}

/// Branches to so many numbers, two of each sort in turn, then a Label for each.
fn branches_and_labels(half: u32, number: impl Fn(u32) -> u32) -> List {
    let branches = (0..half).flat_map(|at| match at % 2 {
        0 => branch(number(half - 1 - at)),
        _ => branch_if(256 + at % 4, number(at), 1),
    });
    let labels = (0..half).flat_map(|at| label(number(at)));
    let words = branches.chain(labels).collect();
    List { settings: Settings::default(), table: Vec::new(), words }
}

/// The list passes; with a branch at each of the places to a number that no Label has, from the last
/// on, it is refused there.
fn refused_at_places(random: &mut Random, mut list: List, other: u32, places: [usize; 3]) {
    assert_eq!(passes(random, &list).0.records as usize, list.records());
    for at in places {
        let word = target(list.record(at)[0]).expect("a branch");
        list.record_mut(at)[word] = other;
        assert_eq!(agree_with_room(random, &list), refused(16, at));
    }
}

/// As many records as may be, and as many numbers.
#[test]
fn as_many_branches_as_may_be() {
    let mut random = Random::new(527);
    let half = MOST_RECORDS as u32 / 2;
    let places = [half as usize - 1, half as usize / 2, 0];
    for number in
        [|at| at, |at| u32::MAX - at, |at| at << 16 | at, |at: u32| at.wrapping_mul(805_459_861)]
    {
        refused_at_places(&mut random, branches_and_labels(half, number), number(half), places);
    }
}

/// Numbers that a table may hold in one slot: their products with 2,654,435,761 are 0, 1, 2 and so
/// on, or their low or high bits are the same.
#[test]
fn numbers_that_collide() {
    let mut random = Random::new(529);
    let half = 1_000;
    for number in [
        |at: u32| at.wrapping_mul(244_002_641),
        |at: u32| (at << 20).wrapping_mul(244_002_641),
        |at| at << 12,
        |at: u32| at.rotate_left(20),
        |at| at,
    ] {
        let list = branches_and_labels(half, number);
        refused_at_places(&mut random, list, number(half), [999, 500, 0]);
        // two numbers by turns
        let two = branches_and_labels(half, |at| number(at / 2 % 2));
        refused_at_places(&mut random, two, number(2), [999, 501, 1]);
    }
}

/// One Label at the very end of as many records as may be, and a branch at the very start.
#[test]
fn a_label_far_away() {
    let mut random = Random::new(528);
    let settings = Settings { count_regs: 1, ..Settings::default() };
    for number in [0, 65_535, 65_536, u32::MAX] {
        let mut list = List { settings, table: Vec::new(), words: vec![0; MOST_RECORDS * 8] };
        list.record_mut(0).copy_from_slice(&branch_if(256, number, 0));
        assert_eq!(agree_with_room(&mut random, &list), refused(16, 0));
        list.record_mut(MOST_RECORDS - 1).copy_from_slice(&label(number));
        assert_eq!(passes(&mut random, &list).0.records, 2);
        list.record_mut(MOST_RECORDS - 1).copy_from_slice(&label(number ^ 1));
        assert_eq!(agree_with_room(&mut random, &list), refused(16, 0));
    }
    let drawn = lists::drawn(&mut random, &Profile::plain(MOST_RECORDS));
    assert!(matches!(agree_with_room(&mut random, &drawn), Answer::Refused(_)));
    let targets = with_targets(drawn.clone());
    assert!(
        matches!(agree_with_room(&mut random, &targets), Answer::Refused(no) if no.number == 15)
    );
    passes(&mut random, &mended(drawn));
}
