//! What the copies of the original leave, by what can be seen of it in more than one way.

use std::collections::BTreeSet;

use harness::fullest::ends;
use harness::how_many;
use harness::kinds::{load, load_args, load_complex, load_const, save, MEM, PARAM, STACK};
use harness::lists::{any_list, two_part_list, List};
use harness::random::Random;
use harness::run::{left_by, reduced, Allocator, Amended, Ready, Unchanged};
use harness::settings::Settings;

#[test]
fn statics_and_counts() {
    let mut random = Random::new(41);
    for _ in 0..how_many(100_000) {
        let list = any_list(&mut random, 80);
        let reduced = reduced(&list);
        let expected = ends(&list);
        assert!(reduced.statics.iter().map(|(_, end)| *end).eq(expected), "{list:?}");
        let colours = list.settings.count_regs;
        assert!(reduced.statics.iter().all(|(colour, _)| *colour < colours), "{list:?}");
        let [left, _, _, dropped @ .., fullest] = reduced.counts();
        assert_eq!((left + dropped.iter().sum::<u32>()) as usize, list.records(), "{list:?}");
        assert!(fullest <= colours, "{list:?}");
    }
}

/// The Stack cells, at or above the fixed mark, that the list or its table may name.
fn cells(list: &List) -> BTreeSet<u32> {
    let words = list.words.iter().chain(&list.table);
    let near = words.flat_map(|word| [word.saturating_sub(1), *word, word.saturating_add(1)]);
    near.filter(|index| *index >= list.settings.fixed_mark()).collect()
}

/// A copy's own read set, as far as its Saves show it, is what the records left read. How many of
/// the list's cells are members, and how many are not.
fn members_in<A: Allocator>(list: &List) -> [usize; 2] {
    let cells: Vec<u32> = cells(list).into_iter().collect();
    let mut ready = Ready::<A>::new(list);
    ready.optimize();
    let shown = ready.members_among(&cells);
    let derived = left_by::<A>(list).members;
    let is_member = |index: &&u32| derived.contains(&(STACK, **index));
    assert!(cells.iter().filter(is_member).eq(&shown), "{list:?}");
    [shown.len(), cells.len() - shown.len()]
}

fn members_in_a_copy<A: Allocator>(lists: impl Fn(&mut Random) -> List) {
    let mut random = Random::new(42);
    let times = how_many(100_000) as usize;
    let mut sums = [0, 0];
    for _ in 0..times {
        let [members, others] = members_in::<A>(&lists(&mut random));
        sums = [sums[0] + members, sums[1] + others];
    }
    assert!(sums.iter().all(|sum| *sum > times / 2), "{sums:?}");
}

#[test]
fn members_in_the_unchanged_copy() {
    members_in_a_copy::<Unchanged>(|random| any_list(random, 80));
    members_in_a_copy::<Unchanged>(|random| two_part_list(random, 20));
}

#[test]
fn members_in_the_amended_copy() {
    members_in_a_copy::<Amended>(|random| any_list(random, 80));
    members_in_a_copy::<Amended>(|random| two_part_list(random, 20));
}

/// In joining order, each once; a dropped load does not join.
#[test]
fn members_by_hand() {
    let settings = Settings { count_regs: 4, ..Settings::default() };
    let table = vec![MEM, 7, STACK, 9, MEM, 7, PARAM, 0];
    let records = [
        load_const(0, 0),
        save(0, MEM, 1),
        load(1, MEM, 1),
        load(1, PARAM, 3),
        load_args(1, 3, 0, 0),
        load_complex(2, 3, PARAM, 2),
    ];
    let list = List { settings, table, words: records.concat() };
    let reduced = reduced(&list);
    let expected = [(PARAM, 3), (STACK, 9), (MEM, 7), (PARAM, 0), (PARAM, 2)];
    assert_eq!(reduced.members, expected);
    assert_eq!(reduced.statics, [(0, 1), (0, 2), (1, 3), (2, 5), (1, 5)]);
    assert_eq!(reduced.counts(), [5, 5, 5, 0, 1, 0, 0, 1]);
}
