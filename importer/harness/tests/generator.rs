//! The generators of lists make what they say.

use std::collections::BTreeSet;

use harness::kinds::{label, load, load_args, load_complex, load_const, MEM, PARAM, STACK};
use harness::limits::MOST_REGS;
use harness::lists::{
    all_live_list, any_branch_list, any_list, branch_list, drawn_labelled, list, narrow_list,
    two_part_list, wide_list, List, Profile, USED_REGS,
};
use harness::questions::refusal;
use harness::random::Random;
use harness::record::WORDS;
use harness::roles::{words_with, Role, JUMPING, KINDS, SCALAR, STRAIGHT};
use harness::settings::Settings;
use harness::{how_many, limits, run};

fn pass_every_question(lists: u64, generate: impl Fn(&mut Random) -> List) {
    let mut random = Random::new(11);
    for seed in 0..lists {
        let list = generate(&mut random);
        let no = refusal(&list.settings, &list.words, &list.table, true);
        assert_eq!(no, None, "list {seed}: {list:?}");
    }
}

#[test]
fn lists_pass_every_question() {
    pass_every_question(how_many(500_000), |random| any_list(random, 80));
    pass_every_question(how_many(100_000), |random| two_part_list(random, 80));
    pass_every_question(how_many(100_000), |random| narrow_list(random, 80));
    pass_every_question(how_many(100_000), |random| wide_list(random, 80));
    pass_every_question(how_many(100_000), |random| branch_list(random, 80));
    pass_every_question(how_many(100_000), |random| any_branch_list(random, 80));
}

#[test]
fn lists_at_the_limits_pass_every_question() {
    for (name, list) in limits::lists() {
        assert_eq!(refusal(&list.settings, &list.words, &list.table, true), None, "{name}");
    }
}

/// Cells are moved, in the table too; constants, labels and spans are not.
#[test]
fn moving_up_changes_cells_alone() {
    let settings = Settings { count_regs: 2, ..Settings::default() };
    let at = |[a, b, c]: [u32; 3]| List {
        settings,
        table: vec![PARAM, a],
        words: [
            label(5),
            load_const(0, 6),
            load(0, MEM, b),
            load_complex(0, 1, STACK, c),
            load_args(0, 1, 0, 0),
        ]
        .concat(),
    };
    assert_eq!(at([0, 7, u32::MAX - 1]).moved_up(3), at([3, 10, 1]));
    assert_eq!(at([0, 7, 8]).moved_up(0), at([0, 7, 8]));
}

#[test]
fn lists_moved_up_pass_every_question() {
    pass_every_question(20_000, |random| any_list(random, 80).moved_up(4_294_000_000));
}

#[test]
fn every_kind_and_register_count_comes_up() {
    let mut random = Random::new(12);
    let mut kinds = [0u32; KINDS];
    let mut counts = [0u32; MOST_REGS as usize + 1];
    let mut registers = [0u32; 260];
    for _ in 0..20_000 {
        let list = any_list(&mut random, 80);
        counts[list.settings.count_regs as usize] += 1;
        for record in list.words.chunks_exact(WORDS) {
            kinds[record[0] as usize] += 1;
            if record[0] == 4 {
                registers[record[1] as usize] += 1;
                registers[record[2] as usize] += 1;
            }
        }
    }
    assert!(kinds.iter().all(|times| *times > 500), "{kinds:?}");
    assert!(counts.iter().all(|times| *times > 30), "{counts:?}");
    assert!(registers[..MOST_REGS as usize].iter().all(|times| *times > 0), "{registers:?}");
    assert!(registers[256..].iter().all(|times| *times > 500), "{registers:?}");
}

/// Each number of registers that the original's mask can tell comes up, and no other.
#[test]
fn narrow_lists_are_narrow() {
    let mut random = Random::new(18);
    let mut counts = [0u32; MOST_REGS as usize + 1];
    for _ in 0..10_000 {
        counts[narrow_list(&mut random, 8).settings.count_regs as usize] += 1;
    }
    let (narrow, wide) = counts.split_at(USED_REGS as usize + 1);
    assert!(narrow.iter().all(|times| *times > 30), "{counts:?}");
    assert!(wide.iter().all(|times| *times == 0), "{counts:?}");
}

/// The registers, Gen or named, that the list's records have in a role.
fn registers(list: &List, wanted: Role) -> BTreeSet<u32> {
    let of_record = |record: &[u32]| -> Vec<u32> {
        let words = words_with(record[0], |role| role == wanted);
        words.iter().map(|word| record[*word]).collect()
    };
    list.words.chunks_exact(WORDS).flat_map(of_record).collect()
}

/// Each register is written and read. With no records between the loads and the saves each has a
/// colour of its own, so that they take them all.
#[test]
fn all_registers_are_live_at_once() {
    let mut random = Random::new(17);
    for count_regs in 0..=MOST_REGS {
        for most in [0, 6, 40] {
            let list = all_live_list(&mut random, count_regs, most);
            assert_eq!(list.settings.count_regs, count_regs);
            assert_eq!(refusal(&list.settings, &list.words, &list.table, true), None, "{list:?}");
            for wanted in [Role::Source, Role::Destination] {
                let named = registers(&list, wanted);
                assert!((0..count_regs).all(|register| named.contains(&register)), "{list:?}");
            }
            if most == 0 {
                let statics = run::original(&list).statics.into_iter();
                let mut colours: Vec<u32> = statics.map(|(colour, _)| colour).collect();
                colours.sort_unstable();
                assert!(colours.into_iter().eq(0..count_regs), "{list:?}");
            }
        }
    }
}

/// A narrowed profile gives lists of these kinds, and of each of them.
fn gives_the_kinds(narrowed: fn(Profile) -> Profile, kinds: &[u32]) {
    let mut random = Random::new(13);
    let mut met = [false; KINDS];
    for _ in 0..2_000 {
        let profile = narrowed(Profile::random(&mut random, 80));
        let list = list(&mut random, &profile);
        list.words.chunks_exact(WORDS).for_each(|record| met[record[0] as usize] = true);
    }
    let met = (0..KINDS as u32).filter(|kind| met[*kind as usize]);
    assert_eq!(met.collect::<Vec<_>>(), kinds);
}

#[test]
fn straight_lists_are_straight() {
    gives_the_kinds(Profile::straight, &STRAIGHT);
    gives_the_kinds(Profile::scalar, &SCALAR);
    gives_the_kinds(Profile::jumping, &JUMPING);
}

/// With one register and with more, on each side of the fixed mark and across it, with the same
/// register twice and with named halves.
#[test]
fn every_sort_of_two_part_record_comes_up() {
    let mut random = Random::new(15);
    let mut times = [[0u32; 2]; 10];
    for _ in 0..10_000 {
        let list = two_part_list(&mut random, 20);
        let mark = list.settings.fixed_mark();
        for r in list.words.chunks_exact(WORDS).filter(|r| r[0] == 7 || r[0] == 8) {
            let sorts = [
                list.settings.count_regs == 1,
                list.settings.count_regs == 2,
                list.settings.count_regs == 3,
                r[3] == 0 && r[4] + 2 == mark,
                r[3] == 0 && r[4] + 1 == mark,
                r[3] == 0 && r[4] == mark,
                r[1] == r[2],
                r[1] > 255,
                r[2] > 255,
                r[1] > 255 && r[2] > 255,
            ];
            for (times, met) in times.iter_mut().zip(sorts) {
                times[r[0] as usize - 7] += u32::from(met);
            }
        }
    }
    assert!(times.iter().flatten().all(|times| *times > 100), "{times:?}");
}

/// About half of the records are labels, and their numbers are few.
#[test]
fn labelled_lists_have_many_labels() {
    let mut random = Random::new(16);
    let (mut records, mut labels, mut few) = (0, 0, 0);
    for _ in 0..2_000 {
        let list = drawn_labelled(&mut random, 40);
        records += list.records();
        labels += list.labels().len();
        few += list.labels().iter().filter(|label| **label < 3).count();
    }
    assert!(labels > records * 2 / 5 && labels < records * 3 / 5, "{labels} of {records}");
    assert!(few > labels * 4 / 5, "{few} of {labels}");
}

/// Locations collide: there is something to drop in many of the lists, and much is kept. More
/// registers leave fewer locations to be found again.
#[test]
fn many_lists_have_something_to_drop() {
    for (most_regs, part) in [(USED_REGS, 20), (MOST_REGS, 25)] {
        let mut random = Random::new(14);
        let (mut before, mut after) = (0, 0);
        for _ in 0..2_000 {
            let mut profile = Profile::within(&mut random, 80, most_regs);
            profile.weights[0] = 0;
            profile.weights[5] += 1;
            let list = list(&mut random, &profile);
            before += list.words.len();
            after += run::optimize(&list).len();
        }
        let dropped = before - after;
        assert!(dropped < before / 2 && dropped > before / part, "{dropped} of {before} words");
    }
}
