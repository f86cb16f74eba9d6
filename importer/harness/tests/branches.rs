//! Lists with branches: what is drawn, and what is mended.

use std::collections::HashSet;

use harness::how_many;
use harness::lists::{any_branch_list, any_drawn, any_list, branch_list, drawn_labelled, List};
use harness::mended::{mended, target, with_targets};
use harness::questions::{refusal, Refusal};
use harness::random::Random;
use harness::roles::{role, Role, JUMPING};
use harness::sorts::Sorts;

fn no(list: &List) -> Option<Refusal> {
    refusal(&list.settings, &list.words, &list.table, true)
}

#[test]
fn a_list_that_passes_is_not_mended() {
    let mut random = Random::new(71);
    for _ in 0..how_many(100_000) / 4 {
        for generate in [any_list, branch_list, any_branch_list] {
            let list = generate(&mut random, 60);
            assert_eq!(mended(list.clone()), list);
        }
    }
}

/// A branch has another number, which a Label has; or it is a Nop, and there is no Label.
fn target_is_mended(list: &List, at: usize, after: &[u32]) -> bool {
    let (before, labels) = (list.record(at), list.labels());
    match target(before[0]) {
        _ if before == after => true,
        Some(_) if labels.is_empty() => *after == [0; 8],
        Some(word) => {
            let others = (0..8).all(|other| other == word || before[other] == after[other]);
            others && !labels.contains(&before[word]) && labels.contains(&after[word])
        }
        None => false,
    }
}

/// Only sources differ, each a Gen before.
fn sources_are_mended(before: &[u32], after: &[u32]) -> bool {
    (0..8).all(|word| {
        let is_source = word > 0 && role(before[0], word) == Role::Source && before[word] < 64;
        before[word] == after[word] || is_source
    })
}

#[test]
fn a_list_is_mended_where_15_and_16_ask_for_it() {
    let mut random = Random::new(72);
    let lists = how_many(100_000);
    let [mut stale, mut lost, mut passed] = [0; 3];
    for turn in 0..lists {
        let generate = if turn % 2 == 0 { any_drawn } else { drawn_labelled };
        let list = generate(&mut random, 40);
        let targets = with_targets(list.clone());
        let fresh = mended(list.clone());
        for at in 0..list.records() {
            assert!(target_is_mended(&list, at, targets.record(at)), "{at}: {list:?}");
            let [before, after] = [&targets, &fresh].map(|list| list.record(at));
            assert!(sources_are_mended(before, after), "{at}: {list:?}");
        }
        assert_eq!(no(&fresh), None, "{list:?}");
        assert!(matches!(no(&targets), None | Some((15, _))), "{list:?}");
        match no(&list) {
            None => passed += 1,
            Some((15, _)) => stale += 1,
            Some((16, _)) => lost += 1,
            Some(no) => panic!("{no:?} is not mended: {list:?}"),
        }
    }
    println!("{passed} lists stay, 15 refuses {stale} and 16 {lost} before they are mended");
    assert!([stale, lost, passed].iter().all(|times| *times > lists / 50));
}

#[test]
fn branch_lists_have_every_sort_of_branch() {
    let mut random = Random::new(73);
    let lists = how_many(100_000);
    for (name, generate) in [
        ("branch lists", branch_list as fn(&mut Random, u32) -> List),
        ("of all kinds", any_branch_list),
    ] {
        let (mut sorts, mut kinds) = (Sorts::default(), HashSet::new());
        let (mut gens, mut named) = (0u64, 0u64);
        for _ in 0..lists {
            let list = generate(&mut random, 40);
            sorts.add(&list);
            for record in list.words.chunks_exact(8) {
                kinds.insert(record[0]);
                let sources = (1..8).filter(|word| role(record[0], *word) == Role::Source);
                for word in sources {
                    *(if record[word] < 64 { &mut gens } else { &mut named }) += 1;
                }
            }
        }
        sorts.print(name, lists);
        assert!(gens > 2 * named, "{gens} Gen sources, {named} named ones");
        let all = if name == "branch lists" { JUMPING.to_vec() } else { (0..21).collect() };
        assert_eq!(kinds, all.into_iter().collect());
    }
}
