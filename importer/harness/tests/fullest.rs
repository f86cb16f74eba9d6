//! How full the registers got: the number that each choice gives, by hand and by its definition.

use std::collections::HashSet;

use harness::fullest::{each_choice, ends, fullest};
use harness::how_many;
use harness::kinds::*;
use harness::lists::{any_branch_list, any_list, two_part_list, List};
use harness::questions::refusal;
use harness::random::Random;
use harness::record::Record;
use harness::run::reduced;
use harness::settings::Settings;

fn colours(list: &List) -> Vec<u32> {
    reduced(list).statics.iter().map(|(colour, _)| *colour).collect()
}

/// The number of each choice, by the colours that the original chose.
fn numbers(list: &List) -> Vec<u32> {
    let mut numbers = Vec::new();
    each_choice(list, &colours(list), |choice| numbers.push(choice.number()));
    numbers
}

/// The numbers of a list over so many registers, which passes.
fn of(count_regs: u32, records: &[Record]) -> Vec<u32> {
    let settings = Settings { count_regs, ..Settings::default() };
    let list = List { settings, table: vec![MEM, 0], words: records.concat() };
    assert_eq!(refusal(&settings, &list.words, &list.table, true), None);
    let numbers = numbers(&list);
    let most = numbers.iter().copied().max().unwrap_or(0);
    assert_eq!(fullest(&list, &colours(&list)), most);
    assert_eq!(reduced(&list).counts()[7], most);
    numbers
}

#[test]
fn nothing_is_read() {
    assert_eq!(of(0, &[]), []);
    assert_eq!(of(1, &[load_const(0, 1)]), [0]);
    let unread = [load_const(0, 0), load_complex(0, 1, MEM, 0), load(1, MEM, 0), uni(0, 0, RET)];
    assert_eq!(of(2, &unread), [0, 0, 0, 0, 0]);
    let named = [load(RET, MEM, 0), uni(0, LEFT, RET), save(LEFT, MEM, 1)];
    assert_eq!(of(2, &named), []);
    let no_source = [load_const(0, 0), label(7), branch_if(TEMP, 7, 0), load_args(0, 1, 0, 0)];
    assert_eq!(of(1, &no_source), [0]);
}

#[test]
fn values_at_once() {
    let two = [load(0, MEM, 0), load(1, MEM, 1), bi(0, 0, 0, 1)];
    assert_eq!(of(2, &two), [1, 2, 0]);
    let kept = [load(0, MEM, 0), load(1, MEM, 1), bi(0, 1, 0, 1), save(0, MEM, 2)];
    assert_eq!(of(2, &kept), [1, 2, 1]);
    // read by the very record that writes the next one
    let in_turn = [load(0, MEM, 0), uni(0, 0, 0), mov(0, 0), save(0, MEM, 1)];
    assert_eq!(of(1, &in_turn), [1, 1, 1]);
    assert_eq!(of(2, &[load(0, MEM, 0), nop(), branch_if(0, 7, 0), label(7)]), [1]);
}

/// A life that was over, or shorter, becomes longer; two values in one register count once.
#[test]
fn found_choices() {
    let unread = [load(0, MEM, 0), load(1, MEM, 0), save(1, MEM, 1)];
    assert_eq!(of(2, &unread), [0, 1]);
    let longer = [load(0, MEM, 0), load(1, MEM, 1), load(0, MEM, 0), bi(0, 1, 0, 1)];
    assert_eq!(of(2, &longer), [0, 1, 2, 0]);
    let both = [load(0, MEM, 0), load(1, MEM, 0), bi(0, RET, 0, 1)];
    assert_eq!(of(2, &both), [1, 1]);
    let shorter = [load(0, MEM, 0), load(1, MEM, 0), nop(), save(0, MEM, 2)];
    assert_eq!(of(2, &shorter), [1, 1]);
    let moved = [load(0, MEM, 0), mov(1, 0), save(1, MEM, 1)];
    assert_eq!(of(2, &moved), [1, 1]);
    // the same Mov with no location to be found by
    let plain = [load_const(0, 0), mov(1, 0), bi(0, RET, 0, 1)];
    assert_eq!(of(2, &plain), [1, 2]);
}

/// x's choice, then y's.
#[test]
fn both_halves() {
    let both = [load_complex(0, 1, MEM, 0), save_complex(0, 1, MEM, 2)];
    assert_eq!(of(2, &both), [1, 2]);
    assert_eq!(of(2, &[load_complex(0, 1, MEM, 0), save(0, MEM, 2)]), [1, 1]);
    assert_eq!(of(2, &[load_complex(0, 1, MEM, 0), save(1, MEM, 2)]), [0, 1]);
    assert_eq!(of(2, &[load_complex(0, 0, MEM, 0), save(0, MEM, 2)]), [0, 1]);
    assert_eq!(of(1, &[load_complex(RET, 0, MEM, 0), save(0, MEM, 2)]), [1]);
    let found = [load_complex(0, 1, MEM, 0), load_complex(0, 1, MEM, 0), bi(0, RET, 0, 1)];
    assert_eq!(of(2, &found), [0, 0, 1, 2]);
    let onto = [load_complex(0, 1, MEM, 0), complex_bi(0, [0, 1], [0, 1, 0, 1]), save(1, MEM, 0)];
    assert_eq!(of(2, &onto), [1, 2, 0, 1]);
}

/// Label, Call, Branch and BranchIf set every life to 0. Past a Branch the static is still known.
#[test]
fn resets() {
    let past = [load(0, MEM, 0), branch(7), load(1, MEM, 1), bi(0, RET, 0, 1), label(7)];
    assert_eq!(of(2, &past), [1, 1]);
    let straight = [past[0], nop(), past[2], past[3], past[4]];
    assert_eq!(of(2, &straight), [1, 2]);
    for reset in [label(7), call(7, 0), branch(7), branch_if(RET, 7, 0)] {
        let two = [load(0, MEM, 0), load(1, MEM, 1), bi(0, RET, 0, 1)];
        let after = [load(0, MEM, 0), save(0, MEM, 2), label(7)];
        assert_eq!(of(2, &[&two[..], &[reset], &after].concat()), [1, 2, 1]);
    }
}

/// The numbers once more: distinct colours of the statics since the last reset that end above the
/// index.
fn by_definition(list: &List) -> Vec<u32> {
    let statics: Vec<(u32, u32)> = colours(list).into_iter().zip(ends(list)).collect();
    let (mut numbers, mut since) = (Vec::new(), 0);
    let mut last = 0;
    each_choice(list, &colours(list), |choice| {
        let records = &list.words[8 * last..8 * choice.at as usize];
        last = choice.at as usize;
        if records.iter().step_by(8).any(|kind| matches!(kind, 12 | 15 | 16 | 17)) {
            since = numbers.len();
        }
        let given = &statics[since..=numbers.len()];
        let above = given.iter().filter(|(_, end)| *end > choice.at);
        let above: HashSet<u32> = above.map(|(colour, _)| *colour).collect();
        numbers.push(above.len() as u32);
    });
    numbers
}

#[test]
fn the_numbers_by_their_definition() {
    let mut random = Random::new(81);
    for _ in 0..how_many(100_000) / 10 {
        for generate in [any_list, any_branch_list, two_part_list] {
            let list = generate(&mut random, 60);
            let numbers = numbers(&list);
            assert_eq!(numbers, by_definition(&list), "{list:?}");
            assert_eq!(numbers.len(), reduced(&list).statics.len(), "{list:?}");
        }
    }
}
