//! Parts that are just long enough, longer, or too short, and the other limits of a whole list.

use super::support::{agree_with, labels, MOST};
use crate::faulty::{each_decides, too_short_among};
use harness::answers::refused;
use harness::damage::{Fault, OF_LIST, OF_RECORD};
use harness::lent::PARTS;
use harness::limits;
use harness::lists::{any_list, List};
use harness::random::Random;
use harness::settings::Settings;
use rudzaviks::ffi::survey_word;

/// The answered word with parts of this length.
fn word(list: &List, parts_len: usize) -> u64 {
    let mut parts = vec![0; parts_len];
    survey_word(&list.words, &list.table, list.settings.count_regs, 0, 0, &mut parts)
}

/// Parts of each length that is too short: the list is refused with the number.
fn refuses_too_short(list: &List, number: u32) {
    agree_with(list, &[0], &[0, 1, 2, 3]);
    (0..PARTS).for_each(|len| assert_eq!(word(list, len), refused((number, 0)), "{len} words"));
}

#[test]
fn every_length_of_the_parts() {
    let mut random = Random::new(501);
    let lengths: Vec<usize> = (0..=MOST).collect();
    for _ in 0..2_000 {
        let list = any_list(&mut random, 12);
        agree_with(&list, &labels(&list), &lengths);
        refuses_too_short(&list, 4);
        (PARTS..=MOST).for_each(|len| assert_eq!(word(&list, len) >> 32, 0, "{len} words"));
    }
}

#[test]
fn too_short_for_the_longest_lists() {
    for (_, list) in limits::lists() {
        refuses_too_short(&list, 4);
        assert_eq!(word(&list, PARTS) >> 32, 0);
    }
}

/// The second question is not put; the fourth comes before those of the records.
#[test]
fn too_short_among_the_faults() {
    let faults = OF_LIST.into_iter().chain(OF_RECORD).filter(|fault| *fault != Fault::Args);
    let check = |_: &mut Random, list: &List, number| refuses_too_short(list, number);
    too_short_among(&mut Random::new(502), faults, check);
}

#[test]
fn earlier_questions_decide() {
    let faults = [(Fault::Kind, 4), (Fault::Args, 4), (Fault::OddTable, 3), (Fault::CountRegs, 1)];
    let check = |_: &mut Random, list: &List, number| refuses_too_short(list, number);
    each_decides(&mut Random::new(503), faults, check);
}

/// Nops, and pairs in Stack: refused with the number, or not at all with 0.
fn at(count_regs: u32, words: usize, table: usize, parts: usize, number: u32) {
    let settings = Settings { count_regs, ..Settings::default() };
    let list = List { settings, table: vec![0; table], words: vec![0; words] };
    agree_with(&list, &[0], &[parts]);
    assert_eq!(word(&list, parts) >> 32, u64::from(number), "{count_regs} {words} {table} {parts}");
}

#[test]
fn limits_are_where_they_are() {
    at(64, 524_288, 65_536, 4, 0);
    at(65, 524_288, 65_536, 4, 1);
    at(64, 524_296, 65_536, 4, 3);
    at(64, 524_288, 65_538, 4, 3);
    at(64, 524_287, 65_536, 4, 3);
    at(64, 524_288, 65_535, 4, 3);
    at(64, 524_288, 65_536, 3, 4);
    at(65, 524_296, 65_536, 3, 1);
    at(64, 524_296, 65_536, 3, 3);
    at(0, 0, 0, 4, 0);
    at(0, 0, 0, 3, 4);
}
