//! Records to the original's instructions and back.

use harness::limits;
use harness::lists::{list, List, Profile};
use harness::panics::caught;
use harness::questions::refusal_beside;
use harness::random::Random;
use harness::record::{decode, decode_list, encode, encode_list, spans};
use harness::roles::KINDS;
use harness::settings::Settings;

fn round_trip(list: &List) -> Vec<u32> {
    let code = decode_list(&list.words, &list.table).expect("each record has a meaning");
    encode_list(code, &list.table, &spans(&list.words))
}

#[test]
fn every_kind_comes_back() {
    let mut random = Random::new(1);
    for kind in 0..KINDS {
        for _ in 0..200 {
            let mut profile = Profile::random(&mut random, 40);
            profile.weights = [0; KINDS];
            profile.weights[kind] = 1;
            let list = list(&mut random, &profile);
            assert_eq!(round_trip(&list), list.words);
        }
    }
}

#[test]
fn every_operation_comes_back() {
    for (kind, ops) in [(2, 20), (3, 15), (13, 4), (18, 4), (19, 4), (20, 4)] {
        for op in 0..ops {
            let record = [kind, op, 0, 0, 0, 0, 0, 0];
            let ins = decode(&record, &[]).expect("an operation");
            assert_eq!(encode(&ins, &[], (0, 0)), record);
        }
        assert!(decode(&[kind, ops, 0, 0, 0, 0, 0, 0], &[]).is_none());
    }
}

#[test]
fn every_register_comes_back() {
    for register in 0..260 {
        let record = [4, register, 259 - register, 0, 0, 0, 0, 0];
        let ins = decode(&record, &[]).expect("two registers");
        assert_eq!(encode(&ins, &[], (0, 0)), record);
    }
    assert!(decode(&[4, 260, 0, 0, 0, 0, 0, 0], &[]).is_none());
}

#[test]
fn lists_at_the_limits_come_back() {
    for (name, list) in limits::lists() {
        assert!(round_trip(&list) == list.words, "{name}");
    }
}

/// The print form is the original's: a sample shows that each field went to its place.
#[test]
fn fields_go_to_their_places() {
    let table = [0, 16, 2, 5];
    let prints = |record: &[u32], text: &str| {
        let ins = decode(record, &table).expect("a record with a meaning");
        assert_eq!(format!("{ins:?}"), text);
    };
    prints(&[2, 3, 1, 2, 0, 0, 0, 0], "%1 := Root(%2)");
    prints(&[3, 1, 1, 2, 256, 0, 0, 0], "%1 := %2 Minus %$");
    prints(&[4, 257, 258, 0, 0, 0, 0, 0], "%t := %l");
    prints(&[5, 3, 0, 17, 0, 0, 0, 0], "%3 := Stack[17]");
    prints(&[6, 259, 1, 4, 0, 0, 0, 0], "Mem[4] := %r");
    prints(&[7, 1, 2, 2, 6, 0, 0, 0], "(%1 + %2*im) := Param[6]");
    prints(&[8, 1, 2, 1, 6, 0, 0, 0], "Mem[6] := (%1 + %2*im)");
    prints(&[9, 1, 8, 0, 0, 0, 0, 0], "%1 := consts[8]");
    prints(&[10, 0, 2, 1, 0, 0, 0, 0], "Load Args [Stack[16], Param[5]]; complex, false");
    prints(&[10, 1, 1, 0, 1, 0, 0, 0], "Load Args [Param[5]]; real, true");
    prints(&[11, 9, 1, 0, 0, 0, 0, 0], "Save Args; n = 9; complex, false");
    prints(&[12, 77, 3, 0, 0, 0, 0, 0], "call 77");
    prints(&[13, 2, 1, 2, 3, 4, 0, 0], "%1 := - %2 * %3 + %4");
    prints(&[14, 1, 2, 3, 0, 16, 0, 0], "%1 := Stack[16] ? %2 : %3");
    prints(&[15, 7, 0, 0, 0, 0, 0, 0], "\"7\":");
    prints(&[16, 7, 0, 0, 0, 0, 0, 0], "goto \"7\"");
    prints(&[17, 1, 7, 1, 0, 0, 0, 0], "if not %1 goto \"7\"");
    prints(&[18, 3, 1, 2, 1, 9, 0, 0], "%1 := %2 Divide Mem[9] # load/math");
    prints(&[19, 0, 1, 2, 9, 0, 0, 0], "%1 := %2 Plus consts[9] # load const/math");
    prints(&[20, 2, 1, 2, 3, 4, 5, 6], "(%1 + %2*im) := (%3 + %4*im) Times (%5 + %6*im)");
}

/// A record has a meaning exactly if it passes questions 5 and 6.
#[test]
fn meaning_is_questions_5_and_6() {
    let mut random = Random::new(2);
    let (mut with, mut without) = (0, 0);
    for _ in 0..400_000 {
        let table = [random.below(4), random.word(), random.below(3), random.word()];
        let mut record = [random.below(22), 0, 0, 0, 0, 0, 0, 0];
        for word in &mut record[1..] {
            *word = match random.below(6) {
                0..=2 => 0,
                3 => random.below(24),
                4 => random.between(254, 261),
                _ => random.word(),
            };
        }
        let passes = !matches!(refusal_beside(64, &record, &table, true), Some((5 | 6, 0)));
        assert_eq!(decode(&record, &table).is_some(), passes, "{record:?} {table:?}");
        *(if passes { &mut with } else { &mut without }) += 1;
    }
    assert!(with > 10_000 && without > 10_000, "{with} with a meaning, {without} without");
}

#[test]
fn a_changed_load_args_is_noticed() {
    let table = [0, 16, 1, 16];
    let ins = decode(&[10, 0, 1, 0, 0, 0, 0, 0], &table).expect("a LoadArgs");
    assert_eq!(encode(&ins, &table, (0, 1))[..3], [10, 0, 1]);
    for span in [(1, 1), (0, 2), (0, 0), (0, 3), (u32::MAX, u32::MAX)] {
        assert!(caught(|| encode(&ins, &table, span)).is_err(), "{span:?}");
    }
}

#[test]
fn the_fixed_mark_is_the_original_s() {
    for args in [0, 1, 64, 65_535] {
        for complex in [false, true] {
            let settings = Settings { args, complex, ..Settings::default() };
            assert_eq!(settings.fixed_mark(), settings.config().fixed());
        }
    }
}
