//! Outputs that are just long enough, or too short.

use super::support::{agree, refuses};
use crate::faulty::{each_decides, of_any_record, too_short_among};
use harness::damage::Fault;
use harness::file::{encode, room, MOST};
use harness::lists::{list, List, Profile};
use harness::random::Random;
use harness::record::WORDS;
use harness::settings::Settings;

#[test]
fn every_length_of_an_output() {
    let mut random = Random::new(1101);
    for records in [0, 1, 2, 5] {
        for _ in 0..20 {
            let list = list(&mut random, &Profile::plain(records));
            let file = encode(&list, 1);
            let room = room(&list);
            (0..room).for_each(|short| refuses(&mut random, &file, short, 4));
            for enough in room..room + 40 {
                assert!(agree(&mut random, &file, enough) <= records as u64);
            }
        }
    }
}

/// Lengths that are too short for the list: by a byte, by a word, by a record, by nearly all.
fn too_short(list: &List) -> Vec<usize> {
    let by = [1, 2, 3, 4, 5, 31, 32, 33, 36].into_iter();
    let short = by.filter_map(|by| room(list).checked_sub(by));
    short.chain([0, 1, 3, room(list) / 2]).collect()
}

#[test]
fn too_short_for_the_longest() {
    let mut random = Random::new(1102);
    for records in [11, 255, 256, MOST - 1, MOST] {
        let list = list(&mut random, &Profile { pairs: MOST, ..Profile::plain(records) });
        let file = encode(&list, 1);
        assert!(agree(&mut random, &file, room(&list)) <= records as u64);
        too_short(&list).iter().for_each(|short| refuses(&mut random, &file, *short, 4));
    }
}

/// What is asked goes by the records that come, not by those that are left.
#[test]
fn enough_for_what_is_left() {
    let mut random = Random::new(1103);
    for records in [1, 2, 11, MOST] {
        let nops = vec![0; records * WORDS];
        let list = List { settings: Settings::default(), table: Vec::new(), words: nops };
        let file = encode(&list, 1);
        assert_eq!(agree(&mut random, &file, room(&list)), 0);
        for short in [4, room(&list) / 2, room(&list) - 1] {
            refuses(&mut random, &file, short, 4);
        }
    }
}

/// A check that a list is refused so, by outputs that are too short.
fn refuses_too_short(random: &mut Random, list: &List, number: u32) {
    let file = encode(list, 1);
    too_short(list).iter().for_each(|len| refuses(random, &file, *len, number));
}

#[test]
fn too_short_among_the_faults() {
    let whole = [Fault::CountRegs, Fault::Args, Fault::PartialRecord, Fault::OddTable];
    let faults = whole.into_iter().chain(of_any_record());
    too_short_among(&mut Random::new(1104), faults, refuses_too_short);
}

/// The file's form decides over all else.
#[test]
fn earlier_questions_decide() {
    let faults =
        [(Fault::Kind, 4), (Fault::Args, 2), (Fault::CountRegs, 1), (Fault::PartialRecord, 3)];
    each_decides(&mut Random::new(1105), faults, refuses_too_short);
}
