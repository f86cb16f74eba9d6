//! Every refusal, at every place: no lent byte is changed.

use super::support::agree_with_room;
use crate::faulty::*;
use harness::answers::refused;
use harness::damage::{IN_TURN, OF_LIST, OF_RECORD};
use harness::file::MOST;
use harness::lists::List;
use harness::random::Random;

/// A check that a list is refused so.
fn refuses(seed: u64) -> impl FnMut(&List, u32, usize) {
    let mut random = Random::new(seed);
    move |list, number, index| {
        assert_eq!(agree_with_room(&mut random, list), refused((number, index)));
    }
}

#[test]
fn each_number_at_first_middle_and_last_record() {
    each_fault_at_places(&mut Random::new(1201), &of_any_record(), refuses(1211));
}

#[test]
fn each_number_in_the_longest_list() {
    each_fault_in_the_longest(&mut Random::new(1202), MOST, &of_any_record(), refuses(1212));
}

#[test]
fn each_number_at_the_very_last_record() {
    let mut random = Random::new(1203);
    let mut check = refuses(1213);
    for fault in of_any_record() {
        let mut list = some_list(&mut random, MOST);
        while !fault.put(&mut random, &mut list, MOST - 1) {
            list = some_list(&mut random, MOST);
        }
        check(&list, fault.number(), MOST - 1);
    }
}

#[test]
fn each_fault_of_the_whole_list() {
    for fault in OF_LIST {
        fault_before_a_bad_record(&mut Random::new(1204), fault, refuses(1214));
    }
}

#[test]
fn the_first_bad_record_decides() {
    faults_in_two_records(&mut Random::new(1205), &IN_TURN, refuses(1215));
}

#[test]
fn the_lower_question_decides() {
    faults_in_one_record(&mut Random::new(1206), &OF_RECORD, refuses(1216));
    faults_with_a_stale_source(&mut Random::new(1207), &OF_RECORD, refuses(1217));
}

#[test]
fn question_16_comes_last() {
    faults_with_no_label(&mut Random::new(1208), refuses(1218));
}
