//! Every refusal, at every place: no lent word is changed.

use super::support::{agree, agree_with_room};
use crate::faulty::*;
use harness::damage::{Fault, IN_TURN, OF_LIST, OF_RECORD};
use harness::lent::{filled, room};
use harness::limits::{self, MOST_RECORDS};
use harness::lists::{list, List, Profile};
use harness::random::Random;
use rudzaviks::ffi::{Answer, Refusal};

pub fn refused(number: u32, index: usize) -> Answer {
    Answer::Refused(Refusal { number, index: index as u32 })
}

/// A check that a list is refused so.
fn refuses(seed: u64) -> impl FnMut(&List, u32, usize) {
    let mut random = Random::new(seed);
    move |list, number, index| {
        assert_eq!(agree_with_room(&mut random, list), refused(number, index));
    }
}

#[test]
fn each_number_at_first_middle_and_last_record() {
    each_fault_at_places(&mut Random::new(601), &of_any_record(), refuses(611));
}

#[test]
fn each_number_in_the_longest_list() {
    each_fault_in_the_longest(&mut Random::new(602), MOST_RECORDS, &of_any_record(), refuses(612));
}

#[test]
fn each_fault_of_the_whole_list() {
    for fault in OF_LIST {
        fault_before_a_bad_record(&mut Random::new(603), fault, refuses(613));
    }
}

#[test]
fn the_first_bad_record_decides() {
    faults_in_two_records(&mut Random::new(604), &IN_TURN, refuses(614));
}

#[test]
fn the_lower_question_decides() {
    faults_in_one_record(&mut Random::new(605), &OF_RECORD, refuses(615));
    faults_with_a_stale_source(&mut Random::new(610), &OF_RECORD, refuses(616));
}

#[test]
fn question_16_comes_last() {
    faults_with_no_label(&mut Random::new(617), refuses(618));
}

/// Lengths with room, but for one slice that is a word too short or has none; where it is asked
/// for none, it can't be too short.
fn too_short(random: &mut Random, list: &List) -> Vec<[usize; 5]> {
    let room = room(list);
    let mut all = Vec::new();
    for slice in (0..5).filter(|slice| room[*slice] > 0) {
        for short in [room[slice] - 1, 0] {
            let mut lengths = room.map(|asked| asked + random.index(2) * 40);
            lengths[slice] = short;
            all.push(lengths);
        }
    }
    all
}

/// Any slice too short: the list is refused with the number.
fn refuses_too_short(random: &mut Random, list: &List, number: u32) {
    for lengths in too_short(random, list) {
        let lent = filled(random, lengths);
        assert_eq!(agree(random, list, &lent), refused(number, 0), "{lengths:?}");
    }
}

fn passes_with_exact_room(random: &mut Random, list: &List) {
    let lent = filled(random, room(list));
    assert!(matches!(agree(random, list, &lent), Answer::Reduced(_)));
}

#[test]
fn each_slice_one_word_too_short() {
    let mut random = Random::new(606);
    for records in [0, 1, 2, 11, 500] {
        for pairs in [0, 1, 12] {
            let list = list(&mut random, &Profile { pairs, ..Profile::plain(records) });
            passes_with_exact_room(&mut random, &list);
            refuses_too_short(&mut random, &list, 4);
        }
    }
}

#[test]
fn slices_too_short_for_the_longest_lists() {
    let mut random = Random::new(607);
    for (_, list) in limits::lists() {
        passes_with_exact_room(&mut random, &list);
        refuses_too_short(&mut random, &list, 4);
    }
}

#[test]
fn too_short_among_the_faults() {
    let faults = OF_LIST.into_iter().chain(of_any_record());
    too_short_among(&mut Random::new(608), faults, refuses_too_short);
}

#[test]
fn earlier_questions_decide() {
    let faults = [(Fault::Kind, 4), (Fault::OddTable, 3), (Fault::Args, 2), (Fault::CountRegs, 1)];
    each_decides(&mut Random::new(609), faults, refuses_too_short);
}
