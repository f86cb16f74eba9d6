//! Every refusal, at every place: no lent word is changed.

use super::support::agree;
use crate::faulty::*;
use crate::support::shown;
use harness::damage::{Fault, OF_LIST, OF_RECORD};
use harness::limits::MOST_RECORDS;
use harness::lists::{any_branch_list, List};
use harness::questions::LAST;
use harness::random::Random;
use harness::settings::Settings;
use rudzaviks::ffi::{survey, Place, Refusal};

/// The questions that are put to a record.
const ASKED: [u32; 3] = [5, 6, 7];

fn asked_faults() -> Vec<Fault> {
    OF_RECORD.into_iter().filter(|fault| ASKED.contains(&fault.number())).collect()
}

/// The list is refused with this number and index.
fn refuses(list: &List, number: u32, index: usize) {
    let refusal = Refusal { number, index: index as u32 };
    for compress in [false, true] {
        let settings = Settings { compress, ..list.settings };
        let surveyed = survey(&list.words, &list.table, settings.count_regs, compress, 1);
        assert_eq!(surveyed, Err(refusal), "{}", shown(list));
        agree(&List { settings, ..list.clone() }, &[0, 1]);
    }
}

#[test]
fn each_number_at_first_middle_and_last_record() {
    each_fault_at_places(&mut Random::new(201), &asked_faults(), refuses);
}

#[test]
fn each_number_in_the_longest_list() {
    each_fault_in_the_longest(&mut Random::new(202), MOST_RECORDS, &asked_faults(), refuses);
}

#[test]
fn the_very_last_record_of_the_longest_list() {
    let mut words = vec![0; 524_288];
    words[524_280..524_282].copy_from_slice(&[15, 3]);
    let surveyed = |words: &[u32]| survey(words, &[], 0, false, 3);
    assert_eq!(surveyed(&words).map(|survey| survey.place), Ok(Place::At(65_535)));
    for (damage, number) in [([21, 0], 5), ([4, 260], 6), ([9, 0], 7)] {
        words[524_280..524_282].copy_from_slice(&damage);
        assert_eq!(surveyed(&words), Err(Refusal { number, index: 65_535 }));
    }
}

#[test]
fn each_fault_of_the_whole_list() {
    let faults = OF_LIST.into_iter().filter(|fault| *fault != Fault::Args);
    faults.for_each(|fault| fault_before_a_bad_record(&mut Random::new(203), fault, refuses));
}

#[test]
fn count_regs_comes_before_sizes() {
    let mut random = Random::new(204);
    for fault in [Fault::PartialRecord, Fault::LongList, Fault::OddTable, Fault::LongTable] {
        let mut list = some_list(&mut random, 3);
        fault.put(&mut random, &mut list, 0);
        refuses(&list, 3, 0);
        list.settings.count_regs = 65;
        refuses(&list, 1, 0);
    }
}

#[test]
fn the_first_bad_record_decides() {
    faults_in_two_records(&mut Random::new(205), &asked_faults(), refuses);
}

#[test]
fn the_lower_question_decides() {
    faults_in_one_record(&mut Random::new(206), &asked_faults(), refuses);
}

/// Questions 2, 8, 9, 15 and 16 are not put here: such a list has an answer.
#[test]
fn other_questions_are_not_put() {
    let mut random = Random::new(207);
    let mut times = [0u32; LAST + 1];
    let others = [Fault::Args, Fault::NoPartner, Fault::NoStatic, Fault::Stale, Fault::NoLabel];
    for turn in 0..20_000 {
        let mut list = match turn % 2 {
            0 => some_list(&mut random, 6),
            _ => any_branch_list(&mut random, 20),
        };
        let fault = random.pick(&others);
        if put_somewhere(&mut random, fault, &mut list).is_some() {
            times[fault.number() as usize] += 1;
            let count_regs = list.settings.count_regs;
            let surveyed = survey(&list.words, &list.table, count_regs, false, 1);
            assert!(surveyed.is_ok(), "{}", shown(&list));
            agree(&list, &[0, 1]);
        }
    }
    assert!([2, 8, 9, 15, 16].iter().all(|number| times[*number] > 200), "{times:?}");
}
