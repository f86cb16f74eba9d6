//! The statement of the questions, against faults put in by hand and against the original.

use harness::branch_cases;
use harness::damage::{damaged, damaged_branches, Fault, IN_TURN, OF_LIST};
use harness::lists::{any_branch_list, any_list, list, List, Profile};
use harness::mended::mended;
use harness::panics::caught;
use harness::questions::{refusal, refusal_beside, Refusal, LAST};
use harness::random::Random;
use harness::settings::Settings;
use harness::{how_many, run};

fn whole(list: &List) -> Option<Refusal> {
    refusal(&list.settings, &list.words, &list.table, true)
}

fn beside(list: &List) -> Option<Refusal> {
    refusal_beside(list.settings.count_regs, &list.words, &list.table, true)
}

fn some_list(random: &mut Random, records: usize) -> List {
    let count_regs = random.between(1, 63);
    let settings = Settings { count_regs, ..Settings::default() };
    list(random, &Profile { settings, ..Profile::plain(records) })
}

/// Whether the operation beside the passes asks for a fault.
fn asked_beside(number: u32) -> bool {
    matches!(number, 1 | 3 | 5 | 6 | 7)
}

#[test]
fn each_fault_of_a_record_has_its_number_and_place() {
    let mut random = Random::new(21);
    for fault in IN_TURN.into_iter().chain([Fault::NoLabel]) {
        for at in [0, 5, 10].into_iter().filter(|at| fault.may_fit(11, *at)) {
            let mut times = 0;
            for _ in 0..2_000 {
                let mut list = some_list(&mut random, 11);
                if fault.put(&mut random, &mut list, at) {
                    times += 1;
                    let no = Some((fault.number(), at));
                    assert_eq!(whole(&list), no, "{fault:?} {list:?}");
                    let no = no.filter(|_| asked_beside(fault.number()));
                    assert_eq!(beside(&list), no, "{fault:?} {list:?}");
                }
            }
            assert!(times > 20, "{fault:?} at {at}: {times} times");
        }
    }
}

#[test]
fn each_fault_of_a_list_has_its_number() {
    let mut random = Random::new(22);
    for fault in OF_LIST {
        for _ in 0..20 {
            let mut list = some_list(&mut random, 11);
            // a later question's fault beside it
            Fault::Kind.put(&mut random, &mut list, 0);
            assert!(fault.put(&mut random, &mut list, 0));
            assert_eq!(whole(&list), Some((fault.number(), 0)), "{fault:?}");
            let number = if asked_beside(fault.number()) { fault.number() } else { 5 };
            assert_eq!(beside(&list), Some((number, 0)), "{fault:?}");
        }
    }
}

#[test]
fn earlier_questions_decide() {
    let mut random = Random::new(23);
    let mut list = some_list(&mut random, 3);
    let decides = |list: &List, room, number| {
        assert_eq!(refusal(&list.settings, &list.words, &list.table, room), Some((number, 0)));
    };
    decides(&list, false, 4);
    Fault::Kind.put(&mut random, &mut list, 0);
    decides(&list, true, 5);
    decides(&list, false, 4);
    Fault::OddTable.put(&mut random, &mut list, 0);
    decides(&list, false, 3);
    Fault::Args.put(&mut random, &mut list, 0);
    decides(&list, false, 2);
    Fault::CountRegs.put(&mut random, &mut list, 0);
    decides(&list, false, 1);
}

/// Beside the passes the second question is not put.
#[test]
fn earlier_questions_decide_beside() {
    let mut random = Random::new(27);
    let mut list = some_list(&mut random, 3);
    let decides = |list: &List, room, number| {
        let no = refusal_beside(list.settings.count_regs, &list.words, &list.table, room);
        assert_eq!(no, Some((number, 0)));
    };
    decides(&list, false, 4);
    for (fault, with_room, without) in [
        (Fault::Kind, 5, 4),
        (Fault::Args, 5, 4),
        (Fault::OddTable, 3, 3),
        (Fault::CountRegs, 1, 1),
    ] {
        fault.put(&mut random, &mut list, 0);
        decides(&list, true, with_room);
        decides(&list, false, without);
    }
}

#[test]
fn limits_are_where_they_are() {
    let at = |count_regs, args, words: usize, table: usize| {
        let settings = Settings { count_regs, args, ..Settings::default() };
        refusal(&settings, &vec![0; words], &vec![0; table], true)
    };
    assert_eq!(at(64, 65_535, 524_288, 65_536), None);
    assert_eq!(at(65, 65_535, 524_288, 65_536), Some((1, 0)));
    assert_eq!(at(64, 65_536, 524_288, 65_536), Some((2, 0)));
    assert_eq!(at(64, 65_535, 524_296, 65_536), Some((3, 0)));
    assert_eq!(at(64, 65_535, 524_288, 65_538), Some((3, 0)));
    assert_eq!(at(64, 65_535, 524_287, 65_536), Some((3, 0)));
    assert_eq!(at(64, 65_535, 524_288, 65_535), Some((3, 0)));
}

#[test]
fn the_first_bad_record_decides() {
    let mut random = Random::new(24);
    let mut times = 0;
    for _ in 0..20_000 {
        let mut list = some_list(&mut random, 12);
        let (first, second) = (random.index(6), 6 + random.index(6));
        let (early, late) = (random.pick(&IN_TURN), random.pick(&IN_TURN));
        if late.put(&mut random, &mut list, second) && early.put(&mut random, &mut list, first) {
            times += 1;
            assert_eq!(whole(&list), Some((early.number(), first)), "{list:?}");
        }
    }
    assert!(times > 1_000, "{times} times");
}

#[test]
fn the_lower_question_decides() {
    let mut random = Random::new(25);
    let mut times = 0;
    for _ in 0..40_000 {
        let mut list = some_list(&mut random, 6);
        let at = random.index(6);
        let (low, high) = (random.pick(&IN_TURN), random.pick(&IN_TURN));
        if low.number() < high.number()
            && high.put(&mut random, &mut list, at)
            && low.put(&mut random, &mut list, at)
        {
            times += 1;
            assert_eq!(whole(&list), Some((low.number(), at)), "{low:?} {high:?} {list:?}");
        }
    }
    assert!(times > 1_000, "{times} times");
}

/// With no registers the original never asks for a SaveComplex's partner.
fn partner_is_asked_for(list: &List, at: usize) -> bool {
    list.settings.count_regs > 0 || list.record(at)[0] == 7
}

fn overflow_is_checked() -> bool {
    caught(|| oracle::Loc::Mem(std::hint::black_box(u32::MAX)).imag()).is_err()
}

/// The original panics at questions 7 and 9, at 8 in a build with overflow checks, and nowhere
/// else. At 9 its message has the index.
fn panic_agrees(list: &List, no: Option<Refusal>) {
    let result = caught(|| run::original(list));
    match no {
        None => assert!(result.is_ok(), "{list:?}"),
        Some((7, _)) => assert!(result.is_err(), "{list:?}"),
        Some((9, at)) => {
            let message = result.expect_err("a panic");
            assert!(message.ends_with(&format!("not found (line {at})")), "{message} {list:?}");
        }
        Some((8, at)) => {
            let mut rest = list.clone();
            rest.record_mut(at)[4] = 0;
            let panics = overflow_is_checked() && partner_is_asked_for(list, at);
            if panics || whole(&rest).is_none() {
                assert_eq!(result.is_err(), panics, "{list:?}");
            }
        }
        // nothing else is wrong with the list, and so the original reduces it
        Some((15 | 16, _)) if whole(&mended(list.clone())).is_none() => {
            assert!(result.is_ok(), "{list:?}");
        }
        Some((15, _)) => {}
        Some(no) => panic!("{no:?} is no question of the original's: {list:?}"),
    }
}

#[test]
fn the_original_panics_where_a_list_is_refused() {
    let mut random = Random::new(26);
    let mut times = [0u32; LAST + 1];
    for turn in 0..how_many(200_000) {
        let damaged = match turn % 2 {
            0 => {
                let list = any_list(&mut random, 40);
                panic_agrees(&list, None);
                damaged(&mut random, &list)
            }
            _ => {
                let list = any_branch_list(&mut random, 40);
                damaged_branches(&mut random, &list)
            }
        };
        let no = whole(&damaged);
        let number = no.map_or(0, |(number, _)| number);
        if matches!(number, 0 | 7..=9 | 15 | 16) && run::mir(&damaged).is_some() {
            times[number as usize] += 1;
            panic_agrees(&damaged, no);
        }
    }
    assert!([0, 7, 8, 9, 15, 16].iter().all(|number| times[*number] > 100), "{times:?}");
}

/// The lists that were chosen for questions 15 and 16. Beside the passes neither is put.
#[test]
fn branches_by_hand() {
    let mut times = [0u32; LAST + 1];
    for case in branch_cases::cases() {
        assert_eq!(whole(&case.list), case.refused, "{}", case.name);
        let known = case.list.words.chunks_exact(8).all(|record| record[0] <= 20);
        if known && matches!(case.refused, None | Some((8.., _))) {
            assert_eq!(beside(&case.list), None, "{}", case.name);
        }
        times[case.refused.map_or(0, |(number, _)| number as usize)] += 1;
    }
    assert!(times[0] > 15 && times[15] > 25 && times[16] > 15, "{times:?}");
    assert!([5, 6, 7, 8, 9].iter().all(|number| times[*number] > 0), "{times:?}");
}
