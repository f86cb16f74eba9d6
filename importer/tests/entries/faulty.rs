//! Lists with faults at known places. Each is handed to a check with the number and the index that
//! it is to be refused with.

use harness::damage::{Fault, IN_TURN, OF_RECORD};
use harness::kinds::{branch_if, label, load_const, RET};
use harness::limits::MOST_REGS;
use harness::lists::{any_branch_list, list, List, Profile};
use harness::questions::LAST;
use harness::random::Random;
use harness::settings::Settings;

/// A passing list.
pub fn some_list(random: &mut Random, records: usize) -> List {
    let count_regs = random.between(1, MOST_REGS);
    let settings = Settings { count_regs, ..Settings::default() };
    list(random, &Profile { settings, ..Profile::plain(records) })
}

/// Every fault that one record may have.
pub fn of_any_record() -> Vec<Fault> {
    [&IN_TURN[..], &[Fault::NoLabel]].concat()
}

/// Each fault in the first, a middle and the last record, where it may fit.
pub fn each_fault_at_places(
    random: &mut Random,
    faults: &[Fault],
    mut check: impl FnMut(&List, u32, usize),
) {
    let places = [(1, 0), (11, 0), (11, 5), (11, 10)];
    for fault in faults {
        let may_fit = |(records, at): &(usize, usize)| fault.may_fit(*records, *at);
        for (records, at) in places.into_iter().filter(may_fit) {
            let mut times = 0;
            for _ in 0..2_000 {
                let mut list = some_list(random, records);
                if fault.put(random, &mut list, at) {
                    times += 1;
                    check(&list, fault.number(), at);
                }
            }
            assert!(times > 20, "{fault:?} at {at} of {records}: {times} times");
        }
    }
}

/// Each fault somewhere in a list, and what is refused where the room is too short as well: the
/// fourth question comes after the first three and before the others.
pub fn too_short_among(
    random: &mut Random,
    faults: impl IntoIterator<Item = Fault>,
    mut check: impl FnMut(&mut Random, &List, u32),
) {
    for fault in faults {
        let mut times = 0;
        while times < 20 {
            let mut list = some_list(random, 11);
            let at = random.index(11);
            if fault.put(random, &mut list, at) {
                times += 1;
                check(random, &list, fault.number().min(4));
            }
        }
    }
}

/// One fault more at each step: each decides over those put before it.
pub fn each_decides(
    random: &mut Random,
    faults: [(Fault, u32); 4],
    mut check: impl FnMut(&mut Random, &List, u32),
) {
    let mut list = some_list(random, 3);
    for (fault, number) in faults {
        assert!(fault.put(random, &mut list, 0), "{fault:?} does not fit");
        check(random, &list, number);
    }
}

/// Each fault early, midway and late in a list of as many records as may be.
pub fn each_fault_in_the_longest(
    random: &mut Random,
    most: usize,
    faults: &[Fault],
    mut check: impl FnMut(&List, u32, usize),
) {
    let settings = Settings { count_regs: MOST_REGS, ..Settings::default() };
    let longest = list(random, &Profile { settings, ..Profile::plain(most) });
    for fault in faults {
        for start in [0, most / 2, most - 36] {
            let mut list = longest.clone();
            let fits = |at: &usize| fault.put(random, &mut list, *at);
            let at = (start..most).find(fits).expect("a record that the fault fits");
            check(&list, fault.number(), at);
        }
    }
}

/// A fault of the whole list, with a bad first record beside it.
pub fn fault_before_a_bad_record(
    random: &mut Random,
    fault: Fault,
    mut check: impl FnMut(&List, u32, usize),
) {
    for records in [0, 1, 11] {
        for _ in 0..10 {
            let mut list = some_list(random, records);
            if records > 1 {
                Fault::Kind.put(random, &mut list, 0);
            }
            fault.put(random, &mut list, 0);
            check(&list, fault.number(), 0);
        }
    }
}

/// Two bad records: the first decides.
pub fn faults_in_two_records(
    random: &mut Random,
    faults: &[Fault],
    mut check: impl FnMut(&List, u32, usize),
) {
    let mut times = 0;
    for _ in 0..40_000 {
        let mut list = some_list(random, 12);
        let (first, second) = (random.index(6), 6 + random.index(6));
        let (early, late) = (random.pick(faults), random.pick(faults));
        if late.put(random, &mut list, second) && early.put(random, &mut list, first) {
            times += 1;
            check(&list, early.number(), first);
        }
    }
    assert!(times > 2_000, "{times} times");
}

/// A record with one of the faults and one against a later question: the earlier decides.
pub fn faults_in_one_record(
    random: &mut Random,
    faults: &[Fault],
    mut check: impl FnMut(&List, u32, usize),
) {
    let mut times = [[0u32; LAST + 1]; LAST + 1];
    for _ in 0..60_000 {
        let mut list = some_list(random, 3);
        let at = random.index(3);
        let (low, high) = (random.pick(faults), random.pick(&OF_RECORD));
        if low.number() < high.number()
            && high.put(random, &mut list, at)
            && low.put(random, &mut list, at)
        {
            times[low.number() as usize][high.number() as usize] += 1;
            check(&list, low.number(), at);
        }
    }
    for low in faults.iter().map(|fault| fault.number()) {
        for high in low + 1..=9 {
            assert!(times[low as usize][high as usize] > 20, "{low} with {high}: {times:?}");
        }
    }
}

/// A list that passes, whose written registers are all stale at the record with the index that comes
/// with it. One register is never written.
fn list_with_stale(random: &mut Random) -> (List, usize) {
    let count_regs = random.between(2, MOST_REGS);
    let settings = Settings { count_regs, ..Settings::default() };
    let profile = Profile { settings, ..Profile::plain(1) };
    let mut some = list(random, &profile);
    let mut words: Vec<u32> = (0..count_regs - 1).flat_map(|reg| load_const(reg, reg)).collect();
    words.extend(branch_if(RET, 7, 0));
    words.append(&mut some.words);
    words.extend(label(7));
    (List { words, ..some }, count_regs as usize)
}

/// A record with a stale source and one of the faults: that decides.
pub fn faults_with_a_stale_source(
    random: &mut Random,
    faults: &[Fault],
    mut check: impl FnMut(&List, u32, usize),
) {
    let mut times = [0u32; LAST + 1];
    for _ in 0..60_000 {
        let (mut list, at) = list_with_stale(random);
        let low = random.pick(faults);
        if Fault::Stale.put(random, &mut list, at) && low.put(random, &mut list, at) {
            times[low.number() as usize] += 1;
            check(&list, low.number(), at);
        }
    }
    for low in faults.iter().map(|fault| fault.number()) {
        assert!(times[low as usize] > 20, "{low} with 15: {times:?}");
    }
}

/// Puts a fault into the first record from some place on that it fits, round the whole list.
pub fn put_somewhere(random: &mut Random, fault: Fault, list: &mut List) -> Option<usize> {
    let records = list.records();
    let start = random.index(records);
    (0..records).map(|at| (start + at) % records).find(|at| fault.put(random, list, *at))
}

/// A branch to no Label, and a fault before or behind it: that decides. Of two such branches the
/// first is told.
pub fn faults_with_no_label(random: &mut Random, mut check: impl FnMut(&List, u32, usize)) {
    let mut times = [[0u32; 2]; LAST + 1];
    for _ in 0..20_000 {
        let mut list = any_branch_list(random, 20);
        let fault = random.pick(&of_any_record());
        let Some(at) = put_somewhere(random, Fault::NoLabel, &mut list) else { continue };
        let Some(other) = put_somewhere(random, fault, &mut list) else { continue };
        if at != other {
            times[fault.number() as usize][usize::from(other > at)] += 1;
            let first = if fault == Fault::NoLabel { at.min(other) } else { other };
            check(&list, fault.number(), first);
        }
    }
    for number in [5, 6, 7, 8, 9, 15, 16] {
        assert!(times[number].iter().all(|times| *times > 50), "{number}: {times:?}");
    }
}
