//! The harness's lists as the library holds them.

use harness::limits::MOST_REGS;
use harness::lists::{all_live_list, any_list, list, two_part_list, List, Profile, USED_REGS};
use harness::random::Random;
use harness::run;
use rudzaviks::record::Records;
use rudzaviks::text::{self, Parsed};
use rudzaviks::{Instruction, Settings};

pub fn settings(list: &List) -> Settings {
    let harness::settings::Settings { count_regs, args, complex, arm, compress } = list.settings;
    Settings { count_regs, args, complex, arm, compress }
}

pub fn records(list: &List) -> Records {
    Records { list: list.words.clone(), table: list.table.clone() }
}

pub fn instructions(list: &List) -> Vec<Instruction> {
    records(list).instructions().expect("a list that passes has a meaning")
}

/// The list that a text says.
pub fn list_of(text: &str) -> List {
    let Parsed { list, settings, .. } = text::parse(text).expect("a list");
    let Settings { count_regs, args, complex, arm, compress } = settings;
    let settings = harness::settings::Settings { count_regs, args, complex, arm, compress };
    let Records { list: words, table } = Records::new(&list);
    List { settings, table, words }
}

/// What the unchanged original leaves of a list.
pub fn left_by_original(list: &List) -> Vec<Instruction> {
    let left = Records { list: run::original(list).words, ..records(list) };
    left.instructions().expect("records that are left have a meaning")
}

/// Whether it has more than 32 registers.
pub fn is_wide(list: &List) -> bool {
    list.settings.count_regs > USED_REGS
}

/// Random lists, one after the other; more than one in ten are wide.
pub fn each_list(seed: u64, lists: u64, most_records: u32, mut check: impl FnMut(&List)) {
    let mut wide = 0;
    let count_and_check = |list: &List| {
        wide += u64::from(is_wide(list));
        check(list);
    };
    each_of(any_list, seed, lists, most_records, count_and_check);
    assert!(wide > lists / 10, "{wide}");
}

/// Lists of every number of registers, with all of them live at once. The plain machine runs them.
pub fn each_live_list(seed: u64, lists: u64, mut check: impl FnMut(&List)) {
    let mut random = Random::new(seed);
    for _ in 0..lists / u64::from(MOST_REGS) {
        for count_regs in 0..=MOST_REGS {
            check(&all_live_list(&mut random, count_regs, 40));
        }
    }
}

/// Random lists of mostly two-part records.
pub fn each_two_part_list(seed: u64, lists: u64, most_records: u32, check: impl FnMut(&List)) {
    each_of(two_part_list, seed, lists, most_records, check);
}

fn each_of(
    generate: fn(&mut Random, u32) -> List,
    seed: u64,
    lists: u64,
    most_records: u32,
    mut check: impl FnMut(&List),
) {
    let mut random = Random::new(seed);
    for _ in 0..lists {
        check(&generate(&mut random, most_records));
    }
}

/// A list that the plain machine runs, one in two of mostly two-part records. At least three in
/// four have no End, so that a run gets far; Nop takes its weight, so that some kind has one.
pub fn straight_list(random: &mut Random) -> List {
    let two_part = random.percent(50);
    let profile =
        if two_part { Profile::two_part(random, 30) } else { Profile::random(random, 100) };
    let mut profile = profile.straight();
    if random.percent(75) {
        let [nop, end, ..] = &mut profile.weights;
        (*nop, *end) = (*nop + *end, 0);
    }
    list(random, &profile)
}
