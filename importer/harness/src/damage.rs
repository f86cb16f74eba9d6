//! Damaged copies of passing lists.

use crate::limits::MOST_REGS;
use crate::lists::{fresh_after, nth, statics_after, List};
use crate::mended::target;
use crate::random::Random;
use crate::record::WORDS;
use crate::roles::{words_with, Role};

/// Something wrong with a list, each against one question.
#[derive(Clone, Copy, Debug, PartialEq, Eq)]
pub enum Fault {
    CountRegs,
    Args,
    PartialRecord,
    LongList,
    OddTable,
    LongTable,
    Kind,
    Field,
    UnusedWord,
    SpanOutside,
    PairSpace,
    GenTooHigh,
    NoPartner,
    NoStatic,
    Stale,
    NoLabel,
}

use Fault::*;

/// Faults of the list as a whole.
pub const OF_LIST: [Fault; 6] = [CountRegs, Args, PartialRecord, LongList, OddTable, LongTable];

/// Faults of one record, by questions 5 to 9. The stored answers are damaged by these alone.
pub const OF_RECORD: [Fault; 8] =
    [Kind, Field, UnusedWord, SpanOutside, PairSpace, GenTooHigh, NoPartner, NoStatic];

/// Faults of one record by 15 too: the first record that has any of them is refused. Question 16
/// comes after them all.
pub const IN_TURN: [Fault; 9] =
    [Kind, Field, UnusedWord, SpanOutside, PairSpace, GenTooHigh, NoPartner, NoStatic, Stale];

impl Fault {
    /// The question that a list with this fault alone is refused by.
    pub fn number(self) -> u32 {
        match self {
            CountRegs => 1,
            Args => 2,
            PartialRecord | LongList | OddTable | LongTable => 3,
            Kind => 5,
            Field | UnusedWord | SpanOutside | PairSpace => 6,
            GenTooHigh => 7,
            NoPartner => 8,
            NoStatic => 9,
            Stale => 15,
            NoLabel => 16,
        }
    }

    /// Whether a passing list of so many records may have a place for it in record `at`. A source is
    /// stale in the third record at the earliest, and a branch has a Label beside it.
    pub fn may_fit(self, records: usize, at: usize) -> bool {
        match self {
            Stale => at > 1,
            NoLabel => records > 1,
            _ => true,
        }
    }

    /// Puts the fault into the list, into record `at` if it is one of a record. False, and nothing
    /// done, where there is no place for it.
    pub fn put(self, random: &mut Random, list: &mut List, at: usize) -> bool {
        if OF_LIST.contains(&self) {
            self.put_in_list(random, list);
            return true;
        }
        match self {
            Kind => set(list, at, 0, random.pick(&[21, 22, 255, 256, 1 << 31, u32::MAX])),
            Field => bad_field(random, list, at),
            UnusedWord => {
                let value = random.pick(&[1, 2, 1 << 16, u32::MAX]);
                set_one_of(random, list, at, |role| role == Role::Unused, value)
            }
            SpanOutside => span_outside(random, list, at),
            PairSpace => pair_space(random, list, at),
            GenTooHigh => {
                let value = random.between(list.settings.count_regs.min(255), 255);
                set_one_of(random, list, at, is_register, value)
            }
            NoPartner => set_one_of(random, list, at, |role| role == Role::PartnerIndex, u32::MAX),
            Stale => stale(random, list, at),
            NoLabel => no_label(random, list, at),
            _ => no_static(random, list, at),
        }
    }

    fn put_in_list(self, random: &mut Random, list: &mut List) {
        match self {
            CountRegs => list.settings.count_regs = random.pick(&[65, 66, 128, 256, u32::MAX]),
            Args => list.settings.args = random.pick(&[65_536, 65_537, 1 << 31, u32::MAX]),
            PartialRecord => {
                let more = random.between(1, 7) as usize;
                list.words.resize(list.words.len() + more, 0);
            }
            LongList => list.words.resize(524_288 + WORDS, 0),
            OddTable => list.table.push(0),
            _ => list.table.resize(65_536 + 2, 0),
        }
    }
}

fn is_register(role: Role) -> bool {
    role == Role::Source || role == Role::Destination
}

fn set(list: &mut List, at: usize, word: usize, value: u32) -> bool {
    list.record_mut(at)[word] = value;
    true
}

/// Sets one of the record's words that have a wanted role.
fn set_one_of(
    random: &mut Random,
    list: &mut List,
    at: usize,
    wanted: impl Fn(Role) -> bool,
    value: u32,
) -> bool {
    let words = words_with(list.record(at)[0], wanted);
    !words.is_empty() && set(list, at, random.pick(&words), value)
}

fn bad_field(random: &mut Random, list: &mut List, at: usize) -> bool {
    let kind = list.record(at)[0];
    let limit = |role| match role {
        Role::Op(ops) => Some(ops),
        Role::Source | Role::Destination => Some(260),
        Role::Space => Some(3),
        Role::Flag => Some(2),
        Role::Byte => Some(256),
        _ => None,
    };
    let words = words_with(kind, |role| limit(role).is_some());
    if words.is_empty() {
        return false;
    }
    let word = random.pick(&words);
    let low = limit(crate::roles::role(kind, word)).expect("a word with a limit");
    let any = random.between(low, u32::MAX);
    set(list, at, word, random.pick(&[low, low + 1, any, u32::MAX]))
}

fn span_outside(random: &mut Random, list: &mut List, at: usize) -> bool {
    if list.record(at)[0] != 10 {
        return false;
    }
    let pairs = list.table.len() as u32 / 2;
    let first = random.between(0, pairs);
    let beyond = pairs - first + 1;
    let (first, count) = random.pick(&[
        (first, beyond),
        (first, u32::MAX),
        (pairs + 1, 0),
        (u32::MAX, 0),
        (u32::MAX, 1),
        (u32::MAX, u32::MAX),
        (1 << 31, 1 << 31),
    ]);
    set(list, at, 1, first) && set(list, at, 2, count)
}

/// A new last pair in no space, which this record alone names.
fn pair_space(random: &mut Random, list: &mut List, at: usize) -> bool {
    if list.record(at)[0] != 10 {
        return false;
    }
    let last = list.table.len() as u32 / 2;
    list.table.extend([random.pick(&[3, 4, 256, u32::MAX]), random.below(4)]);
    let first = random.between(last.saturating_sub(3), last);
    set(list, at, 1, first) && set(list, at, 2, last + 1 - first)
}

/// A source that is a Gen without a static.
fn no_static(random: &mut Random, list: &mut List, at: usize) -> bool {
    let held = (0..at).fold(0, |held, before| statics_after(list.record(before), held));
    let count_regs = list.settings.count_regs.min(MOST_REGS);
    let free: Vec<u32> = (0..count_regs).filter(|register| held & (1 << register) == 0).collect();
    if free.is_empty() {
        return false;
    }
    let value = random.pick(&free);
    set_one_of(random, list, at, |role| role == Role::Source, value)
}

/// A source that was written before a BranchIf and not since.
fn stale(random: &mut Random, list: &mut List, at: usize) -> bool {
    let before = |after: fn(&[u32], u64) -> u64| {
        (0..at).fold(0, |held, before| after(list.record(before), held))
    };
    let stale = before(statics_after) & !before(fresh_after);
    if stale == 0 {
        return false;
    }
    let value = nth(stale, random.below(stale.count_ones()));
    set_one_of(random, list, at, |role| role == Role::Source, value)
}

/// A number that no Label has.
fn no_label(random: &mut Random, list: &mut List, at: usize) -> bool {
    let labels = list.labels();
    let numbers = [0, 1, 65_535, 65_536, u32::MAX, random.word()];
    let free: Vec<u32> = numbers.into_iter().filter(|number| !labels.contains(number)).collect();
    match target(list.record(at)[0]) {
        Some(word) if !free.is_empty() => set(list, at, word, random.pick(&free)),
        _ => false,
    }
}

/// A copy with one or two faults, or with one or two words changed to anything.
pub fn damaged(random: &mut Random, list: &List) -> List {
    let mut copy = list.clone();
    for _ in 0..random.between(1, 2) {
        if random.percent(25) {
            any_word(random, &mut copy);
        } else {
            any_fault(random, &mut copy);
        }
    }
    copy
}

/// Changes a word of the list or of the table to anything: the copy may still pass.
fn any_word(random: &mut Random, list: &mut List) {
    let value = match random.below(3) {
        0 => random.below(24),
        1 => random.between(250, 262),
        _ => random.word(),
    };
    let words = list.words.len();
    let all = words + list.table.len();
    if all > 0 {
        match random.index(all) {
            place if place < words => list.words[place] = value,
            place => list.table[place - words] = value,
        }
    }
}

/// Tries faults and places until one fits. Only a first fault meets a list of known kinds.
fn any_fault(random: &mut Random, list: &mut List) {
    let known = list.words.chunks_exact(WORDS).all(|record| record[0] <= 20);
    let records = list.records();
    if records == 0 || !known || random.percent(5) {
        random.pick(&[CountRegs, Args, PartialRecord, OddTable]).put(random, list, 0);
        return;
    }
    for _ in 0..20 {
        let at = random.index(records);
        if random.pick(&OF_RECORD).put(random, list, at) {
            return;
        }
    }
}

/// A copy of a list with branches: half of them damaged as any other, half of them by one or two
/// stale sources, branches to no Label, and Labels that are gone or have another number.
pub fn damaged_branches(random: &mut Random, list: &List) -> List {
    if list.records() == 0 || random.percent(50) {
        return damaged(random, list);
    }
    let mut copy = list.clone();
    for _ in 0..random.between(1, 2) {
        for _ in 0..20 {
            let at = random.index(copy.records());
            if branch_fault(random, &mut copy, at) {
                break;
            }
        }
    }
    copy
}

fn branch_fault(random: &mut Random, list: &mut List, at: usize) -> bool {
    match random.below(4) {
        0 | 1 => Stale.put(random, list, at),
        2 => NoLabel.put(random, list, at),
        _ if list.record(at)[0] != 15 => false,
        _ if random.percent(50) => set(list, at, 1, random.below(3)),
        _ => set(list, at, 0, 0) && set(list, at, 1, 0),
    }
}
