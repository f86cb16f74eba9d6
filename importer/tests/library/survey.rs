//! `survey` beside a plain count over the instructions.

use std::collections::BTreeSet;

use crate::support::{each_list, each_two_part_list, instructions, records, settings};
use harness::damage::damaged;
use harness::how_many;
use harness::lists::{any_list, drawn, List, Profile};
use harness::questions::refusal_beside;
use harness::random::Random;
use rudzaviks::mir::{reg, set_label};
use rudzaviks::record::Records;
use rudzaviks::{ffi, reduce, survey, Instruction, Label, Place, Reg, Settings, Survey};

fn is_general(reg: &Reg) -> bool {
    matches!(reg, Reg::Gen(_))
}

/// The registers of an instruction that count as used.
fn counted(ins: &Instruction) -> Vec<Reg> {
    let registers = match *ins {
        Instruction::BranchIf { cond, .. } => vec![cond],
        _ => ins.destinations(),
    };
    if registers.iter().all(is_general) {
        registers
    } else {
        Vec::new()
    }
}

fn used(code: &[Instruction], settings: &Settings) -> Vec<Reg> {
    let counted: Vec<Reg> = code.iter().flat_map(counted).collect();
    (0..64).map(reg).filter(|reg| settings.compress || counted.contains(reg)).collect()
}

fn jumps_to(ins: &Instruction) -> Option<u32> {
    match *ins {
        Instruction::Branch { label } | Instruction::BranchIf { label, .. } => Some(label),
        _ => None,
    }
}

fn mentions(ins: &Instruction) -> Option<u32> {
    match *ins {
        Instruction::Label { label } => Some(label),
        _ => jumps_to(ins),
    }
}

fn place(code: &[Instruction], number: u32) -> Place {
    let is_label = |ins: &Instruction| *ins == set_label(number);
    match code.iter().rposition(is_label) {
        Some(last) => Place::At { last, times: code.iter().filter(|ins| is_label(ins)).count() },
        None => {
            let jump = code.iter().position(|ins| jumps_to(ins) == Some(number));
            Place::Absent { jump: jump.expect("a number that is mentioned") }
        }
    }
}

fn plain_count(code: &[Instruction], settings: &Settings) -> Survey {
    let registers = used(code, settings);
    let numbers: BTreeSet<u32> = code.iter().filter_map(mentions).collect();
    let labels = numbers.into_iter().map(|number| Label { number, place: place(code, number) });
    Survey { count: registers.len() as u32, registers, labels: labels.collect() }
}

/// How often each sort of answer was met.
#[derive(Debug, Default)]
struct Met {
    single: u64,
    repeated: u64,
    absent: u64,
    without_registers: u64,
    without_labels: u64,
    not_reduced: u64,
    /// A register above 31 is used, and not by `compress`.
    high: u64,
}

impl Met {
    fn add(&mut self, survey: &Survey) {
        self.without_registers += u64::from(survey.registers.is_empty());
        self.without_labels += u64::from(survey.labels.is_empty());
        for label in &survey.labels {
            match label.place {
                Place::At { times: 1, .. } => self.single += 1,
                Place::At { .. } => self.repeated += 1,
                Place::Absent { .. } => self.absent += 1,
            }
        }
    }

    /// Compares the list, and its records in another order, by which question 9 may refuse them.
    fn compare(&mut self, random: &mut Random, list: &List) {
        let (mut code, settings) = (instructions(list), settings(list));
        for _ in 0..2 {
            let answer = survey(&Records::new(&code), &settings).expect("a list that passes");
            assert_eq!(answer, plain_count(&code, &settings), "{code:?}");
            self.add(&answer);
            self.not_reduced += u64::from(reduce(&code, &settings).is_err());
            let is_high = |reg: &Reg| matches!(reg, Reg::Gen(32..));
            self.high += u64::from(!settings.compress && answer.registers.iter().any(is_high));
            for at in 1..code.len() {
                code.swap(at, random.index(at + 1));
            }
        }
    }
}

/// Many labels and jumps, with few numbers or with many; some of the jumps have no label.
fn list_with_labels(random: &mut Random) -> List {
    let mut profile = Profile::random(random, 100);
    profile.labels = random.pick(&[2, 5, 20, 60]);
    [15, 16, 17].iter().for_each(|kind| profile.weights[*kind] += random.pick(&[1, 5, 20]));
    drawn(random, &profile)
}

#[test]
fn lists_are_surveyed_as_by_a_plain_count() {
    let lists = how_many(20_000);
    let mut random = Random::new(101);
    let mut met = Met::default();
    for _ in 0..lists {
        let list = list_with_labels(&mut random);
        met.compare(&mut random, &list);
    }
    each_list(102, lists, 300, |list| met.compare(&mut random, list));
    each_two_part_list(103, lists, 30, |list| met.compare(&mut random, list));
    println!("surveyed: {met:?}");
    let Met { single, repeated, absent, without_registers, without_labels, .. } = met;
    assert!(single > lists && repeated > lists && absent > lists);
    assert!(without_registers > lists / 20 && without_labels > lists / 4);
    assert!(met.not_reduced > lists && met.high > lists / 10);
}

#[test]
fn lists_for_fewer_registers_are_refused() {
    let mut random = Random::new(104);
    let mut refused = 0;
    for _ in 0..5_000 {
        let mut less = list_with_labels(&mut random);
        less.settings.count_regs = random.below(less.settings.count_regs + 1);
        // A list that passes with more registers is refused by question 7 alone.
        let expected = refusal_beside(less.settings.count_regs, &less.words, &less.table, true);
        let answer = survey(&records(&less), &settings(&less)).err();
        assert_eq!(answer.map(|no| (no.number, no.index as usize)), expected);
        refused += u32::from(expected.is_some());
    }
    assert!(refused > 1_000, "{refused}");
}

/// Records that have no meaning, or are cut off, are the entry's to refuse.
#[test]
fn damaged_lists_are_refused_as_by_the_entry() {
    let mut random = Random::new(105);
    let mut refused = [0; 10];
    for _ in 0..how_many(20_000) {
        let good = any_list(&mut random, 60);
        let damaged = damaged(&mut random, &good);
        let (records, settings) = (records(&damaged), settings(&damaged));
        let Settings { count_regs, compress, .. } = settings;
        let expected = ffi::survey(&records.list, &records.table, count_regs, compress, 0);
        assert_eq!(survey(&records, &settings).err(), expected.err(), "{damaged:?}");
        refused[expected.map_or_else(|no| no.number as usize, |_| 0)] += 1;
    }
    assert!([0, 1, 3, 5, 6, 7].iter().all(|number| refused[*number] > 100), "{refused:?}");
    assert!([2, 4, 8, 9].iter().all(|number| refused[*number] == 0), "{refused:?}");
}
