//! The outcomes that `reduce` gives: which instructions are left, and that the reasons are true.

use std::collections::HashSet;

use crate::machine::Machine;
use crate::support::{
    each_list, each_live_list, each_two_part_list, instructions, is_wide, settings, straight_list,
};
use harness::kinds::STACK;
use harness::lists::List;
use harness::random::Random;
use harness::{how_many, run};
use rudzaviks::{reduce, Counts, Held, Instruction, Loc, Outcome, Reason, Reduced, Reg, Settings};

/// An instruction's text without its general registers: what stays of it in the shortened list.
fn without_registers(ins: &Instruction) -> String {
    let general: HashSet<Reg> = ins.sources().into_iter().chain(ins.destinations()).collect();
    let mut names: Vec<String> = general.iter().map(Reg::to_string).collect();
    names.retain(|name| name.ends_with(|c: char| c.is_ascii_digit()));
    // %12 before %1, which it starts with
    names.sort_by_key(|name| std::cmp::Reverse(name.len()));
    names.iter().fold(ins.to_string(), |text, name| text.replace(name, "%"))
}

/// How many of each sort the outcomes have: nops, loads, moves, saves.
fn dropped(outcomes: &[Outcome]) -> [u32; 4] {
    let mut dropped = [0; 4];
    for outcome in outcomes {
        match outcome {
            Outcome::Kept(_) => {}
            Outcome::Dropped(Reason::Nothing) => dropped[0] += 1,
            Outcome::Dropped(Reason::Held(_) | Reason::BothHeld(..)) => dropped[1] += 1,
            Outcome::Dropped(Reason::OntoItself(_)) => dropped[2] += 1,
            Outcome::Dropped(Reason::Unread(_) | Reason::NeitherRead(..)) => dropped[3] += 1,
        }
    }
    dropped
}

/// The reason is one for such an instruction.
fn fits(ins: &Instruction, reason: Reason) -> bool {
    match (ins, reason) {
        (Instruction::Nop, Reason::Nothing) => true,
        (Instruction::Load { loc, .. }, Reason::Held(held)) => *loc == held.loc,
        (Instruction::LoadComplex { loc, .. }, Reason::BothHeld(x, y)) => {
            *loc == x.loc && loc.imag() == Some(y.loc)
        }
        (Instruction::Mov { .. }, Reason::OntoItself(_)) => true,
        (Instruction::Save { loc, .. }, Reason::Unread(unread)) => *loc == unread,
        (Instruction::SaveComplex { loc, .. }, Reason::NeitherRead(x, y)) => {
            *loc == x && loc.imag() == Some(y)
        }
        _ => false,
    }
}

/// The locations that a reason says are not read.
fn unread(reason: Reason) -> Vec<Loc> {
    match reason {
        Reason::Unread(loc) => vec![loc],
        Reason::NeitherRead(x, y) => vec![x, y],
        _ => Vec::new(),
    }
}

/// What is left goes by the outcomes, and each reason fits its instruction.
fn outcomes_fit(list: &List) {
    let (code, settings) = (instructions(list), settings(list));
    let Reduced { list: left, counts, outcomes, .. } = reduce(&code, &settings).expect("it passes");
    let Counts { nops, loads, moves, saves, .. } = counts;
    assert_eq!(dropped(&outcomes), [nops, loads, moves, saves], "{list:?}");
    let read = run::reduced(list).members;
    let is_unread = |loc: Loc| match loc {
        Loc::Stack(index) => {
            u64::from(index) >= settings.fixed_mark() && !read.contains(&(STACK, index))
        }
        _ => false,
    };
    let mut kept = 0;
    for (ins, outcome) in code.iter().zip(&outcomes) {
        match *outcome {
            Outcome::Kept(at) => {
                let [before, after] = [ins, &left[kept]].map(without_registers);
                assert_eq!((at, before), (kept, after), "{list:?}");
                kept += 1;
            }
            Outcome::Dropped(reason) => {
                assert!(fits(ins, reason), "{ins} {outcome}: {list:?}");
                assert!(unread(reason).into_iter().all(is_unread), "{ins} {outcome}: {list:?}");
            }
        }
    }
    assert_eq!((kept, outcomes.len()), (left.len(), code.len()), "{list:?}");
}

#[test]
fn each_instruction_has_its_outcome() {
    let lists = how_many(20_000);
    each_list(95, lists, 200, outcomes_fit);
    each_two_part_list(98, lists, 30, outcomes_fit);
    each_live_list(90, lists / 4, outcomes_fit);
}

#[test]
fn two_part_reasons_say_both_halves() {
    let code = [
        "(%0 + %1*im) := Mem[0]",
        "Stack[16] := (%1 + %0*im)",
        "(%2 + %3*im) := Mem[0]",
        "(%3 + %2*im) := Stack[16]",
        "Mem[4] := (%2 + %3*im)",
    ];
    let code = code.map(|text| text.parse().expect("an instruction"));
    let settings = Settings { count_regs: 4, ..Settings::default() };
    let outcomes = reduce(&code, &settings).expect("it passes").outcomes;
    let shown = outcomes.iter().map(Outcome::to_string).collect::<Vec<_>>();
    let expected = [
        "kept",
        "dropped: nothing kept reads Stack[16] or Stack[17], at or above the fixed mark",
        "kept",
        "dropped: Stack[16] is already in %1, and Stack[17] in %0",
        "kept",
    ];
    assert_eq!(shown, expected);
}

/// The words that a reason says are in registers, each with its register.
fn said(reason: Reason, ins: &Instruction, before: &Machine) -> Vec<(u64, Reg)> {
    let held = |Held { loc, reg }| (before.cell(loc), reg);
    match reason {
        Reason::Held(half) => vec![held(half)],
        Reason::BothHeld(x, y) => vec![held(x), held(y)],
        Reason::OntoItself(reg) => vec![(before.reg(ins.sources()[0]), reg)],
        Reason::Nothing | Reason::Unread(_) | Reason::NeitherRead(..) => Vec::new(),
    }
}

/// Runs a list and its shortened one side by side, as far as End, and compares the reasons with
/// what is there. How many reasons named no register, one, and two.
fn reasons_are_true(seed: u64, code: &[Instruction], reduced: &Reduced) -> [u64; 3] {
    let (mut before, mut after) = (Machine::new(seed), Machine::new(seed));
    let mut times = [0; 3];
    for (ins, outcome) in code.iter().zip(&reduced.outcomes) {
        if before.is_over() {
            break;
        }
        match *outcome {
            Outcome::Kept(at) => after.run(&reduced.list[at]),
            Outcome::Dropped(reason) => {
                let said = said(reason, ins, &before);
                let is_there = |(word, reg): &(u64, Reg)| after.reg(*reg) == *word;
                assert!(said.iter().all(is_there), "{ins} {outcome}: {code:?}");
                times[said.len()] += 1;
            }
        }
        before.run(ins);
    }
    times
}

/// `reasons_are_true` of a list that passes.
fn reasons_of(seed: u64, list: &List) -> [u64; 3] {
    let code = instructions(list);
    let reduced = reduce(&code, &settings(list)).expect("a list that passes");
    reasons_are_true(seed, &code, &reduced)
}

#[test]
fn what_is_said_to_be_in_a_register_is_there() {
    let mut random = Random::new(96);
    let lists = how_many(100_000);
    let (mut times, mut wide) = ([0; 3], 0);
    for seed in 0..lists {
        let list = straight_list(&mut random);
        wide += u64::from(is_wide(&list));
        let met = reasons_of(seed, &list);
        times.iter_mut().zip(met).for_each(|(times, met)| *times += met);
    }
    assert!(times[1] > lists && times[2] > lists / 10, "{times:?}");
    assert!(wide > lists / 20, "{wide}");
}

/// The same where every register is taken.
#[test]
fn what_is_said_of_many_registers_is_there() {
    let lists = how_many(20_000) / 4;
    let (mut seed, mut one) = (0, 0);
    each_live_list(89, lists, |list| {
        seed += 1;
        one += reasons_of(seed, list)[1];
    });
    assert!(one > lists / 2, "{one}");
}
