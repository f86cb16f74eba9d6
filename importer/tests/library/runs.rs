//! Runs on the plain machine: what a condition's word picks, that End stops a run, what two runs
//! may differ in, and that a list and its reduced list end equal. The two-part kinds have their own
//! file.

use crate::machine::{run, Machine, MINUS_ZERO};
use crate::support::{
    each_live_list, instructions, is_wide, left_by_original, settings, straight_list,
};
use harness::how_many;
use harness::random::Random;
use harness::tally::{By, Tally};
use rudzaviks::mir::{end, fmov, ifelse, reg, save_mem};
use rudzaviks::{reduce, Instruction, Loc, Reg};

#[test]
fn zero_and_minus_zero_pick_false_val() {
    assert_eq!(MINUS_ZERO, (-0.0f64).to_bits());
    let picked = |word: u64| {
        let mut machine = Machine::new(4);
        machine.set_cell(Loc::Param(9), word);
        let machine = run(&[ifelse(Reg::Ret, reg(1), reg(2), Loc::Param(9))], machine);
        assert_ne!(machine.reg(reg(1)), machine.reg(reg(2)));
        machine.reg(Reg::Ret) == machine.reg(reg(1))
    };
    for word in [0, MINUS_ZERO] {
        assert!(!picked(word), "{word:x}");
    }
    for word in [1, 2, 1 << 32, MINUS_ZERO - 1, MINUS_ZERO + 1, f64::NAN.to_bits(), u64::MAX] {
        assert!(picked(word), "{word:x}");
    }
}

#[test]
fn a_run_stops_at_end() {
    let code = [fmov(Reg::Ret, reg(0)), end(), fmov(Reg::Temp, reg(0)), save_mem(reg(0), 1), end()];
    let machine = run(&code, Machine::new(4));
    assert!(machine.is_over());
    let same = run(&code[..1], Machine::new(4));
    assert_eq!(machine.difference(&same, 0), None);
    let further = run(&code[2..3], run(&code[..1], Machine::new(4)));
    assert_eq!(machine.difference(&further, 0), Some("%t".to_owned()));
}

#[test]
fn what_an_instruction_writes_depends_on_all_that_it_reads() {
    let stack = Loc::Stack(5);
    for text in [
        "%$ := Neg(%1)",
        "%$ := %1 Minus %2",
        "%$ := %1",
        "%$ := Stack[5]",
        "Mem[6] := %1",
        "%$ := %1 * %2 - %3",
        "%$ := %1 Times Stack[5]",
        "%$ := %1 Times consts[5]",
    ] {
        let ins: Instruction = text.parse().expect("an instruction");
        let plain = run(std::slice::from_ref(&ins), Machine::new(4));
        for source in ins.sources() {
            let other = run(&[fmov(source, reg(9)), ins.clone()], Machine::new(4));
            assert!(plain.difference(&other, 0).is_some(), "{text} by {source}");
        }
        if text.contains(&stack.to_string()) {
            let mut other = Machine::new(4);
            other.set_cell(stack, 77);
            let other = run(std::slice::from_ref(&ins), other);
            assert!(plain.difference(&other, 0).is_some(), "{text} by {stack}");
        }
    }
}

#[test]
fn named_registers_and_cells_below_the_mark_may_not_differ() {
    let plain = Machine::new(4);
    for named in [Reg::Ret, Reg::Temp, Reg::Left, Reg::Right] {
        let other = run(&[fmov(named, reg(9))], Machine::new(4));
        assert_eq!(plain.difference(&other, 0), Some(named.to_string()));
        assert_eq!(other.difference(&plain, 0), Some(named.to_string()));
    }
    for (loc, told) in [
        (Loc::Mem(0), true),
        (Loc::Mem(u32::MAX), true),
        (Loc::Param(0), true),
        (Loc::Param(u32::MAX), true),
        (Loc::Stack(0), true),
        (Loc::Stack(15), true),
        (Loc::Stack(16), false),
        (Loc::Stack(u32::MAX), false),
    ] {
        let mut other = Machine::new(4);
        other.set_cell(loc, 77);
        let difference = told.then(|| loc.to_string());
        assert_eq!(plain.difference(&other, 16), difference, "{loc}");
        assert_eq!(other.difference(&plain, 16), difference, "{loc}");
    }
    let other = run(&[fmov(reg(1), reg(9))], Machine::new(4));
    assert_ne!(plain.reg(reg(1)), other.reg(reg(1)));
    assert_eq!(plain.difference(&other, 0), None);
}

/// How often a condition's word was 0, was minus zero, and was another.
#[derive(Default)]
struct Conditions([u64; 3]);

impl Conditions {
    fn meet(&mut self, ins: &Instruction, machine: &Machine) {
        if let (Instruction::IfElse { cond, .. }, false) = (ins, machine.is_over()) {
            self.0[match machine.cell(*cond) {
                0 => 0,
                MINUS_ZERO => 1,
                _ => 2,
            }] += 1;
        }
    }
}

/// Where a run of the list and one of what is left of it end otherwise.
fn difference(before: &Machine, seed: u64, left: &[Instruction], mark: u64) -> Option<String> {
    before.difference(&run(left, Machine::new(seed)), mark)
}

/// The same lists as the original leaves them are counted: some of them end otherwise.
#[test]
fn a_list_and_its_reduced_list_end_equal() {
    let mut random = Random::new(97);
    let lists = how_many(500_000);
    let mut met = Conditions::default();
    let (mut tally, mut otherwise, mut wide) = (Tally::default(), 0, 0);
    for seed in 0..lists {
        let list = straight_list(&mut random);
        wide += u64::from(is_wide(&list));
        let (code, mark) = (instructions(&list), settings(&list).fixed_mark());
        let mut before = Machine::new(seed);
        for ins in &code {
            met.meet(ins, &before);
            before.run(ins);
        }
        let reduced = reduce(&code, &settings(&list)).expect("a list that passes").list;
        assert_eq!(difference(&before, seed, &reduced, mark), None, "seed {seed}, {list:?}");
        let original = left_by_original(&list);
        let same = original == reduced;
        tally.add(if same { By::Original } else { By::Amended });
        otherwise += u64::from(!same && difference(&before, seed, &original, mark).is_some());
    }
    assert!(met.0.iter().all(|times| *times > lists / 20), "{:?}", met.0);
    tally.print("straight lists on the machine");
    println!("by the original {otherwise} of them end otherwise, by the port none");
    assert!(otherwise > lists / 100, "{otherwise}");
    assert!(wide > lists / 20, "{wide}");
}

/// Where every register is taken the port leaves what the original does, and both end equal.
#[test]
fn lists_with_all_registers_live_end_equal() {
    let mut seed = 0;
    each_live_list(88, how_many(20_000), |list| {
        seed += 1;
        let code = instructions(list);
        let reduced = reduce(&code, &settings(list)).expect("a list that passes").list;
        assert_eq!(reduced, left_by_original(list), "{list:?}");
        let (before, mark) = (run(&code, Machine::new(seed)), settings(list).fixed_mark());
        assert_eq!(difference(&before, seed, &reduced, mark), None, "seed {seed}, {list:?}");
    });
}
