//! Lists with labels and branches on the machine: a list that passes and its reduced list end equal,
//! the latter in at most as many steps; and what questions 15 and 16 keep out.

use crate::machine::{run_within, Ended, Machine, MINUS_ZERO};
use crate::support::{instructions, is_wide, left_by_original, list_of, records, settings};
use harness::kinds::{branch, branch_if, label, load, STACK};
use harness::lists::{branch_list, drawn, List, Profile};
use harness::mended::with_targets;
use harness::questions::{refusal, LAST};
use harness::random::Random;
use harness::roles::JUMPING;
use harness::short::{Alphabet, Cells};
use harness::{branch_cases, how_many};
use rudzaviks::{reduce, Instruction, Loc, Reduced, Reg};

/// How many steps a run may take here.
const BUDGET: u64 = 2_000;

/// A BranchIf jumps if its condition is neither 0 nor minus zero; or with `is_else`, if it is.
fn plain_test(word: u64, is_else: bool) -> bool {
    (word != 0 && word != MINUS_ZERO) != is_else
}

/// A machine whose BranchIf go by `plain_test`, with these words in some cells.
fn with_cells(space: fn(u32) -> Loc, words: &[(u32, u64)]) -> Machine {
    let mut machine = Machine::jumping(4, plain_test);
    words.iter().for_each(|(index, word)| machine.set_cell(space(*index), *word));
    machine
}

/// The run of a text's lines.
fn run_of(lines: &str, machine: Machine) -> Ended {
    let code = instructions(&list_of(&format!("settings count_regs=9\n{lines}")));
    run_within(&code, machine, BUDGET).expect("a run that ends")
}

#[test]
fn each_record_is_a_step() {
    for (lines, steps) in [
        ("", 0),
        ("nop", 1),
        ("7:", 1),
        ("end", 1),
        ("end\nnop", 1),
        ("nop\n7:\nend", 3),
        ("goto 7\nnop\n7:", 2),
        ("goto 7\n8:\nend\n7:\ngoto 8", 5),
        ("if %0 goto 7\n7:", 2),
    ] {
        assert_eq!(run_of(lines, Machine::new(4)).steps, steps, "{lines}");
    }
    let endless = instructions(&list_of("settings count_regs=0\n7:\ngoto 7\n"));
    assert!(run_within(&endless, Machine::new(4), BUDGET).is_none());
    let three = instructions(&list_of("settings count_regs=0\nnop\nnop\nend\n"));
    assert!(run_within(&three, Machine::new(4), 2).is_none());
    assert!(run_within(&three, Machine::new(4), 3).is_some());
}

#[test]
fn a_jump_goes_to_the_last_label_of_its_number() {
    let lines = "%$ := Mem[1]\ngoto 7\n7:\n%$ := Mem[2]\n7:\n%t := Mem[3]\n77:";
    let Ended { machine, steps, backward } = run_of(lines, Machine::new(4));
    assert_eq!((steps, backward), (5, 0));
    assert_eq!(machine.reg(Reg::Ret), machine.cell(Loc::Mem(1)));
    assert_eq!(machine.reg(Reg::Temp), machine.cell(Loc::Mem(3)));
}

#[test]
fn two_jumps_may_go_to_one_label() {
    let lines = "if %0 goto 7\n%$ := Mem[1]\ngoto 7\n%$ := Mem[2]\n7:\n%t := %$";
    let [taken, passed] = [|_, _| true, |_, _| false].map(|jumps: fn(u64, bool) -> bool| {
        let Ended { machine, steps, .. } = run_of(lines, Machine::jumping(4, jumps));
        (machine.reg(Reg::Temp), steps)
    });
    let untouched = Machine::new(4);
    assert_eq!(taken, (untouched.reg(Reg::Ret), 3));
    assert_eq!(passed, (untouched.cell(Loc::Mem(1)), 5));
}

/// Whether a BranchIf jumps on a machine, with `is_else` and without.
fn jumps(machine: impl Fn() -> Machine) -> [bool; 2] {
    ["if %0 goto 7", "if not %0 goto 7"].map(|branch| {
        let lines = format!("%0 := Param[9]\n{branch}\nnop\n7:");
        run_of(&lines, machine()).steps == 3
    })
}

#[test]
fn is_else_matters() {
    for (word, jumping) in
        [(0, [false, true]), (MINUS_ZERO, [false, true]), (1, [true, false]), (!0, [true, false])]
    {
        assert_eq!(jumps(|| with_cells(Loc::Param, &[(9, word)])), jumping, "{word:x}");
    }
    // by a seed alone it may be any of these
    for both in [[false, false], [false, true], [true, false], [true, true]] {
        assert!((0..100).any(|seed| jumps(|| Machine::new(seed)) == both), "{both:?}");
    }
}

/// How many runs were compared, and what was met in them.
#[derive(Debug, Default)]
struct Met {
    /// The list's run ended within the budget.
    ended: u64,
    /// And jumped back.
    backward: u64,
    /// The reduced list's run took fewer steps.
    fewer: u64,
    loads: u64,
    saves: u64,
    wide: u64,
}

impl Met {
    /// Where the list's run ends, that of the reduced list ends equal, in at most as many steps.
    fn compare(&mut self, list: &List, machine: impl Fn() -> Machine) {
        let (code, settings) = (instructions(list), settings(list));
        let Reduced { list: left, counts, .. } = reduce(&code, &settings).expect("it passes");
        let Some(before) = run_within(&code, machine(), BUDGET) else { return };
        let after = run_within(&left, machine(), before.steps);
        let after = after.unwrap_or_else(|| panic!("over {} steps: {list:?}", before.steps));
        let difference = before.machine.difference(&after.machine, settings.fixed_mark());
        assert_eq!(difference, None, "{list:?}");
        self.ended += 1;
        self.backward += u64::from(before.backward > 0);
        self.fewer += u64::from(after.steps < before.steps);
        self.loads += u64::from(counts.loads > 0);
        self.saves += u64::from(counts.saves > 0);
        self.wide += u64::from(is_wide(list));
    }
}

#[test]
fn a_list_with_branches_and_its_reduced_list_end_equal() {
    let mut random = Random::new(131);
    let lists = how_many(500_000);
    let mut met = Met::default();
    for seed in 0..lists {
        met.compare(&branch_list(&mut random, 40), || Machine::new(seed));
    }
    println!("of {lists} lists with branches: {met:?}");
    let Met { ended, backward, fewer, loads, saves, wide } = met;
    assert!(ended > lists / 2 && fewer > lists / 4, "{ended} and {fewer}");
    assert!([backward, loads, saves, wide].iter().all(|times| *times > lists / 20));
}

/// Loads, saves, constants, and labels and branches of two numbers: from the start or after a Label
/// and two loads, and with both Labels behind them or not.
#[test]
fn every_short_list_with_branches_ends_equal() {
    let mut alphabet = Alphabet::new(&[5, 6, 9, 15, 16, 17], Cells(15, 2));
    alphabet.records.extend([label(1), branch(1), branch_if(0, 1, 0), branch_if(1, 1, 1)]);
    let mut met = Met::default();
    let mut refused = [0; LAST + 1];
    let behind = [label(0), label(1)];
    let both = |list: List| {
        let words = [&list.words, behind.as_flattened()].concat();
        [List { words, ..list.clone() }, list]
    };
    let started = [label(0), load(0, STACK, 15), load(1, STACK, 16)];
    let lists = (1..=4).flat_map(|len| {
        let after = |first| alphabet.lists(first, len);
        after(&[]).chain(after(&started))
    });
    for list in lists.flat_map(both) {
        match refusal(&list.settings, &list.words, &list.table, true) {
            None => {
                met.compare(&list, || Machine::new(5));
                met.compare(&list, || with_cells(Loc::Stack, &[(15, 1), (16, 0)]));
            }
            Some((number, _)) => refused[number as usize] += 1,
        }
    }
    println!("every short list with branches: {met:?}, refused by each question: {refused:?}");
    let Met { ended, backward, fewer, .. } = met;
    assert!(ended > 10_000 && backward > 100 && fewer > 1_000, "{ended} {backward} {fewer}");
    assert!([9, 15, 16].iter().all(|number| refused[*number] > 1_000), "{refused:?}");
}

const LOOP: &str = "settings count_regs=3
7:
%0 := Mem[3]
%0 := %0 Plus Param[0]
Mem[3] := %0
%1 := Mem[3]
Stack[16] := %1
nop
%2 := Mem[0]
%1 := Mem[1]
Mem[0] := %1
%1 := Mem[2]
Mem[1] := %1
if %2 goto 7
%0 := Mem[3]
Mem[4] := %0
";

/// Mem[0] to Mem[2] hold a word for each turn. The last is 0, or minus zero.
#[test]
fn a_loop_runs_three_times() {
    let list = list_of(LOOP);
    for last in [0, MINUS_ZERO] {
        let machine = || with_cells(Loc::Mem, &[(0, 1), (1, u64::MAX), (2, last)]);
        let code = instructions(&list);
        let before = run_within(&code, machine(), BUDGET).expect("it ends");
        assert_eq!((before.steps, before.backward), (3 * 13 + 2, 2));
        let left = reduce(&code, &settings(&list)).expect("it passes").list;
        let after = run_within(&left, machine(), BUDGET).expect("it ends");
        assert_eq!((after.steps, after.backward), (3 * 10 + 2, 2));
        assert_eq!(before.machine.difference(&after.machine, 16), None);
        let once = run_within(&code, Machine::jumping(4, |_, _| false), BUDGET).expect("it ends");
        assert_ne!(once.machine.cell(Loc::Mem(4)), before.machine.cell(Loc::Mem(4)));
    }
}

#[test]
fn the_sample_with_a_loop_ends_equal() {
    let list = list_of(include_str!("../../samples/branch.txt"));
    let mut met = Met::default();
    (0..100).for_each(|seed| met.compare(&list, || Machine::new(seed)));
    assert!(met.ended == met.fewer && met.ended > 50 && met.backward > 10, "{met:?}");
}

/// The lists that were chosen for questions 15 and 16; those that pass run, if the machine can.
#[test]
fn lists_by_hand_are_refused_or_end_equal() {
    let mut met = Met::default();
    for case in branch_cases::cases() {
        // a record without a meaning is no instruction
        if records(&case.list).instructions().is_err() {
            continue;
        }
        let refused = refused(&case.list).map(|(number, index)| (number, index as usize));
        assert_eq!(refused, case.refused, "{}", case.name);
        let runs = case.list.words.chunks_exact(8).all(|record| JUMPING.contains(&record[0]));
        if refused.is_none() && runs {
            (0..100).for_each(|seed| met.compare(&case.list, || Machine::new(seed)));
        }
    }
    assert!(met.ended > 1_000 && met.backward > 50, "{met:?}");
}

/// A list that the original reduces: whether it then ends otherwise, if the list itself ends.
fn ended_otherwise_by_original(list: &List, machine: impl Fn() -> Machine) -> Option<bool> {
    let before = run_within(&instructions(list), machine(), BUDGET)?;
    let mark = settings(list).fixed_mark();
    let otherwise = match run_within(&left_by_original(list), machine(), BUDGET) {
        Some(after) => before.machine.difference(&after.machine, mark).is_some(),
        None => true,
    };
    Some(otherwise)
}

/// The number and the index that a list is refused with.
fn refused(list: &List) -> Option<(u32, u32)> {
    let no = reduce(&instructions(list), &settings(list)).err()?;
    Some((no.number, no.index))
}

const VOLUME: &str = "settings count_regs=3
%0 := Mem[0]            # the volume at the meter
%1 := Mem[1]            # the pressure
%2 := Param[0]          # the least that is trusted
%2 := %1 LittleThan %2
if %2 goto 7            # the report of the hour before stays
%1 := Param[1]          # the factor
%0 := %0 Times %1
Mem[4] := %0            # the base volume
7:
";

/// The original's list multiplies the factor by itself and reports it as the volume.
#[test]
fn the_original_gives_a_wrong_volume() {
    let list = list_of(VOLUME);
    assert_eq!(refused(&list), Some((15, 6)));
    let machine = || Machine::jumping(4, |_, _| false);
    let volume = |code: &[Instruction]| {
        let ended = run_within(code, machine(), BUDGET).expect("it ends");
        ended.machine.cell(Loc::Mem(4))
    };
    let squared = instructions(&list_of(&VOLUME.replace("%0 Times %1", "%1 Times %1")));
    assert_ne!(volume(&instructions(&list)), volume(&squared));
    assert_eq!(volume(&left_by_original(&list)), volume(&squared));
    assert_eq!(ended_otherwise_by_original(&list, machine), Some(true));
    // loaded again past the branch, it is right, and the original leaves the same
    let again = VOLUME.replace("%1 := Param[1]", "%0 := Mem[0]\n%1 := Param[1]");
    let again = list_of(&again);
    assert_eq!(refused(&again), None);
    assert_eq!(ended_otherwise_by_original(&again, machine), Some(false));
}

/// `Mem[2]` is to get the word of `Mem[0]`, and by the original gets that of `Mem[1]`.
#[test]
fn the_refused_sample_is_ended_otherwise_by_the_original() {
    let list = list_of(include_str!("../../samples/past_branch.txt"));
    assert_eq!(refused(&list), Some((15, 3)));
    let machine = || Machine::jumping(4, |_, _| false);
    let [before, after] = [instructions(&list), left_by_original(&list)].map(|code| {
        let ended = run_within(&code, machine(), BUDGET).expect("it ends");
        ended.machine.cell(Loc::Mem(2))
    });
    assert_eq!([before, after], [0, 1].map(|index| machine().cell(Loc::Mem(index))));
}

/// Random lists with nothing wrong but that they read registers past a branch.
#[test]
fn the_original_ends_some_lists_otherwise_that_15_refuses() {
    let mut random = Random::new(132);
    let lists = how_many(100_000);
    let (mut alone, mut ended, mut otherwise) = (0, 0, 0);
    for seed in 0..lists {
        let profile = Profile::branching(&mut random, 30).jumping();
        let list = with_targets(drawn(&mut random, &Profile { fresh: false, ..profile }));
        let Some((number, _)) = refused(&list) else { continue };
        assert_eq!(number, 15, "{list:?}");
        alone += 1;
        if let Some(is_otherwise) = ended_otherwise_by_original(&list, || Machine::new(seed)) {
            ended += 1;
            otherwise += u64::from(is_otherwise);
        }
    }
    println!("15 alone refuses {alone} of {lists} lists with branches");
    println!("by the original {otherwise} of {ended} whose run ends end otherwise");
    assert!(alone > lists / 4 && otherwise > ended / 100, "{alone} {ended} {otherwise}");
}

#[test]
fn a_branch_to_no_label_is_refused_at_the_first() {
    let refused = |lines: &str| refused(&list_of(&format!("settings count_regs=2\n{lines}")));
    assert_eq!(refused("7:\ngoto 7\nif %t goto 9\ngoto 8\n"), Some((16, 2)));
    assert_eq!(refused("goto 8\n7:\ngoto 9\n"), Some((16, 0)));
    assert_eq!(refused("goto 8\n7:\ngoto 7\n8:\n"), None);
}

#[test]
fn one_question_comes_before_another() {
    let refused = |lines: &str| refused(&list_of(&format!("settings count_regs=3\n{lines}")));
    let after = |line: &str| format!("%0 := Mem[0]\nif %t goto 7\n{line}\n7:\n");
    // 9 before 15 in one record, wherever it stands
    assert_eq!(refused(&after("%2 := %0 Plus %1")), Some((9, 2)));
    assert_eq!(refused(&after("%2 := %1 Plus %0")), Some((9, 2)));
    assert_eq!(refused(&after("%2 := %0 Plus %0")), Some((15, 2)));
    // 15 at a later record before 16 at an earlier one
    assert_eq!(refused(&format!("goto 9\n{}", after("Mem[1] := %0"))), Some((15, 3)));
    assert_eq!(refused(&format!("goto 9\n{}", after("nop"))), Some((16, 0)));
    // a condition is read like any other source
    assert_eq!(refused(&after("if %0 goto 7")), Some((15, 2)));
    assert_eq!(refused(&after("%0 := Mem[0]\nif %0 goto 7\nif %t goto 7")), None);
}
