//! The two-part kinds on the plain machine, and lists of them that the original leaves otherwise.

use crate::machine::{run, Machine};
use crate::support::{instructions, left_by_original, list_of, settings};
use harness::kinds::{load, load_complex, save, save_complex, RET, STACK, TEMP};
use harness::lists::List;
use harness::questions::refusal;
use harness::record::Record;
use harness::settings::Settings;
use harness::short::{Alphabet, Cells};
use rudzaviks::mir::reg;
use rudzaviks::{reduce, Instruction, Loc, Reg};

const PRODUCT: &str = "(%$ + %t*im) := (%1 + %2*im) Times (%3 + %4*im)";

fn after(code: &[&str]) -> Machine {
    let parsed = |text: &&str| text.parse().expect("an instruction");
    run(&code.iter().map(parsed).collect::<Vec<Instruction>>(), Machine::new(4))
}

/// Both words that the code leaves in the two registers.
fn words(code: &[&str], [x, y]: [Reg; 2]) -> [u64; 2] {
    let machine = after(code);
    [machine.reg(x), machine.reg(y)]
}

#[test]
fn both_words_depend_on_the_operation_and_all_sources() {
    let result = |code: &[&str]| words(code, [Reg::Ret, Reg::Temp]);
    let [x, y] = result(&[PRODUCT]);
    assert_ne!(x, y);
    let differs = |code: &[&str]| {
        let [other_x, other_y] = result(code);
        assert!(x != other_x && y != other_y, "{code:?}");
    };
    for source in ["%1", "%2", "%3", "%4"] {
        differs(&[&format!("{source} := %9"), PRODUCT]);
    }
    for op in ["Plus", "Minus", "Divide"] {
        differs(&[&PRODUCT.replace("Times", op)]);
    }
}

/// A destination may be a source, or both.
#[test]
fn both_words_are_of_the_state_before() {
    let expected = words(&[PRODUCT], [Reg::Ret, Reg::Temp]);
    for (x, y) in (1..=4).flat_map(|x| (1..=4).map(move |y| (x, y))).filter(|(x, y)| x != y) {
        let code = PRODUCT.replace("%$", &format!("%{x}")).replace("%t", &format!("%{y}"));
        assert_eq!(words(&[&code], [reg(x), reg(y)]), expected, "{code}");
    }
    for both in 1..=5 {
        let name = format!("%{both}");
        let code = PRODUCT.replace("%$", &name).replace("%t", &name);
        assert_eq!(after(&[&code]).reg(reg(both)), expected[1], "y is written last: {code}");
    }
}

#[test]
fn a_load_takes_the_cell_and_its_partner() {
    let cells = [5, 6].map(|index| Machine::new(4).cell(Loc::Stack(index)));
    assert_ne!(cells[0], cells[1]);
    assert_eq!(words(&["(%1 + %2*im) := Stack[5]"], [reg(1), reg(2)]), cells);
    assert_eq!(after(&["(%1 + %1*im) := Stack[5]"]).reg(reg(1)), cells[1]);
}

#[test]
fn a_save_puts_into_the_cell_and_its_partner() {
    let [x, y] = [1, 2].map(|number| Machine::new(4).reg(reg(number)));
    assert_ne!(x, y);
    let cells = |code: &str| [6, 7].map(|index| after(&[code]).cell(Loc::Mem(index)));
    assert_eq!(cells("Mem[6] := (%1 + %2*im)"), [x, y]);
    assert_eq!(cells("Mem[6] := (%2 + %2*im)"), [y, y]);
}

/// How many runs are compared for each list, one for each seed.
const RUNS: u64 = 4;

/// In how many runs the list and these instructions end otherwise.
fn differences(list: &List, left: &[Instruction]) -> u64 {
    let (code, mark) = (instructions(list), settings(list).fixed_mark());
    let differs = |seed: &u64| {
        let [before, after] = [&code, left].map(|code| run(code, Machine::new(*seed)));
        before.difference(&after, mark).is_some()
    };
    (0..RUNS).filter(differs).count() as u64
}

fn left_by_port(list: &List) -> Vec<Instruction> {
    reduce(&instructions(list), &settings(list)).expect("a list that passes").list
}

/// Lists that the original ends otherwise, two for each rule: a load that it drops though y's half
/// was not found, and a save that it drops though x's half is read. With named registers, which
/// need not be written and are seen, two records do.
fn smallest_lists() -> [Vec<Record>; 4] {
    [
        vec![load(0, STACK, 15), load_complex(0, 0, STACK, 15), save(0, STACK, 15)],
        vec![load(0, STACK, 15), load_complex(0, RET, STACK, 15)],
        vec![
            load(0, STACK, 15),
            save_complex(0, 0, STACK, 16),
            load(0, STACK, 16),
            save(0, STACK, 15),
        ],
        vec![save_complex(RET, RET, STACK, 16), load(TEMP, STACK, 16)],
    ]
}

#[test]
fn the_original_ends_otherwise_and_the_port_does_not() {
    for records in smallest_lists() {
        let settings = Settings { count_regs: 2, ..Settings::default() };
        let list = List { settings, table: Vec::new(), words: records.concat() };
        let (original, port) = (left_by_original(&list), left_by_port(&list));
        assert_eq!((original.len(), port.len()), (records.len() - 1, records.len()));
        assert!(differences(&list, &original) > RUNS / 2, "{list:?}");
        assert_eq!(differences(&list, &port), 0, "{list:?}");
    }
}

/// The sample that the README shows: the original drops the load of line 14, its only two-part one
/// that is left.
#[test]
fn the_sample_is_ended_otherwise_by_the_original() {
    let list = list_of(include_str!("../../samples/two_part.txt"));
    let is_load = |ins: &&Instruction| matches!(ins, Instruction::LoadComplex { .. });
    let (original, port) = (left_by_original(&list), left_by_port(&list));
    let loads = [&original, &port].map(|left| left.iter().filter(is_load).count());
    assert_eq!(loads, [0, 1]);
    assert!(differences(&list, &original) > RUNS / 2);
    assert_eq!(differences(&list, &port), 0);
}

/// How many lists of so many records of the kinds, over three cells around the mark, the original
/// ends otherwise. The port ends none so.
fn ended_otherwise(kinds: &[u32], len: u32) -> u64 {
    let (mut lists, mut otherwise) = (0, 0);
    let alphabet = Alphabet::new(kinds, Cells(15, 3));
    let passes = |list: &List| refusal(&list.settings, &list.words, &list.table, true).is_none();
    for list in alphabet.lists(&[], len).filter(passes) {
        let (original, port) = (left_by_original(&list), left_by_port(&list));
        assert_eq!(differences(&list, &port), 0, "{list:?}");
        lists += 1;
        otherwise += u64::from(original != port && differences(&list, &original) > 0);
    }
    println!(
        "{len} records of kinds {kinds:?}: the original ends {otherwise} of {lists} otherwise"
    );
    otherwise
}

/// Over general registers, which a record must write and another must save to be seen.
#[test]
fn they_are_the_smallest() {
    for len in 0..=2 {
        assert_eq!(ended_otherwise(&[5, 6, 7, 8], len), 0);
    }
    assert!(ended_otherwise(&[5, 6, 7, 8], 3) > 0);
    // without a two-part load, one more
    assert_eq!(ended_otherwise(&[5, 6, 8], 3), 0);
    assert!(ended_otherwise(&[5, 6, 8], 4) > 0);
    assert!(ended_otherwise(&[5, 6, 7, 8], 4) > 0);
}
