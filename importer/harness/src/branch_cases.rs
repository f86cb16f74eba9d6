//! Lists with labels and branches, by hand, and what the questions say of each.

use crate::kinds::*;
use crate::lists::List;
use crate::questions::Refusal;
use crate::record::{Record, WORDS};
use crate::roles::{role, words_with, Role, KINDS};
use crate::settings::Settings;

pub struct Case {
    pub name: String,
    pub list: List,
    /// None where the list passes.
    pub refused: Option<Refusal>,
}

const LAST: u32 = u32::MAX;

/// Their products with 2,654,435,761 differ in the low bits alone.
const ONE_SLOT: [u32; 3] = [0, 244_002_641, 488_005_282];

/// A record of no kind.
const NO_KIND: Record = [21, 0, 0, 0, 0, 0, 0, 0];

/// A BranchIf to the label 7, by a named register.
const IF: Record = [17, RET, 7, 0, 0, 0, 0, 0];

fn case(name: &str, records: &[Record], refused: Option<Refusal>) -> Case {
    let settings = Settings { count_regs: 64, ..Settings::default() };
    let list = List { settings, table: vec![MEM, 0], words: records.concat() };
    Case { name: name.to_string(), list, refused }
}

/// Lists that pass, then those that 15 refuses, then 16; and which question comes first.
pub fn cases() -> Vec<Case> {
    let groups = [
        loops(),
        branches(),
        written_since(),
        stale_sources(),
        stale(),
        forgotten(),
        first_of_record(),
        lost(),
        lost_numbers(),
        first_of_list(),
    ];
    groups.into_iter().flatten().collect()
}

/// Adds to a cell, and asks it whether to go on.
fn counting() -> [Record; 12] {
    [
        load_const(0, 0),
        save(0, MEM, 0),
        label(7),
        load(1, MEM, 0),
        nop(),
        load_const_math(0, 1, 1, 1),
        save(1, MEM, 0),
        load(2, MEM, 0),
        branch_if(2, 7, 0),
        load(0, MEM, 0),
        save(0, PARAM, 0),
        end(),
    ]
}

fn loops() -> Vec<Case> {
    let through_stack = [
        label(7),
        load(0, MEM, 0),
        save(0, STACK, 16),
        load(1, STACK, 16),
        uni(0, 1, 1),
        save(1, STACK, 17),
        branch_if(1, 7, 1),
        load(0, STACK, 17),
        save(0, MEM, 0),
    ];
    let two_part = [
        label(LAST),
        load_complex(0, 1, MEM, 0),
        complex_bi(2, [2, 3], [0, 1, 0, 1]),
        save_complex(2, 3, STACK, 16),
        load_complex(0, 1, STACK, 16),
        save_complex(0, 1, MEM, 0),
        branch_if(1, LAST, 0),
    ];
    let twice = [label(7), load(0, MEM, 0), branch_if(0, 7, 0), load(0, MEM, 0), IF, branch(7)];
    vec![
        case("a loop that counts", &counting(), None),
        case("a loop through Stack cells", &through_stack, None),
        case("a loop on a two-part value", &two_part, None),
        case("a loop that is left at two places", &twice, None),
        case("a loop of two records", &[label(0), branch(0)], None),
    ]
}

fn branches() -> Vec<Case> {
    let two_ways =
        [load(0, MEM, 0), branch_if(0, 7, 1), load(0, MEM, 1), branch(7), nop(), label(7)];
    let last_of_two = [label(7), load(RET, MEM, 0), label(7), branch(7)];
    let ends = [65_535, 65_536, LAST, 0];
    let labels = ends.map(label);
    let to_each = ends.map(|number| branch_if(TEMP, number, 0));
    let back = ends.map(branch);
    let one_slot = [ONE_SLOT.map(branch), ONE_SLOT.map(label), ONE_SLOT.map(branch)].concat();
    let past_branch = [load(0, MEM, 0), branch(7), save(0, MEM, 1), label(7)];
    vec![
        case("two branches into one label", &two_ways, None),
        case("two Labels of one number", &last_of_two, None),
        case("numbers at the ends, forwards", &[to_each, labels].concat(), None),
        case("numbers at the ends, backwards", &[labels, back].concat(), None),
        case("numbers that a table may hold in one slot", &one_slot, None),
        case("a register past a Branch", &past_branch, None),
        case("past End", &[end(), branch(7), label(7)], None),
        case("to the next record", &[branch(7), label(7)], None),
    ]
}

fn written_since() -> Vec<Case> {
    let again = [load_const(63, 0), IF, load_const(63, 1), save(63, MEM, 0), label(7)];
    let both = [
        load_complex(0, 1, MEM, 0),
        IF,
        load_complex(0, 1, MEM, 0),
        complex_bi(0, [2, 3], [0, 1, 0, 1]),
        save_complex(2, 3, MEM, 0),
        label(7),
    ];
    let named = [load(LEFT, MEM, 0), IF, bi(0, RIGHT, LEFT, RET), branch_if(RIGHT, 7, 1), label(7)];
    let after_label = [load(0, MEM, 0), IF, label(7), load(0, MEM, 0), save(0, MEM, 1)];
    let after_call = [load(0, MEM, 0), IF, call(7, 0), load(0, MEM, 0), save(0, MEM, 1), label(7)];
    vec![
        case("the last register, written again", &again, None),
        case("both halves, written again", &both, None),
        case("named registers", &named, None),
        case("written again after a Label", &after_label, None),
        case("written again after a Call", &after_call, None),
    ]
}

/// Each source of each kind: a register that was written before the BranchIf. The others are named.
fn stale_sources() -> Vec<Case> {
    let mut cases = Vec::new();
    for kind in 0..KINDS as u32 {
        for word in words_with(kind, |role| role == Role::Source) {
            let mut record = [0; WORDS];
            record[0] = kind;
            for (place, value) in record.iter_mut().enumerate().skip(1) {
                *value = match role(kind, place) {
                    Role::Source | Role::Destination => RIGHT,
                    Role::Label => 7,
                    _ => 0,
                };
            }
            record[word] = 1;
            let list = [load_const(0, 0), load_const(1, 0), IF, load_const(0, 1), record, label(7)];
            cases.push(case(&format!("word {word} of kind {kind}"), &list, Some((15, 4))));
        }
    }
    cases
}

fn stale() -> Vec<Case> {
    let own = [load(0, MEM, 0), branch_if(0, 7, 0), branch_if(0, 7, 1), label(7)];
    let onto_itself = [load(0, MEM, 0), IF, uni(0, 0, 0), save(0, MEM, 0), label(7)];
    let unreachable = [load(0, MEM, 0), IF, branch(7), end(), save(0, MEM, 1), label(7)];
    let highest = [load_const(63, 0), branch_if(63, 7, 0), load_const(62, 0), save(63, MEM, 0)];
    let one_half = [load_complex(0, 1, MEM, 0), IF, load_complex(0, RET, MEM, 0), save(1, MEM, 4)];
    let args = [load_const(0, 0), IF, load_args(0, 1, 0, 0), save_args(1, 0, 0), save(0, MEM, 0)];
    let twice = [load(0, MEM, 0), IF, load(0, MEM, 0), IF, save(0, MEM, 1), label(7)];
    let first = [load(0, MEM, 0), IF, save(0, MEM, 1), save(0, MEM, 2), label(7)];
    vec![
        case("a condition that was one before", &own, Some((15, 2))),
        case("read and written by one record", &onto_itself, Some((15, 2))),
        case("a record that is never reached", &unreachable, Some((15, 4))),
        case("the last register", &highest, Some((15, 3))),
        case("one half, not written again", &one_half, Some((15, 3))),
        case("past LoadArgs and SaveArgs", &args, Some((15, 4))),
        case("past two BranchIf", &twice, Some((15, 4))),
        case("the first of two records", &first, Some((15, 2))),
    ]
}

/// Label and Call forget every static, so that 9 is asked first.
fn forgotten() -> Vec<Case> {
    let label = [load(0, MEM, 0), IF, label(7), save(0, MEM, 1)];
    let call = [load(0, MEM, 0), IF, call(7, 0), save(0, MEM, 1)];
    let never = [IF, save(0, MEM, 1)];
    vec![
        case("past a BranchIf and a Label", &label, Some((9, 3))),
        case("past a BranchIf and a Call", &call, Some((9, 3))),
        case("past a BranchIf, and never written", &never, Some((9, 1))),
    ]
}

/// Records with two faults: 7, 8 and 9 are asked before 15.
fn first_of_record() -> Vec<Case> {
    let after = |record: Record| [load_const(0, 0), IF, record, label(7)];
    let few = |mut case: Case| {
        case.list.settings.count_regs = 3;
        case
    };
    vec![
        few(case("a register too high beside a stale one", &after(bi(0, 1, 0, 3)), Some((7, 2)))),
        case("no partner for a stale one", &after(save_complex(0, 0, MEM, LAST)), Some((8, 2))),
        case("a stale register and one without a static", &after(bi(0, 2, 0, 1)), Some((9, 2))),
        case("one without a static and a stale one", &after(bi(0, 2, 1, 0)), Some((9, 2))),
        case("a stale one last of four", &after(complex_bi(0, [2, 3], [0, 0, 0, 1])), Some((9, 2))),
    ]
}

fn lost() -> Vec<Case> {
    let first = [branch(9), nop(), label(7), branch(8), label(10)];
    let last = [label(7), load(0, MEM, 0), IF, nop(), branch_if(TEMP, 9, 1)];
    let called = [call(9, 0), branch(9), label(7)];
    vec![
        case("a Branch alone", &[branch(0)], Some((16, 0))),
        case("a BranchIf alone", &[branch_if(RET, 0, 0)], Some((16, 0))),
        case("the first of two", &first, Some((16, 0))),
        case("the last record", &last, Some((16, 4))),
        case("the number of a Call", &called, Some((16, 1))),
        case("never reached", &[end(), branch(7)], Some((16, 1))),
    ]
}

/// Numbers that are near to one that a Label has, or to another word of the record.
fn lost_numbers() -> Vec<Case> {
    let to = |number: u32, has: u32| {
        let name = format!("to {number}, where {has} is");
        case(&name, &[label(has), branch(has), branch(number)], Some((16, 2)))
    };
    let condition = [label(256), label(0), branch_if(256, 1, 0)];
    let is_else = [label(1), label(256), branch_if(256, 2, 1)];
    vec![
        to(65_536, 65_535),
        to(65_535, 65_536),
        to(65_536, 0),
        to(65_537, 1),
        to(LAST, LAST - 1),
        to(LAST - 1, LAST),
        to(LAST, 65_535),
        to(65_535, LAST),
        to(0, LAST),
        to(0, 1),
        to(1, 0),
        to(ONE_SLOT[1], 0),
        to(ONE_SLOT[2], ONE_SLOT[1]),
        case("the number of a condition", &condition, Some((16, 2))),
        case("the number of a flag", &is_else, Some((16, 2))),
    ]
}

/// A branch to no Label, and a fault that is asked for before it: at any record.
fn first_of_list() -> Vec<Case> {
    let later = |more: &[Record]| [&[branch(9), load_const(0, 0), IF], more, &[label(7)]].concat();
    let before = [load_const(0, 0), IF, save(0, MEM, 0), NO_KIND, branch(9)];
    let no_kind = [NO_KIND, load_const(0, 0), IF, save(0, MEM, 0)];
    vec![
        case("15 at a later record", &later(&[nop(), save(0, MEM, 0)]), Some((15, 4))),
        case("9 at a later record", &later(&[save(1, MEM, 0)]), Some((9, 3))),
        case("8 at a later record", &later(&[load_complex(1, 2, MEM, LAST)]), Some((8, 3))),
        case("7 at a later record", &later(&[load_const(64, 0)]), Some((7, 3))),
        case("6 at a later record", &later(&[load_const(260, 0)]), Some((6, 3))),
        case("5 at a later record", &later(&[NO_KIND]), Some((5, 3))),
        case("15 before 5", &before, Some((15, 2))),
        case("5 before 15", &no_kind, Some((5, 0))),
        case("nothing else", &later(&[load_const(0, 1), save(0, MEM, 0)]), Some((16, 0))),
    ]
}
