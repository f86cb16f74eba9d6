//! The worked examples of document 01, section 9, cases A to J: args 0, not complex.

use crate::kinds::{bi, label, load, load_const, mov, save, MEM, STACK};
use crate::lists::List;
use crate::record::Record;
use crate::settings::Settings;

pub enum Expected {
    /// The records that are left.
    Left(Vec<Record>),
    /// The question's number and the record's index.
    Refused(u32, usize),
}

pub struct Case {
    pub name: &'static str,
    pub list: List,
    pub expected: Expected,
}

use Expected::*;

fn case(name: &'static str, count_regs: u32, records: &[Record], expected: Expected) -> Case {
    let settings = Settings { count_regs, ..Settings::default() };
    let list = List { settings, table: Vec::new(), words: records.concat() };
    Case { name, list, expected }
}

/// Case B, with its last Save to the given Stack index.
fn b(stack: u32) -> Vec<Record> {
    vec![load_const(0, 5), save(0, MEM, 3), load(0, MEM, 3), save(0, STACK, stack)]
}

fn f() -> Vec<Record> {
    let first = [load_const(0, 0), save(0, STACK, 20), load_const(0, 1)];
    let second = [save(0, MEM, 1), load(0, STACK, 20), save(0, MEM, 0)];
    [first, second].concat()
}

pub fn cases() -> Vec<Case> {
    let d = [load(0, MEM, 0), load(1, MEM, 0), bi(0, 0, 0, 1), save(0, MEM, 1)];
    let d_left = vec![load(0, MEM, 0), bi(0, 1, 0, 0), save(1, MEM, 1)];
    let e = [load_const(0, 1), mov(1, 0), save(1, MEM, 0)];
    let e_left = vec![load_const(0, 1), save(0, MEM, 0)];
    let g = [load_const(0, 0), label(7), save(0, MEM, 0)];
    vec![
        case("A", 0, &[], Left(vec![])),
        case("B", 1, &b(16), Left(b(16)[..2].to_vec())),
        case("C", 1, &b(15), Left(vec![b(15)[0], b(15)[1], b(15)[3]])),
        case("D", 2, &d, Left(d_left)),
        case("E", 2, &e, Left(e_left)),
        case("F", 1, &f(), Left(f())),
        case("G", 2, &g, Refused(9, 2)),
        case("H", 2, &[load_const(2, 0)], Refused(7, 0)),
        case("I", 65, &[], Refused(1, 0)),
        case("J", 2, &[mov(1, 0)], Refused(9, 0)),
    ]
}
