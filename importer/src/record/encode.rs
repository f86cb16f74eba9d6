//! Instructions to records.

use std::collections::HashMap;

use super::{Records, WORDS};
use crate::instruction::{Instruction, Loc, Reg};

pub fn records(list: &[Instruction]) -> Records {
    let mut table = Table::default();
    let words = list.iter().flat_map(|ins| record(ins, &mut table)).collect();
    Records { list: words, table: table.words }
}

/// The table, and the first pair of each row of locations in it.
#[derive(Default)]
struct Table<'a> {
    words: Vec<u32>,
    firsts: HashMap<&'a [Loc], u32>,
}

impl<'a> Table<'a> {
    /// The first pair of these locations.
    fn first(&mut self, locs: &'a [Loc]) -> u32 {
        if let Some(first) = self.firsts.get(locs) {
            return *first;
        }
        let first = (self.words.len() / 2) as u32;
        self.words.extend(locs.iter().flat_map(|loc| [space(*loc), index(*loc)]));
        self.firsts.insert(locs, first);
        first
    }
}

fn record<'a>(ins: &'a Instruction, table: &mut Table<'a>) -> [u32; WORDS] {
    match *ins {
        Instruction::Nop => row(0, []),
        Instruction::End => row(1, []),
        Instruction::LoadArgs { ref locs, complex, ultra } => {
            let span = [table.first(locs), locs.len() as u32];
            row(10, [span[0], span[1], u32::from(complex), u32::from(ultra)])
        }
        Instruction::SaveArgs { num_args, complex, ultra } => {
            row(11, [u32::from(num_args), u32::from(complex), u32::from(ultra)])
        }
        Instruction::Call { label, num_args } => row(12, [label, num_args]),
        Instruction::Label { label } => row(15, [label]),
        Instruction::Branch { label } => row(16, [label]),
        Instruction::BranchIf { cond, label, is_else } => {
            row(17, [reg(cond), label, u32::from(is_else)])
        }
        _ => moving(ins).unwrap_or_else(|| computing(ins)),
    }
}

/// The kinds that move a value.
fn moving(ins: &Instruction) -> Option<[u32; WORDS]> {
    Some(match *ins {
        Instruction::Mov { dst, s1 } => row(4, [reg(dst), reg(s1)]),
        Instruction::Load { dst, loc } => row(5, [reg(dst), space(loc), index(loc)]),
        Instruction::Save { src, loc } => row(6, [reg(src), space(loc), index(loc)]),
        Instruction::LoadComplex { xd, yd, loc } => {
            row(7, [reg(xd), reg(yd), space(loc), index(loc)])
        }
        Instruction::SaveComplex { xs, ys, loc } => {
            row(8, [reg(xs), reg(ys), space(loc), index(loc)])
        }
        Instruction::LoadConst { dst, idx } => row(9, [reg(dst), idx]),
        _ => return None,
    })
}

/// The kinds that compute one.
fn computing(ins: &Instruction) -> [u32; WORDS] {
    match *ins {
        Instruction::Uni { op, dst, s1 } => row(2, [op as u32, reg(dst), reg(s1)]),
        Instruction::Bi { op, dst, s1, s2 } => row(3, [op as u32, reg(dst), reg(s1), reg(s2)]),
        Instruction::Fused { op, dst, a, b, c } => {
            row(13, [op as u32, reg(dst), reg(a), reg(b), reg(c)])
        }
        Instruction::IfElse { dst, true_val, false_val, cond } => {
            row(14, [reg(dst), reg(true_val), reg(false_val), space(cond), index(cond)])
        }
        Instruction::LoadMath { op, dst, s1, loc } => {
            row(18, [op as u32, reg(dst), reg(s1), space(loc), index(loc)])
        }
        Instruction::LoadConstMath { op, dst, s1, idx } => {
            row(19, [op as u32, reg(dst), reg(s1), idx])
        }
        Instruction::ComplexBi { op, xd, yd, x1, y1, x2, y2 } => {
            row(20, [op as u32, reg(xd), reg(yd), reg(x1), reg(y1), reg(x2), reg(y2)])
        }
        _ => unreachable!("{ins:?} computes nothing"),
    }
}

fn row<const N: usize>(kind: u32, fields: [u32; N]) -> [u32; WORDS] {
    let mut record = [0; WORDS];
    record[0] = kind;
    record[1..=N].copy_from_slice(&fields);
    record
}

fn reg(reg: Reg) -> u32 {
    match reg {
        Reg::Gen(number) => u32::from(number),
        Reg::Ret => 256,
        Reg::Temp => 257,
        Reg::Left => 258,
        Reg::Right => 259,
    }
}

fn space(loc: Loc) -> u32 {
    match loc {
        Loc::Stack(_) => 0,
        Loc::Mem(_) => 1,
        Loc::Param(_) => 2,
    }
}

fn index(loc: Loc) -> u32 {
    match loc {
        Loc::Stack(index) | Loc::Mem(index) | Loc::Param(index) => index,
    }
}

#[cfg(test)]
mod tests {
    use super::*;
    use crate::mir::{load_args, load_args_complex, plus};

    #[test]
    fn load_args_of_the_same_locations_share_their_pairs() {
        let [a, b] = [vec![Loc::Mem(3), Loc::Param(0)], vec![Loc::Stack(9)]];
        let list = [
            load_args(a.clone(), false),
            load_args(b, true),
            load_args_complex(a, true),
            load_args(vec![], false),
        ];
        let records = records(&list);
        assert_eq!(records.table, [1, 3, 2, 0, 0, 9]);
        assert_eq!(records.record(0), [10, 0, 2, 0, 0, 0, 0, 0]);
        assert_eq!(records.record(1), [10, 2, 1, 0, 1, 0, 0, 0]);
        assert_eq!(records.record(2), [10, 0, 2, 1, 1, 0, 0, 0]);
        assert_eq!(records.record(3)[2], 0);
        assert_eq!(records.instructions(), Ok(list.to_vec()));
    }

    #[test]
    fn named_registers_follow_the_general_ones() {
        let records = records(&[plus(Reg::Gen(255), Reg::Ret, Reg::Right)]);
        assert_eq!(records.list, [3, 0, 255, 256, 259, 0, 0, 0]);
    }
}
