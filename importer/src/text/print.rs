//! Instructions, and what they are made of, as text.

use std::fmt::{Display, Formatter, Result};

use crate::ffi::Settings;
use crate::instruction::{FusedOp, Instruction, Loc, Reg};

impl Display for Reg {
    fn fmt(&self, f: &mut Formatter) -> Result {
        match self {
            Reg::Gen(number) => write!(f, "%{number}"),
            Reg::Ret => write!(f, "%$"),
            Reg::Temp => write!(f, "%t"),
            Reg::Left => write!(f, "%l"),
            Reg::Right => write!(f, "%r"),
        }
    }
}

impl Display for Loc {
    fn fmt(&self, f: &mut Formatter) -> Result {
        match self {
            Loc::Stack(index) => write!(f, "Stack[{index}]"),
            Loc::Mem(index) => write!(f, "Mem[{index}]"),
            Loc::Param(index) => write!(f, "Param[{index}]"),
        }
    }
}

/// The line that a text starts with.
impl Display for Settings {
    fn fmt(&self, f: &mut Formatter) -> Result {
        write!(f, "settings count_regs={} args={}", self.count_regs, self.args)?;
        let flags = [(self.complex, "complex"), (self.arm, "arm"), (self.compress, "compress")];
        flags.iter().filter(|(set, _)| *set).try_for_each(|(_, name)| write!(f, " {name}"))
    }
}

impl Display for Instruction {
    fn fmt(&self, f: &mut Formatter) -> Result {
        match self {
            Instruction::Nop => write!(f, "nop"),
            Instruction::End => write!(f, "end"),
            Instruction::Call { label, num_args } => write!(f, "call {label}; n = {num_args}"),
            Instruction::Label { label } => write!(f, "{label}:"),
            Instruction::Branch { label } => write!(f, "goto {label}"),
            Instruction::BranchIf { cond, label, is_else } => {
                let not = if *is_else { "not " } else { "" };
                write!(f, "if {not}{cond} goto {label}")
            }
            Instruction::LoadArgs { locs, complex, ultra } => {
                let locs: Vec<String> = locs.iter().map(Loc::to_string).collect();
                write!(f, "Load Args [{}]; {}, {ultra}", locs.join(", "), values(*complex))
            }
            Instruction::SaveArgs { num_args, complex, ultra } => {
                write!(f, "Save Args; n = {num_args}; {}, {ultra}", values(*complex))
            }
            assignment => assign(assignment, f),
        }
    }
}

/// The instructions that have `:=`.
fn assign(ins: &Instruction, f: &mut Formatter) -> Result {
    match ins {
        Instruction::Uni { op, dst, s1 } => write!(f, "{dst} := {op}({s1})"),
        Instruction::Bi { op, dst, s1, s2 } => write!(f, "{dst} := {s1} {op} {s2}"),
        Instruction::Mov { dst, s1 } => write!(f, "{dst} := {s1}"),
        Instruction::Load { dst, loc } => write!(f, "{dst} := {loc}"),
        Instruction::Save { src, loc } => write!(f, "{loc} := {src}"),
        Instruction::LoadComplex { xd, yd, loc } => write!(f, "({xd} + {yd}*im) := {loc}"),
        Instruction::SaveComplex { xs, ys, loc } => write!(f, "{loc} := ({xs} + {ys}*im)"),
        Instruction::LoadConst { dst, idx } => write!(f, "{dst} := consts[{idx}]"),
        Instruction::Fused { op, dst, a, b, c } => {
            let (minus, sign) = signs(*op);
            write!(f, "{dst} := {minus}{a} * {b} {sign} {c}")
        }
        Instruction::IfElse { dst, true_val, false_val, cond } => {
            write!(f, "{dst} := {cond} ? {true_val} : {false_val}")
        }
        Instruction::LoadMath { op, dst, s1, loc } => write!(f, "{dst} := {s1} {op} {loc}"),
        Instruction::LoadConstMath { op, dst, s1, idx } => {
            write!(f, "{dst} := {s1} {op} consts[{idx}]")
        }
        Instruction::ComplexBi { op, xd, yd, x1, y1, x2, y2 } => {
            write!(f, "({xd} + {yd}*im) := ({x1} + {y1}*im) {op} ({x2} + {y2}*im)")
        }
        _ => unreachable!("{ins:?} assigns nothing"),
    }
}

fn values(complex: bool) -> &'static str {
    if complex {
        "complex"
    } else {
        "real"
    }
}

/// The sign before the product, and that before the third register.
fn signs(op: FusedOp) -> (&'static str, &'static str) {
    match op {
        FusedOp::MulAdd => ("", "+"),
        FusedOp::MulSub => ("", "-"),
        FusedOp::NegMulAdd => ("- ", "+"),
        FusedOp::NegMulSub => ("- ", "-"),
    }
}
