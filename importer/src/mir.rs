//! Instructions by the names of symjit's `Mir`.
//!
//! Each function gives one instruction. Functions of `Mir` that push several, as `cube` and `powi`,
//! are left out. `Mir` turns `times_i` and `times_neg_i` into another instruction where the list is
//! not complex; here they are what their names say.

use crate::instruction::{ArithOp, BinOp, FusedOp, Instruction, Loc, Reg, UniOp};

/// The general register of that number.
pub fn reg(number: u8) -> Reg {
    Reg::Gen(number)
}

/// `nop`
pub fn nop() -> Instruction {
    Instruction::Nop
}

/// `end`
pub fn end() -> Instruction {
    Instruction::End
}

/// `label:`
pub fn set_label(label: u32) -> Instruction {
    Instruction::Label { label }
}

/// `goto label`
pub fn branch(label: u32) -> Instruction {
    Instruction::Branch { label }
}

/// `if cond goto label`, or if `is_else`, `if not cond goto label`.
pub fn branch_if(cond: Reg, label: u32, is_else: bool) -> Instruction {
    Instruction::BranchIf { cond, label, is_else }
}

/// `call label; n = num_args`
pub fn call(label: u32, num_args: u32) -> Instruction {
    Instruction::Call { label, num_args }
}

/// `dst := s1`
pub fn fmov(dst: Reg, s1: Reg) -> Instruction {
    Instruction::Mov { dst, s1 }
}

/// `dst := consts[idx]`
pub fn load_const(dst: Reg, idx: u32) -> Instruction {
    Instruction::LoadConst { dst, idx }
}

/// `dst := Mem[idx]`
pub fn load_mem(dst: Reg, idx: u32) -> Instruction {
    Instruction::Load { dst, loc: Loc::Mem(idx) }
}

/// `Mem[idx] := src`
pub fn save_mem(src: Reg, idx: u32) -> Instruction {
    Instruction::Save { src, loc: Loc::Mem(idx) }
}

/// `dst := Param[idx]`
pub fn load_param(dst: Reg, idx: u32) -> Instruction {
    Instruction::Load { dst, loc: Loc::Param(idx) }
}

/// `dst := Stack[idx]`
pub fn load_stack(dst: Reg, idx: u32) -> Instruction {
    Instruction::Load { dst, loc: Loc::Stack(idx) }
}

/// `Stack[idx] := src`
pub fn save_stack(src: Reg, idx: u32) -> Instruction {
    Instruction::Save { src, loc: Loc::Stack(idx) }
}

/// `Mem[idx] := %$`
pub fn save_mem_result(idx: u32) -> Instruction {
    save_mem(Reg::Ret, idx)
}

/// `Stack[idx] := %$`
pub fn save_stack_result(idx: u32) -> Instruction {
    save_stack(Reg::Ret, idx)
}

/// `(xd + yd*im) := Mem[idx]`
pub fn load_mem_complex(xd: Reg, yd: Reg, idx: u32) -> Instruction {
    Instruction::LoadComplex { xd, yd, loc: Loc::Mem(idx) }
}

/// `Mem[idx] := (xs + ys*im)`
pub fn save_mem_complex(xs: Reg, ys: Reg, idx: u32) -> Instruction {
    Instruction::SaveComplex { xs, ys, loc: Loc::Mem(idx) }
}

/// `(xd + yd*im) := Param[idx]`
pub fn load_param_complex(xd: Reg, yd: Reg, idx: u32) -> Instruction {
    Instruction::LoadComplex { xd, yd, loc: Loc::Param(idx) }
}

/// `(xd + yd*im) := Stack[idx]`
pub fn load_stack_complex(xd: Reg, yd: Reg, idx: u32) -> Instruction {
    Instruction::LoadComplex { xd, yd, loc: Loc::Stack(idx) }
}

/// `Stack[idx] := (xs + ys*im)`
pub fn save_stack_complex(xs: Reg, ys: Reg, idx: u32) -> Instruction {
    Instruction::SaveComplex { xs, ys, loc: Loc::Stack(idx) }
}

/// `Load Args [locs]; real, ultra`
pub fn load_args(locs: Vec<Loc>, ultra: bool) -> Instruction {
    Instruction::LoadArgs { locs, complex: false, ultra }
}

/// `Load Args [locs]; complex, ultra`
pub fn load_args_complex(locs: Vec<Loc>, ultra: bool) -> Instruction {
    Instruction::LoadArgs { locs, complex: true, ultra }
}

/// `Save Args; n = num_args; real, ultra`
pub fn save_args(num_args: u8, ultra: bool) -> Instruction {
    Instruction::SaveArgs { num_args, complex: false, ultra }
}

/// `Save Args; n = num_args; complex, ultra`
pub fn save_args_complex(num_args: u8, ultra: bool) -> Instruction {
    Instruction::SaveArgs { num_args, complex: true, ultra }
}

/// `dst := cond ? true_val : false_val`; a word that is 0 or minus zero picks `false_val`
pub fn ifelse(dst: Reg, true_val: Reg, false_val: Reg, cond: Loc) -> Instruction {
    Instruction::IfElse { dst, true_val, false_val, cond }
}

/// `dst := s1 Times s1`
pub fn square(dst: Reg, s1: Reg) -> Instruction {
    times(dst, s1, s1)
}

/// A function for each operation of a kind.
macro_rules! builders {
    ($kind:ident, $ops:ident, $fields:tt, { $($name:ident $op:ident,)* }) => {
        $(builder!($kind, $ops, $fields, $name, $op);)*
    };
}

macro_rules! builder {
    ($kind:ident, $ops:ident, ($($field:ident: $type:ty),*), $name:ident, $op:ident) => {
        #[doc = concat!(
            "[`", stringify!($kind), "`](Instruction::", stringify!($kind), ") with the operation ",
            "[`", stringify!($op), "`](", stringify!($ops), "::", stringify!($op), ")."
        )]
        pub fn $name($($field: $type),*) -> Instruction {
            Instruction::$kind { op: $ops::$op, $($field),* }
        }
    };
}

builders!(Uni, UniOp, (dst: Reg, s1: Reg), {
    neg Neg,
    not Not,
    abs Abs,
    root Root,
    real_root RealRoot,
    recip Recip,
    round Round,
    floor Floor,
    ceiling Ceiling,
    trunc Trunc,
    real Real,
    imaginary Imaginary,
    conjugate Conjugate,
    half Half,
    iszero IsZero,
    isnotzero IsNotZero,
    sign Sign,
    abs2 Abs2,
    times_i TimesI,
    times_neg_i TimesNegI,
});

builders!(Bi, BinOp, (dst: Reg, s1: Reg, s2: Reg), {
    plus Plus,
    minus Minus,
    times Times,
    divide Divide,
    gt GreaterThan,
    geq GreaterThanEqual,
    lt LittleThan,
    leq LittleThanEqual,
    eq Equal,
    neq NotEqual,
    and And,
    andnot AndNot,
    or Or,
    xor Xor,
    complex Complex,
});

builders!(Fused, FusedOp, (dst: Reg, a: Reg, b: Reg, c: Reg), {
    fused_mul_add MulAdd,
    fused_mul_sub MulSub,
    fused_neg_mul_add NegMulAdd,
    fused_neg_mul_sub NegMulSub,
});

builders!(LoadMath, ArithOp, (dst: Reg, s1: Reg, loc: Loc), {
    plus_load Plus,
    minus_load Minus,
    times_load Times,
    divide_load Divide,
});

builders!(LoadConstMath, ArithOp, (dst: Reg, s1: Reg, idx: u32), {
    plus_load_const Plus,
    minus_load_const Minus,
    times_load_const Times,
    divide_load_const Divide,
});

builders!(ComplexBi, ArithOp, (xd: Reg, yd: Reg, x1: Reg, y1: Reg, x2: Reg, y2: Reg), {
    plus_complex Plus,
    minus_complex Minus,
    times_complex Times,
    divide_complex Divide,
});

#[cfg(test)]
mod tests {
    use super::*;

    #[test]
    fn builders_put_each_field_in_its_place() {
        let [a, b, c, d] = [reg(1), reg(2), reg(3), reg(4)];
        let loc = Loc::Param(9);
        let cases = [
            (root(a, b), "%1 := Root(%2)"),
            (square(a, b), "%1 := %2 Times %2"),
            (leq(a, b, c), "%1 := %2 LittleThanEqual %3"),
            (fused_neg_mul_sub(a, b, c, d), "%1 := - %2 * %3 - %4"),
            (minus_load(a, b, loc), "%1 := %2 Minus Param[9]"),
            (divide_load_const(a, b, 9), "%1 := %2 Divide consts[9]"),
            (ifelse(a, b, c, loc), "%1 := Param[9] ? %2 : %3"),
            (save_stack_complex(a, b, 9), "Stack[9] := (%1 + %2*im)"),
            (load_param_complex(a, b, 9), "(%1 + %2*im) := Param[9]"),
            (branch_if(a, 7, true), "if not %1 goto 7"),
            (save_mem_result(9), "Mem[9] := %$"),
            (call(7, 2), "call 7; n = 2"),
        ];
        for (ins, text) in cases {
            assert_eq!(ins.to_string(), text);
        }
        let complex = times_complex(a, b, c, d, Reg::Temp, Reg::Left);
        assert_eq!(complex.to_string(), "(%1 + %2*im) := (%3 + %4*im) Times (%t + %l*im)");
    }
}
