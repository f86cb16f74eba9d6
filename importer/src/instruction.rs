//! Instructions and what they are made of, named as in symjit.

use std::fmt;

/// A register.
#[derive(Clone, Copy, Debug, PartialEq, Eq, Hash)]
pub enum Reg {
    /// A general register. Only these are assigned anew.
    Gen(u8),
    /// The register of results, `%$`.
    Ret,
    /// A temporary, `%t`.
    Temp,
    /// The first argument of a call, `%l`.
    Left,
    /// The second argument of a call, `%r`.
    Right,
}

/// A location: a cell of one of three spaces.
#[derive(Clone, Copy, Debug, PartialEq, Eq, Hash)]
pub enum Loc {
    /// A cell of the stack; from the fixed mark on, a temporary of the list's own.
    Stack(u32),
    /// A cell of the workbook.
    Mem(u32),
    /// A parameter.
    Param(u32),
}

impl Loc {
    /// The imaginary partner: the next cell. The last cell of a space has none.
    pub fn imag(self) -> Option<Loc> {
        match self {
            Loc::Stack(index) => index.checked_add(1).map(Loc::Stack),
            Loc::Mem(index) => index.checked_add(1).map(Loc::Mem),
            Loc::Param(index) => index.checked_add(1).map(Loc::Param),
        }
    }
}

/// An enum of operations; a record has the operation's place among them.
macro_rules! operations {
    ($(#[$doc:meta])* $name:ident { $($(#[$op_doc:meta])* $op:ident,)* }) => {
        $(#[$doc])*
        #[derive(Clone, Copy, Debug, PartialEq, Eq, Hash)]
        pub enum $name {
            $($(#[$op_doc])* $op,)*
        }

        impl $name {
            /// All of them, in the order of their numbers.
            pub const ALL: &'static [$name] = &[$($name::$op,)*];
        }

        impl fmt::Display for $name {
            fn fmt(&self, f: &mut fmt::Formatter) -> fmt::Result {
                fmt::Debug::fmt(self, f)
            }
        }
    };
}

operations! {
    /// An operation on one register.
    UniOp {
        /// The negative.
        Neg,
        /// Every bit inverted.
        Not,
        /// The absolute value.
        Abs,
        /// The square root.
        Root,
        /// The square root of a real value.
        RealRoot,
        /// The reciprocal.
        Recip,
        /// The nearest whole number.
        Round,
        /// The whole number below.
        Floor,
        /// The whole number above.
        Ceiling,
        /// The whole number towards 0.
        Trunc,
        /// The real part.
        Real,
        /// The imaginary part.
        Imaginary,
        /// The complex conjugate.
        Conjugate,
        /// The half.
        Half,
        /// Whether it is 0.
        IsZero,
        /// Whether it is not 0.
        IsNotZero,
        /// The sign.
        Sign,
        /// The square of the absolute value.
        Abs2,
        /// Times the imaginary unit.
        TimesI,
        /// Times the negative imaginary unit.
        TimesNegI,
    }
}

operations! {
    /// An operation on two registers.
    BinOp {
        /// The sum.
        Plus,
        /// The difference.
        Minus,
        /// The product.
        Times,
        /// The quotient.
        Divide,
        /// Whether the first is greater.
        GreaterThan,
        /// Whether the first is greater or they are equal.
        GreaterThanEqual,
        /// Whether the first is less.
        LittleThan,
        /// Whether the first is less or they are equal.
        LittleThanEqual,
        /// Whether they are equal.
        Equal,
        /// Whether they differ.
        NotEqual,
        /// Bit by bit, both.
        And,
        /// Bit by bit, one but not the other.
        AndNot,
        /// Bit by bit, either.
        Or,
        /// Bit by bit, one of the two.
        Xor,
        /// The complex value of the two parts.
        Complex,
    }
}

operations! {
    /// An operation on a register and a location or constant, or on complex values.
    ArithOp {
        /// The sum.
        Plus,
        /// The difference.
        Minus,
        /// The product.
        Times,
        /// The quotient.
        Divide,
    }
}

operations! {
    /// A multiplication and an addition in one.
    FusedOp {
        /// `a * b + c`
        MulAdd,
        /// `a * b - c`
        MulSub,
        /// `- a * b + c`
        NegMulAdd,
        /// `- a * b - c`
        NegMulSub,
    }
}

/// One instruction of a list. Its text is that of [`text`](crate::text).
///
/// Labels are numbers. LoadArgs holds its locations itself.
#[derive(Clone, Debug, PartialEq, Eq, Hash)]
#[allow(missing_docs)] // the fields are symjit's, and the text form shows what each is for
pub enum Instruction {
    /// Does nothing.
    Nop,
    /// Ends the run.
    End,
    /// `%0 := Neg(%1)`
    Uni { op: UniOp, dst: Reg, s1: Reg },
    /// `%0 := %1 Plus %2`
    Bi { op: BinOp, dst: Reg, s1: Reg, s2: Reg },
    /// `%0 := %1`
    Mov { dst: Reg, s1: Reg },
    /// `%0 := Mem[3]`
    Load { dst: Reg, loc: Loc },
    /// `Mem[3] := %0`
    Save { src: Reg, loc: Loc },
    /// `(%0 + %1*im) := Mem[3]`
    LoadComplex { xd: Reg, yd: Reg, loc: Loc },
    /// `Mem[3] := (%0 + %1*im)`
    SaveComplex { xs: Reg, ys: Reg, loc: Loc },
    /// `%0 := consts[5]`
    LoadConst { dst: Reg, idx: u32 },
    /// `Load Args [Mem[3], Param[0]]; real, false`
    LoadArgs { locs: Vec<Loc>, complex: bool, ultra: bool },
    /// `Save Args; n = 2; real, false`
    SaveArgs { num_args: u8, complex: bool, ultra: bool },
    /// `call 7; n = 2`
    Call { label: u32, num_args: u32 },
    /// `%0 := %1 * %2 + %3`
    Fused { op: FusedOp, dst: Reg, a: Reg, b: Reg, c: Reg },
    /// `%0 := Mem[3] ? %1 : %2`; a word that is 0 or minus zero picks `false_val`
    IfElse { dst: Reg, true_val: Reg, false_val: Reg, cond: Loc },
    /// `7:`
    Label { label: u32 },
    /// `goto 7`
    Branch { label: u32 },
    /// `if %0 goto 7`, or `if not %0 goto 7`
    BranchIf { cond: Reg, label: u32, is_else: bool },
    /// `%0 := %1 Plus Mem[3]`
    LoadMath { op: ArithOp, dst: Reg, s1: Reg, loc: Loc },
    /// `%0 := %1 Plus consts[5]`
    LoadConstMath { op: ArithOp, dst: Reg, s1: Reg, idx: u32 },
    /// `(%0 + %1*im) := (%2 + %3*im) Plus (%4 + %5*im)`
    ComplexBi { op: ArithOp, xd: Reg, yd: Reg, x1: Reg, y1: Reg, x2: Reg, y2: Reg },
}

impl Instruction {
    /// The registers that it writes, in writing order.
    pub fn destinations(&self) -> Vec<Reg> {
        use Instruction::*;
        match *self {
            Uni { dst, .. } | Bi { dst, .. } | Mov { dst, .. } | Load { dst, .. } => vec![dst],
            LoadConst { dst, .. } | Fused { dst, .. } | IfElse { dst, .. } => vec![dst],
            LoadMath { dst, .. } | LoadConstMath { dst, .. } => vec![dst],
            LoadComplex { xd, yd, .. } | ComplexBi { xd, yd, .. } => vec![xd, yd],
            Nop | End | Save { .. } | SaveComplex { .. } | LoadArgs { .. } => Vec::new(),
            SaveArgs { .. } | Call { .. } | Label { .. } => Vec::new(),
            Branch { .. } | BranchIf { .. } => Vec::new(),
        }
    }

    /// The registers that it reads.
    pub fn sources(&self) -> Vec<Reg> {
        use Instruction::*;
        match *self {
            Uni { s1, .. } | Mov { s1, .. } => vec![s1],
            LoadMath { s1, .. } | LoadConstMath { s1, .. } => vec![s1],
            Bi { s1, s2, .. } => vec![s1, s2],
            Save { src, .. } => vec![src],
            SaveComplex { xs, ys, .. } => vec![xs, ys],
            Fused { a, b, c, .. } => vec![a, b, c],
            IfElse { true_val, false_val, .. } => vec![true_val, false_val],
            BranchIf { cond, .. } => vec![cond],
            ComplexBi { x1, y1, x2, y2, .. } => vec![x1, y1, x2, y2],
            Nop | End | Load { .. } | LoadComplex { .. } | LoadConst { .. } => Vec::new(),
            LoadArgs { .. } | SaveArgs { .. } | Call { .. } => Vec::new(),
            Label { .. } | Branch { .. } => Vec::new(),
        }
    }

    /// Whether it is of a kind that the theorems about runs cover: all but calls and what loads and
    /// saves their arguments. That a shortened list computes the same is proved of lists of such
    /// instructions alone.
    pub fn is_covered(&self) -> bool {
        use Instruction::{Call, LoadArgs, SaveArgs};
        !matches!(self, LoadArgs { .. } | SaveArgs { .. } | Call { .. })
    }

    /// Whether no general register has a value after it.
    pub fn forgets(&self) -> bool {
        matches!(self, Instruction::Label { .. } | Instruction::Call { .. })
    }
}
