// Carried over from symjit, repository siravan/symjit at ee8b609e48, file rust/mir.rs.
// MIT licence, see NOTICE. Kept: the operations, `Instruction` with its print form, and of `Mir`
// the list, the labels, `get_dst`, `used_registers` and `populate_labels`.

use std::collections::HashMap;
use std::fmt;

use super::config::Config;
use super::serializer::MirWriter;
use super::symbol::Loc;
use super::utils::Reg;

#[derive(Clone, Copy, Debug, PartialEq, Hash)]
#[repr(u8)]
pub enum UniOp {
    Neg,
    Not,
    Abs,
    Root,
    RealRoot,
    Recip,
    Round,
    Floor,
    Ceiling,
    Trunc,
    Real,
    Imaginary,
    Conjugate,
    Half,
    IsZero,
    IsNotZero,
    Sign,
    Abs2,
    TimesI,
    TimesNegI,
}

#[derive(Clone, Copy, Debug, PartialEq, Hash)]
#[repr(u8)]
pub enum BinOp {
    Plus,
    Minus,
    Times,
    Divide,
    GreaterThan,
    GreaterThanEqual,
    LittleThan,
    LittleThanEqual,
    Equal,
    NotEqual,
    And,
    AndNot,
    Or,
    Xor,
    Complex,
}

#[derive(Clone, Copy, Debug, PartialEq, Hash)]
#[repr(u8)]
pub enum ArithOp {
    Plus = 0,
    Minus = 1,
    Times = 2,
    Divide = 3,
}

#[derive(Clone, Copy, Debug, PartialEq, Hash)]
#[repr(u8)]
pub enum FusedOp {
    MulAdd = 0,    // + a * b + c
    MulSub = 1,    // a * b - c
    NegMulAdd = 2, // - a * b + c
    NegMulSub = 3, // -a * b - c
}

#[derive(Clone)]
pub enum Instruction {
    Nop,
    End,
    Uni {
        op: UniOp,
        dst: Reg,
        s1: Reg,
    },
    Bi {
        op: BinOp,
        dst: Reg,
        s1: Reg,
        s2: Reg,
    },
    Mov {
        dst: Reg,
        s1: Reg,
    },
    Load {
        dst: Reg,
        loc: Loc,
    },
    Save {
        src: Reg,
        loc: Loc,
    },
    LoadComplex {
        xd: Reg,
        yd: Reg,
        loc: Loc,
    },
    SaveComplex {
        xs: Reg,
        ys: Reg,
        loc: Loc,
    },
    LoadConst {
        dst: Reg,
        idx: u32,
    },
    LoadArgs {
        locs: Vec<Loc>,
        complex: bool,
        ultra: bool,
    },
    SaveArgs {
        num_args: u8,
        complex: bool,
        ultra: bool,
    },
    Call {
        label: String,
        num_args: usize,
    },
    Fused {
        op: FusedOp,
        dst: Reg,
        a: Reg,
        b: Reg,
        c: Reg,
    },
    IfElse {
        dst: Reg,
        true_val: Reg,
        false_val: Reg,
        cond: Loc,
    },
    Label {
        label: String,
    },
    Branch {
        label: String,
    },
    BranchIf {
        cond: Reg,
        label: String,
        is_else: bool,
    },
    LoadMath {
        op: ArithOp,
        dst: Reg,
        s1: Reg,
        loc: Loc,
    },
    LoadConstMath {
        op: ArithOp,
        dst: Reg,
        s1: Reg,
        idx: u32,
    },
    ComplexBi {
        op: ArithOp,
        xd: Reg,
        yd: Reg,
        x1: Reg,
        y1: Reg,
        x2: Reg,
        y2: Reg,
    },
}

impl fmt::Debug for Instruction {
    fn fmt(&self, f: &mut fmt::Formatter<'_>) -> fmt::Result {
        match self {
            Instruction::Nop => write!(f, "nop"),
            Instruction::End => write!(f, "end"),
            Instruction::Uni { op, dst, s1 } => write!(f, "{:?} := {:?}({:?})", dst, op, s1),
            Instruction::Bi { op, dst, s1, s2 } => {
                write!(f, "{:?} := {:?} {:?} {:?}", dst, s1, op, s2)
            }
            Instruction::Call { label, .. } => write!(f, "call {}", label),
            Instruction::Mov { dst, s1 } => write!(f, "{:?} := {:?}", dst, s1),
            Instruction::Load { dst, loc } => write!(f, "{:?} := {:?}", dst, loc),
            Instruction::Save { src, loc } => write!(f, "{:?} := {:?}", loc, src),
            Instruction::LoadComplex { xd, yd, loc } => {
                write!(f, "({:?} + {:?}*im) := {:?}", xd, yd, loc)
            }
            Instruction::SaveComplex { xs, ys, loc } => {
                write!(f, "{:?} := ({:?} + {:?}*im)", loc, xs, ys)
            }
            Instruction::LoadConst { dst, idx } => write!(f, "{:?} := consts[{:?}]", dst, idx),
            Instruction::LoadArgs {
                locs,
                complex: false,
                ultra,
            } => write!(f, "Load Args {:?}; real, {}", locs, ultra),
            Instruction::LoadArgs {
                locs,
                complex: true,
                ultra,
            } => write!(f, "Load Args {:?}; complex, {}", locs, ultra),
            Instruction::SaveArgs {
                num_args,
                complex: false,
                ultra,
            } => write!(f, "Save Args; n = {}; real, {}", num_args, ultra),
            Instruction::SaveArgs {
                num_args,
                complex: true,
                ultra,
            } => write!(f, "Save Args; n = {}; complex, {}", num_args, ultra),
            Instruction::Fused { op, dst, a, b, c } => match op {
                FusedOp::MulAdd => write!(f, "{:?} := {:?} * {:?} + {:?}", dst, a, b, c),
                FusedOp::NegMulAdd => write!(f, "{:?} := - {:?} * {:?} + {:?}", dst, a, b, c),
                FusedOp::MulSub => write!(f, "{:?} := {:?} * {:?} - {:?}", dst, a, b, c),
                FusedOp::NegMulSub => write!(f, "{:?} := - {:?} * {:?} - {:?}", dst, a, b, c),
            },
            Instruction::IfElse {
                dst,
                true_val,
                false_val,
                cond,
            } => write!(
                f,
                "{:?} := {:?} ? {:?} : {:?}",
                dst, cond, true_val, false_val
            ),
            Self::Label { label } => write!(f, "{:?}:", label),
            Self::Branch { label } => write!(f, "goto {:?}", label),
            Self::BranchIf {
                cond,
                label,
                is_else,
            } => {
                if *is_else {
                    write!(f, "if not {:?} goto {:?}", cond, label)
                } else {
                    write!(f, "if {:?} goto {:?}", cond, label)
                }
            }
            Self::LoadMath { op, dst, s1, loc } => {
                write!(f, "{:?} := {:?} {:?} {:?} # load/math", dst, s1, op, loc)
            }
            Self::LoadConstMath { op, dst, s1, idx } => {
                write!(
                    f,
                    "{:?} := {:?} {:?} consts[{:?}] # load const/math",
                    dst, s1, op, idx
                )
            }
            Self::ComplexBi {
                op,
                xd,
                yd,
                x1,
                y1,
                x2,
                y2,
            } => {
                write!(
                    f,
                    "({:?} + {:?}*im) := ({:?} + {:?}*im) {:?} ({:?} + {:?}*im)",
                    xd, yd, x1, y1, op, x2, y2
                )
            }
        }
    }
}

#[derive(Clone)]
pub struct Mir {
    pub code: MirWriter,
    pub labels: HashMap<String, usize>,
    pub config: Config,
}

impl Mir {
    pub fn new(config: Config) -> Mir {
        Mir {
            code: MirWriter::new(),
            labels: HashMap::new(),
            config,
        }
    }

    pub fn get_dst(ins: &Instruction) -> u32 {
        match *ins {
            Instruction::Uni {
                dst: Reg::Gen(r), ..
            } => 1 << r,
            Instruction::Bi {
                dst: Reg::Gen(r), ..
            } => 1 << r,
            Instruction::ComplexBi {
                xd: Reg::Gen(x),
                yd: Reg::Gen(y),
                ..
            } => (1 << x) | (1 << y),
            Instruction::Mov {
                dst: Reg::Gen(r), ..
            } => 1 << r,
            Instruction::Load {
                dst: Reg::Gen(r), ..
            } => 1 << r,
            Instruction::LoadConst {
                dst: Reg::Gen(r), ..
            } => 1 << r,
            Instruction::LoadComplex {
                xd: Reg::Gen(x),
                yd: Reg::Gen(y),
                ..
            } => (1 << x) | (1 << y),
            Instruction::LoadMath {
                dst: Reg::Gen(r), ..
            } => 1 << r,
            Instruction::LoadConstMath {
                dst: Reg::Gen(r), ..
            } => 1 << r,
            Instruction::Fused {
                dst: Reg::Gen(r), ..
            } => 1 << r,
            Instruction::IfElse {
                dst: Reg::Gen(r), ..
            } => 1 << r,
            Instruction::BranchIf {
                cond: Reg::Gen(r), ..
            } => 1 << r,
            _ => 0,
        }
    }

    pub fn used_registers(&self) -> Vec<Reg> {
        let mut mask: u32 = if self.config.compress() { !0 } else { 0 };

        for ins in self.code.iter() {
            mask |= Self::get_dst(&ins);
        }

        let mut used: Vec<Reg> = Vec::new();

        // 32 is the max possible logical register count
        for i in 0..32 {
            if mask & (1 << i) != 0 {
                used.push(Reg::Gen(i));
            }
        }

        used
    }

    pub fn populate_labels(&mut self) {
        let mut labels: HashMap<String, usize> = HashMap::new();

        for (ip, ins) in self.code.iter().enumerate() {
            if let Instruction::Label { label } = ins {
                labels.insert(label.clone(), ip);
            }
        }

        self.labels = labels;
    }
}
