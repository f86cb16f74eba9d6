//! Records of 8 words, to the original's instructions and back.
//!
//! A label's name is the number's decimal text. LoadArgs names pairs of a lent table by `first` and
//! `count`, while the original holds the locations themselves; encoding therefore takes the spans
//! of the list that was read. The allocator keeps every LoadArgs, in order, so the n-th of its
//! output has the n-th span.

use oracle::{ArithOp, BinOp, FusedOp, Instruction, Loc, Reg, UniOp};

pub const WORDS: usize = 8;

pub type Record = [u32; WORDS];

/// `first` and `count` of a LoadArgs.
pub type Span = (u32, u32);

const UNI_OPS: [UniOp; 20] = [
    UniOp::Neg,
    UniOp::Not,
    UniOp::Abs,
    UniOp::Root,
    UniOp::RealRoot,
    UniOp::Recip,
    UniOp::Round,
    UniOp::Floor,
    UniOp::Ceiling,
    UniOp::Trunc,
    UniOp::Real,
    UniOp::Imaginary,
    UniOp::Conjugate,
    UniOp::Half,
    UniOp::IsZero,
    UniOp::IsNotZero,
    UniOp::Sign,
    UniOp::Abs2,
    UniOp::TimesI,
    UniOp::TimesNegI,
];

const BIN_OPS: [BinOp; 15] = [
    BinOp::Plus,
    BinOp::Minus,
    BinOp::Times,
    BinOp::Divide,
    BinOp::GreaterThan,
    BinOp::GreaterThanEqual,
    BinOp::LittleThan,
    BinOp::LittleThanEqual,
    BinOp::Equal,
    BinOp::NotEqual,
    BinOp::And,
    BinOp::AndNot,
    BinOp::Or,
    BinOp::Xor,
    BinOp::Complex,
];

const ARITH_OPS: [ArithOp; 4] = [ArithOp::Plus, ArithOp::Minus, ArithOp::Times, ArithOp::Divide];

const FUSED_OPS: [FusedOp; 4] =
    [FusedOp::MulAdd, FusedOp::MulSub, FusedOp::NegMulAdd, FusedOp::NegMulSub];

/// Reads a record's fields in order. Each reader gives none where the word has no meaning.
struct Fields<'a> {
    words: &'a [u32],
    table: &'a [u32],
    next: usize,
}

impl Fields<'_> {
    fn word(&mut self) -> u32 {
        self.next += 1;
        self.words[self.next - 1]
    }

    fn op<T: Copy>(&mut self, ops: &[T]) -> Option<T> {
        ops.get(self.word() as usize).copied()
    }

    fn reg(&mut self) -> Option<Reg> {
        match self.word() {
            256 => Some(Reg::Ret),
            257 => Some(Reg::Temp),
            258 => Some(Reg::Left),
            259 => Some(Reg::Right),
            word => u8::try_from(word).ok().map(Reg::Gen),
        }
    }

    fn loc(&mut self) -> Option<Loc> {
        let space = self.word();
        location(space, self.word())
    }

    fn locs(&mut self) -> Option<Vec<Loc>> {
        let first = self.word();
        locations(self.table, (first, self.word()))
    }

    fn flag(&mut self) -> Option<bool> {
        match self.word() {
            0 => Some(false),
            1 => Some(true),
            _ => None,
        }
    }

    fn byte(&mut self) -> Option<u8> {
        u8::try_from(self.word()).ok()
    }

    fn label(&mut self) -> String {
        self.word().to_string()
    }

    fn rest_is_zero(&self) -> bool {
        self.words[self.next..].iter().all(|word| *word == 0)
    }
}

fn location(space: u32, index: u32) -> Option<Loc> {
    match space {
        0 => Some(Loc::Stack(index)),
        1 => Some(Loc::Mem(index)),
        2 => Some(Loc::Param(index)),
        _ => None,
    }
}

/// The locations that a span names in the table.
fn locations(table: &[u32], (first, count): Span) -> Option<Vec<Loc>> {
    let start = (first as usize).checked_mul(2)?;
    let end = (count as usize).checked_mul(2)?.checked_add(start)?;
    table.get(start..end)?.chunks_exact(2).map(|pair| location(pair[0], pair[1])).collect()
}

/// The instruction that a record stands for; none if the record has no meaning.
pub fn decode(words: &[u32], table: &[u32]) -> Option<Instruction> {
    let mut fields = Fields { words, table, next: 0 };
    let ins = match fields.word() {
        kind @ (0..=6 | 9 | 13 | 14 | 18 | 19) => decode_scalar(kind, &mut fields)?,
        kind => decode_other(kind, &mut fields)?,
    };
    fields.rest_is_zero().then_some(ins)
}

fn decode_scalar(kind: u32, f: &mut Fields) -> Option<Instruction> {
    Some(match kind {
        0 => Instruction::Nop,
        1 => Instruction::End,
        2 => Instruction::Uni { op: f.op(&UNI_OPS)?, dst: f.reg()?, s1: f.reg()? },
        3 => Instruction::Bi { op: f.op(&BIN_OPS)?, dst: f.reg()?, s1: f.reg()?, s2: f.reg()? },
        4 => Instruction::Mov { dst: f.reg()?, s1: f.reg()? },
        5 => Instruction::Load { dst: f.reg()?, loc: f.loc()? },
        6 => Instruction::Save { src: f.reg()?, loc: f.loc()? },
        9 => Instruction::LoadConst { dst: f.reg()?, idx: f.word() },
        13 => {
            let (op, dst) = (f.op(&FUSED_OPS)?, f.reg()?);
            Instruction::Fused { op, dst, a: f.reg()?, b: f.reg()?, c: f.reg()? }
        }
        14 => {
            let dst = f.reg()?;
            let (true_val, false_val) = (f.reg()?, f.reg()?);
            Instruction::IfElse { dst, true_val, false_val, cond: f.loc()? }
        }
        18 => {
            let (op, dst) = (f.op(&ARITH_OPS)?, f.reg()?);
            Instruction::LoadMath { op, dst, s1: f.reg()?, loc: f.loc()? }
        }
        19 => {
            let (op, dst) = (f.op(&ARITH_OPS)?, f.reg()?);
            Instruction::LoadConstMath { op, dst, s1: f.reg()?, idx: f.word() }
        }
        _ => return None,
    })
}

fn decode_other(kind: u32, f: &mut Fields) -> Option<Instruction> {
    Some(match kind {
        7 => Instruction::LoadComplex { xd: f.reg()?, yd: f.reg()?, loc: f.loc()? },
        8 => Instruction::SaveComplex { xs: f.reg()?, ys: f.reg()?, loc: f.loc()? },
        10 => Instruction::LoadArgs { locs: f.locs()?, complex: f.flag()?, ultra: f.flag()? },
        11 => Instruction::SaveArgs { num_args: f.byte()?, complex: f.flag()?, ultra: f.flag()? },
        12 => Instruction::Call { label: f.label(), num_args: f.word() as usize },
        15 => Instruction::Label { label: f.label() },
        16 => Instruction::Branch { label: f.label() },
        17 => Instruction::BranchIf { cond: f.reg()?, label: f.label(), is_else: f.flag()? },
        20 => {
            let op = f.op(&ARITH_OPS)?;
            let (xd, yd) = (f.reg()?, f.reg()?);
            let (x1, y1) = (f.reg()?, f.reg()?);
            Instruction::ComplexBi { op, xd, yd, x1, y1, x2: f.reg()?, y2: f.reg()? }
        }
        _ => return None,
    })
}

/// The record of an instruction. A LoadArgs takes the given span, which must name its locations.
pub fn encode(ins: &Instruction, table: &[u32], span: Span) -> Record {
    match ins {
        Instruction::LoadArgs { locs, complex, ultra } => {
            assert_eq!(locations(table, span).as_ref(), Some(locs), "a LoadArgs was changed");
            record(10, &[span.0, span.1, u32::from(*complex), u32::from(*ultra)])
        }
        Instruction::SaveArgs { num_args, complex, ultra } => {
            record(11, &[u32::from(*num_args), u32::from(*complex), u32::from(*ultra)])
        }
        Instruction::Call { label, num_args } => record(12, &[number(label), *num_args as u32]),
        Instruction::Label { label } => record(15, &[number(label)]),
        Instruction::Branch { label } => record(16, &[number(label)]),
        Instruction::BranchIf { cond, label, is_else } => {
            record(17, &[reg(*cond), number(label), u32::from(*is_else)])
        }
        computing => encode_computing(computing),
    }
}

fn encode_computing(ins: &Instruction) -> Record {
    match *ins {
        Instruction::Nop => record(0, &[]),
        Instruction::End => record(1, &[]),
        Instruction::Uni { op, dst, s1 } => record(2, &[op as u32, reg(dst), reg(s1)]),
        Instruction::Bi { op, dst, s1, s2 } => record(3, &[op as u32, reg(dst), reg(s1), reg(s2)]),
        Instruction::Mov { dst, s1 } => record(4, &[reg(dst), reg(s1)]),
        Instruction::Load { dst, loc } => record(5, &[reg(dst), space(loc), index(loc)]),
        Instruction::Save { src, loc } => record(6, &[reg(src), space(loc), index(loc)]),
        Instruction::LoadComplex { xd, yd, loc } => {
            record(7, &[reg(xd), reg(yd), space(loc), index(loc)])
        }
        Instruction::SaveComplex { xs, ys, loc } => {
            record(8, &[reg(xs), reg(ys), space(loc), index(loc)])
        }
        Instruction::LoadConst { dst, idx } => record(9, &[reg(dst), idx]),
        Instruction::Fused { op, dst, a, b, c } => {
            record(13, &[op as u32, reg(dst), reg(a), reg(b), reg(c)])
        }
        Instruction::IfElse { dst, true_val, false_val, cond } => {
            record(14, &[reg(dst), reg(true_val), reg(false_val), space(cond), index(cond)])
        }
        Instruction::LoadMath { op, dst, s1, loc } => {
            record(18, &[op as u32, reg(dst), reg(s1), space(loc), index(loc)])
        }
        Instruction::LoadConstMath { op, dst, s1, idx } => {
            record(19, &[op as u32, reg(dst), reg(s1), idx])
        }
        Instruction::ComplexBi { op, xd, yd, x1, y1, x2, y2 } => {
            record(20, &[op as u32, reg(xd), reg(yd), reg(x1), reg(y1), reg(x2), reg(y2)])
        }
        _ => unreachable!("{ins:?} has no fields of these kinds"),
    }
}

fn record(kind: u32, fields: &[u32]) -> Record {
    let mut record = [0; WORDS];
    record[0] = kind;
    record[1..=fields.len()].copy_from_slice(fields);
    record
}

fn reg(reg: Reg) -> u32 {
    match reg {
        Reg::Gen(number) => u32::from(number),
        Reg::Ret => 256,
        Reg::Temp => 257,
        Reg::Left => 258,
        Reg::Right => 259,
        Reg::Static(_) => unreachable!("{reg:?} never leaves the allocator"),
    }
}

fn space(loc: Loc) -> u32 {
    match loc {
        Loc::Stack(_) => 0,
        Loc::Mem(_) => 1,
        Loc::Param(_) => 2,
    }
}

fn index(loc: Loc) -> u32 {
    match loc {
        Loc::Stack(index) | Loc::Mem(index) | Loc::Param(index) => index,
    }
}

fn number(label: &str) -> u32 {
    label.parse().expect("a label is a number")
}

/// The instructions of a list; none if a record has no meaning.
pub fn decode_list(list: &[u32], table: &[u32]) -> Option<Vec<Instruction>> {
    list.chunks_exact(WORDS).map(|words| decode(words, table)).collect()
}

/// The spans of a list's LoadArgs records, in order.
pub fn spans(list: &[u32]) -> Vec<Span> {
    let args = list.chunks_exact(WORDS).filter(|words| words[0] == 10);
    args.map(|words| (words[1], words[2])).collect()
}

/// The records of instructions whose LoadArgs have the given spans, in order.
pub fn encode_list(
    code: impl IntoIterator<Item = Instruction>,
    table: &[u32],
    spans: &[Span],
) -> Vec<u32> {
    let mut spans = spans.iter().copied();
    let mut list = Vec::new();
    for ins in code {
        let span = match ins {
            Instruction::LoadArgs { .. } => spans.next().expect("a span for each LoadArgs"),
            _ => (0, 0),
        };
        list.extend(encode(&ins, table, span));
    }
    list
}
