//! Records to instructions.

use super::{BadWord, WORDS};
use crate::instruction::{ArithOp, BinOp, FusedOp, Instruction, Loc, Reg, UniOp};

type Read<T> = Result<T, BadWord>;

pub fn instruction(words: &[u32], table: &[u32]) -> Read<Instruction> {
    let mut fields = Fields { words, table, next: 0 };
    let ins = match fields.word() {
        kind @ (2 | 3 | 13 | 14 | 18..=20) => computing(kind, &mut fields)?,
        kind => other(kind, &mut fields)?,
    };
    fields.unused()?;
    Ok(ins)
}

/// The kinds that compute a value.
fn computing(kind: u32, f: &mut Fields) -> Read<Instruction> {
    Ok(match kind {
        2 => Instruction::Uni { op: f.op(UniOp::ALL)?, dst: f.reg()?, s1: f.reg()? },
        3 => Instruction::Bi { op: f.op(BinOp::ALL)?, dst: f.reg()?, s1: f.reg()?, s2: f.reg()? },
        13 => {
            let (op, dst) = (f.op(FusedOp::ALL)?, f.reg()?);
            Instruction::Fused { op, dst, a: f.reg()?, b: f.reg()?, c: f.reg()? }
        }
        14 => {
            let (dst, true_val, false_val) = (f.reg()?, f.reg()?, f.reg()?);
            Instruction::IfElse { dst, true_val, false_val, cond: f.loc()? }
        }
        18 => {
            let (op, dst) = (f.op(ArithOp::ALL)?, f.reg()?);
            Instruction::LoadMath { op, dst, s1: f.reg()?, loc: f.loc()? }
        }
        19 => {
            let (op, dst) = (f.op(ArithOp::ALL)?, f.reg()?);
            Instruction::LoadConstMath { op, dst, s1: f.reg()?, idx: f.word() }
        }
        _ => {
            let (op, xd, yd) = (f.op(ArithOp::ALL)?, f.reg()?, f.reg()?);
            let (x1, y1) = (f.reg()?, f.reg()?);
            Instruction::ComplexBi { op, xd, yd, x1, y1, x2: f.reg()?, y2: f.reg()? }
        }
    })
}

fn other(kind: u32, f: &mut Fields) -> Read<Instruction> {
    Ok(match kind {
        0 => Instruction::Nop,
        1 => Instruction::End,
        4 => Instruction::Mov { dst: f.reg()?, s1: f.reg()? },
        5 => Instruction::Load { dst: f.reg()?, loc: f.loc()? },
        6 => Instruction::Save { src: f.reg()?, loc: f.loc()? },
        7 => Instruction::LoadComplex { xd: f.reg()?, yd: f.reg()?, loc: f.loc()? },
        8 => Instruction::SaveComplex { xs: f.reg()?, ys: f.reg()?, loc: f.loc()? },
        9 => Instruction::LoadConst { dst: f.reg()?, idx: f.word() },
        10 => Instruction::LoadArgs { locs: f.locs()?, complex: f.flag()?, ultra: f.flag()? },
        11 => Instruction::SaveArgs { num_args: f.byte()?, complex: f.flag()?, ultra: f.flag()? },
        12 => Instruction::Call { label: f.word(), num_args: f.word() },
        15 => Instruction::Label { label: f.word() },
        16 => Instruction::Branch { label: f.word() },
        17 => Instruction::BranchIf { cond: f.reg()?, label: f.word(), is_else: f.flag()? },
        _ => return Err(f.bad("a kind, 0 to 20")),
    })
}

/// Reads a record's fields in order.
struct Fields<'a> {
    words: &'a [u32],
    table: &'a [u32],
    next: usize,
}

impl Fields<'_> {
    fn word(&mut self) -> u32 {
        self.next += 1;
        self.words[self.next - 1]
    }

    /// The word that was read last should have been something else.
    fn bad(&self, expected: &str) -> BadWord {
        let at = self.next - 1;
        BadWord { at, value: self.words[at], expected: expected.to_string() }
    }

    fn op<T: Copy>(&mut self, all: &[T]) -> Read<T> {
        let op = all.get(self.word() as usize).copied();
        op.ok_or_else(|| self.bad(&format!("an operation, 0 to {}", all.len() - 1)))
    }

    fn reg(&mut self) -> Read<Reg> {
        match self.word() {
            256 => Ok(Reg::Ret),
            257 => Ok(Reg::Temp),
            258 => Ok(Reg::Left),
            259 => Ok(Reg::Right),
            word => match u8::try_from(word) {
                Ok(number) => Ok(Reg::Gen(number)),
                Err(_) => Err(self.bad("a register, 0 to 259")),
            },
        }
    }

    fn loc(&mut self) -> Read<Loc> {
        let space = self.word();
        if space > 2 {
            return Err(self.bad("a space: 0 Stack, 1 Mem or 2 Param"));
        }
        Ok(location(space, self.word()).expect("the space is one of the three"))
    }

    /// The locations of LoadArgs. Whether the table has all the pairs comes first: a count that
    /// is far off must not be blamed on a pair that it was not meant to name.
    fn locs(&mut self) -> Read<Vec<Loc>> {
        let (pairs, _) = self.table.as_chunks();
        let has = || counted(pairs.len());
        let first = self.word() as usize;
        if first > pairs.len() {
            return Err(self.bad(&format!("at most {}, for the table has {}", pairs.len(), has())));
        }
        let count = self.word() as usize;
        let Some(named) = pairs[first..].get(..count) else {
            let named = format!("pairs that the table has from pair {first} on");
            return Err(self.bad(&format!("a count of {named}; it has {}", has())));
        };
        let loc = |(at, [space, index]): (usize, &[u32; 2])| {
            location(*space, *index).ok_or_else(|| {
                let pair = format!("pair {} is of space {space}", first + at);
                self.bad(&format!("a count of pairs that are all of space 0 to 2, but {pair}"))
            })
        };
        named.iter().enumerate().map(loc).collect()
    }

    fn flag(&mut self) -> Read<bool> {
        match self.word() {
            0 => Ok(false),
            1 => Ok(true),
            _ => Err(self.bad("a flag, 0 or 1")),
        }
    }

    fn byte(&mut self) -> Read<u8> {
        u8::try_from(self.word()).map_err(|_| self.bad("a number up to 255"))
    }

    /// The words that are left mean nothing, and are 0.
    fn unused(&mut self) -> Read<()> {
        while self.next < WORDS {
            if self.word() != 0 {
                return Err(self.bad("0, for this kind does not use it"));
            }
        }
        Ok(())
    }
}

fn counted(pairs: usize) -> String {
    format!("{pairs} pair{}", if pairs == 1 { "" } else { "s" })
}

fn location(space: u32, index: u32) -> Option<Loc> {
    match space {
        0 => Some(Loc::Stack(index)),
        1 => Some(Loc::Mem(index)),
        2 => Some(Loc::Param(index)),
        _ => None,
    }
}

#[cfg(test)]
mod tests {
    use super::*;

    fn why(words: [u32; 8], table: &[u32]) -> String {
        instruction(&words, table).unwrap_err().to_string()
    }

    #[test]
    fn a_bad_word_is_named() {
        let cases = [
            ([21, 0, 0, 0, 0, 0, 0, 0], "word 0 is 21 and should be a kind, 0 to 20"),
            ([2, 20, 0, 0, 0, 0, 0, 0], "word 1 is 20 and should be an operation, 0 to 19"),
            ([3, 15, 0, 0, 0, 0, 0, 0], "word 1 is 15 and should be an operation, 0 to 14"),
            ([20, 4, 0, 0, 0, 0, 0, 0], "word 1 is 4 and should be an operation, 0 to 3"),
            ([4, 0, 260, 0, 0, 0, 0, 0], "word 2 is 260 and should be a register, 0 to 259"),
            ([17, 0, 7, 2, 0, 0, 0, 0], "word 3 is 2 and should be a flag, 0 or 1"),
            ([11, 256, 0, 0, 0, 0, 0, 0], "word 1 is 256 and should be a number up to 255"),
            (
                [1, 0, 0, 9, 0, 0, 0, 0],
                "word 3 is 9 and should be 0, for this kind does not use it",
            ),
        ];
        for (words, text) in cases {
            assert_eq!(why(words, &[]), text);
        }
        let space = "word 2 is 3 and should be a space: 0 Stack, 1 Mem or 2 Param";
        assert_eq!(why([5, 0, 3, 0, 0, 0, 0, 0], &[]), space);
    }

    #[test]
    fn load_args_must_find_its_pairs() {
        let table = [1, 3, 7, 0];
        let good = instruction(&[10, 0, 1, 0, 1, 0, 0, 0], &table);
        let locs = vec![Loc::Mem(3)];
        assert_eq!(good, Ok(Instruction::LoadArgs { locs, complex: false, ultra: true }));
        assert!(instruction(&[10, 2, 0, 0, 0, 0, 0, 0], &table).is_ok());
        let bad = "word 2 is 2 and should be a count of pairs that are all of space 0 to 2, but \
                   pair 1 is of space 7";
        assert_eq!(why([10, 0, 2, 0, 0, 0, 0, 0], &table), bad);
        let far = "word 2 is 4294967295 and should be a count of pairs that the table has from \
                   pair 1 on; it has 2 pairs";
        assert_eq!(why([10, 1, u32::MAX, 0, 0, 0, 0, 0], &table), far);
        let one = "word 2 is 2 and should be a count of pairs that the table has from pair 0 on; \
                   it has 1 pair";
        assert_eq!(why([10, 0, 2, 0, 0, 0, 0, 0], &table[..2]), one);
        let first = "word 1 is 4294967295 and should be at most 2, for the table has 2 pairs";
        assert_eq!(why([10, u32::MAX, u32::MAX, 0, 0, 0, 0, 0], &table), first);
    }

    /// What the text ends with for naming pairs of a table with these spaces; none if all is well.
    fn blamed(spaces: &[u32], first: usize, count: usize) -> Option<String> {
        let has = spaces.len();
        if first > has {
            return Some(format!("at most {has}, for the table has {has} pairs"));
        }
        if first + count > has {
            return Some(format!("from pair {first} on; it has {has} pairs"));
        }
        let bad = (first..first + count).find(|at| spaces[*at] > 2)?;
        Some(format!("but pair {bad} is of space {}", spaces[bad]))
    }

    #[test]
    fn the_first_bad_pair_of_those_that_are_named_is_told() {
        let spaces = [0, 9, 1, 2, 8, 7];
        let table: Vec<u32> = spaces.iter().flat_map(|space| [*space, 3]).collect();
        for (first, count) in (0..64).map(|at| (at / 8, at % 8)) {
            let read = instruction(&[10, first, count, 0, 0, 0, 0, 0], &table);
            let said = read.err().map_or(String::new(), |bad| bad.to_string());
            let blamed = blamed(&spaces, first as usize, count as usize);
            assert_eq!(said.is_empty(), blamed.is_none());
            assert!(said.ends_with(&blamed.unwrap_or_default()), "{first}, {count}: {said}");
        }
    }
}
