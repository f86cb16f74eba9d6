//! Text to instructions.

use std::convert::Infallible;
use std::fmt::Display;

use super::settings::{nothing, settings};
use super::tokens::{Result, Tokens};
use super::{Mistakes, ParseError, Parsed};
use crate::ffi::Settings;
use crate::instruction::{ArithOp, BinOp, FusedOp, Instruction, Loc, Reg, UniOp};

/// Reads a list up to its first mistake.
pub fn list(text: &str) -> Result<Parsed> {
    read(text, Err)
}

/// Reads a list to its end, and tells at most so many of its mistakes.
pub fn whole_list(text: &str, most: usize) -> Result<Parsed, Mistakes> {
    let mut mistakes = Mistakes { told: Vec::new(), count: 0 };
    let add = |mistake| -> Result<(), Infallible> {
        mistakes.add(mistake, most);
        Ok(())
    };
    let Ok(parsed) = read(text, add);
    match mistakes.count {
        0 => Ok(parsed),
        _ => Err(mistakes),
    }
}

pub fn one(text: &str) -> Result<Instruction> {
    whole(&mut Tokens::new(text, 1))
}

/// Reads a list. A line with a mistake is left out, unless the mistake is to end the reading.
fn read<E>(
    text: &str,
    mut on_mistake: impl FnMut(ParseError) -> Result<(), E>,
) -> Result<Parsed, E> {
    // Some editors put a mark before the text.
    let text = text.strip_prefix('\u{feff}').unwrap_or(text);
    let lines = text.lines().enumerate().map(|(at, line)| Tokens::new(line, at + 1));
    let mut lines = lines.filter(|line| !line.is_empty());
    let first = lines.next().map_or_else(|| Err(nothing(text)), |mut line| settings(&mut line));
    let mut parsed = Parsed { settings: Settings::default(), list: Vec::new(), lines: Vec::new() };
    match first {
        Ok(settings) => parsed.settings = settings,
        Err(mistake) => on_mistake(mistake)?,
    }
    for mut line in lines {
        match listed(&mut line) {
            Ok(ins) => {
                parsed.list.push(ins);
                parsed.lines.push(line.number());
            }
            Err(mistake) => on_mistake(mistake)?,
        }
    }
    Ok(parsed)
}

/// An instruction of a list.
fn listed(line: &mut Tokens) -> Result<Instruction> {
    match line.peek() {
        "settings" => {
            Err(line.expected("an instruction (the settings stand once, before all instructions)"))
        }
        _ => whole(line),
    }
}

/// An instruction, and nothing after it.
fn whole(line: &mut Tokens) -> Result<Instruction> {
    let ins = instruction(line)?;
    line.end()?;
    Ok(ins)
}

fn instruction(line: &mut Tokens) -> Result<Instruction> {
    match line.peek() {
        "(" => into_pair(line),
        "Stack" | "Mem" | "Param" => into_location(line),
        text if text.starts_with('%') => into_register(line),
        text if text.starts_with(|c: char| c.is_ascii_digit()) => {
            let label = number(line)?;
            line.expect(":")?;
            Ok(Instruction::Label { label })
        }
        _ => keyword(line),
    }
}

fn keyword(line: &mut Tokens) -> Result<Instruction> {
    if line.accept("nop") {
        Ok(Instruction::Nop)
    } else if line.accept("end") {
        Ok(Instruction::End)
    } else if line.accept("goto") {
        Ok(Instruction::Branch { label: number(line)? })
    } else if line.accept("if") {
        let is_else = line.accept("not");
        let cond = register(line)?;
        line.expect("goto")?;
        Ok(Instruction::BranchIf { cond, label: number(line)?, is_else })
    } else if line.accept("call") {
        let label = number(line)?;
        line.expect(";")?;
        Ok(Instruction::Call { label, num_args: counted(line, number)? })
    } else if line.accept("Load") {
        load_args(line)
    } else if line.accept("Save") {
        save_args(line)
    } else {
        Err(line.expected("an instruction"))
    }
}

fn load_args(line: &mut Tokens) -> Result<Instruction> {
    line.expect("Args")?;
    line.expect("[")?;
    let mut locs = Vec::new();
    if !line.accept("]") {
        locs.push(location(line)?);
        while line.accept(",") {
            locs.push(location(line)?);
        }
        line.expect("]")?;
    }
    let (complex, ultra) = flags(line)?;
    Ok(Instruction::LoadArgs { locs, complex, ultra })
}

fn save_args(line: &mut Tokens) -> Result<Instruction> {
    line.expect("Args")?;
    line.expect(";")?;
    let num_args = counted(line, byte)?;
    let (complex, ultra) = flags(line)?;
    Ok(Instruction::SaveArgs { num_args, complex, ultra })
}

/// `n = 2`
fn counted<N>(line: &mut Tokens, number: impl Fn(&mut Tokens) -> Result<N>) -> Result<N> {
    line.expect("n")?;
    line.expect("=")?;
    number(line)
}

/// `; real, false`
fn flags(line: &mut Tokens) -> Result<(bool, bool)> {
    line.expect(";")?;
    let complex = either(line, "real", "complex")?;
    line.expect(",")?;
    Ok((complex, either(line, "false", "true")?))
}

/// Whether the next token is the second of two.
fn either(line: &mut Tokens, no: &str, yes: &str) -> Result<bool> {
    let next = line.peek();
    let meaning = (next == no || next == yes).then_some(next == yes);
    line.read(meaning, &format!("`{no}` or `{yes}`"))
}

fn into_location(line: &mut Tokens) -> Result<Instruction> {
    let loc = location(line)?;
    line.expect(":=")?;
    if line.peek() == "(" {
        let (xs, ys) = pair(line)?;
        return Ok(Instruction::SaveComplex { xs, ys, loc });
    }
    Ok(Instruction::Save { src: register(line)?, loc })
}

fn into_pair(line: &mut Tokens) -> Result<Instruction> {
    let (xd, yd) = pair(line)?;
    line.expect(":=")?;
    if line.peek() != "(" {
        return Ok(Instruction::LoadComplex { xd, yd, loc: location(line)? });
    }
    let (x1, y1) = pair(line)?;
    let op = operation(line, ArithOp::ALL, "one of ")?;
    let (x2, y2) = pair(line)?;
    Ok(Instruction::ComplexBi { op, xd, yd, x1, y1, x2, y2 })
}

fn into_register(line: &mut Tokens) -> Result<Instruction> {
    let dst = register(line)?;
    line.expect(":=")?;
    match line.peek() {
        "Stack" | "Mem" | "Param" => from_location(line, dst),
        "consts" => Ok(Instruction::LoadConst { dst, idx: constant(line)? }),
        "-" => {
            line.take();
            let a = register(line)?;
            line.expect("*")?;
            fused(line, dst, a, [FusedOp::NegMulAdd, FusedOp::NegMulSub])
        }
        text if text.starts_with('%') => from_register(line, dst),
        _ => {
            let op = operation(line, UniOp::ALL, "a register, a location, `consts` or one of ")?;
            line.expect("(")?;
            let s1 = register(line)?;
            line.expect(")")?;
            Ok(Instruction::Uni { op, dst, s1 })
        }
    }
}

fn from_location(line: &mut Tokens, dst: Reg) -> Result<Instruction> {
    let loc = location(line)?;
    if !line.accept("?") {
        return Ok(Instruction::Load { dst, loc });
    }
    let true_val = register(line)?;
    line.expect(":")?;
    Ok(Instruction::IfElse { dst, true_val, false_val: register(line)?, cond: loc })
}

fn from_register(line: &mut Tokens, dst: Reg) -> Result<Instruction> {
    let s1 = register(line)?;
    if line.accept("*") {
        return fused(line, dst, s1, [FusedOp::MulAdd, FusedOp::MulSub]);
    }
    match line.peek() {
        "" => Ok(Instruction::Mov { dst, s1 }),
        _ => with_operand(line, dst, s1),
    }
}

/// After the first register: an operation, and a register, location or constant.
fn with_operand(line: &mut Tokens, dst: Reg, s1: Reg) -> Result<Instruction> {
    let arith = named(line.peek(), ArithOp::ALL);
    let op = operation(line, BinOp::ALL, "one of ")?;
    match (line.peek(), arith) {
        ("Stack" | "Mem" | "Param", Some(op)) => {
            Ok(Instruction::LoadMath { op, dst, s1, loc: location(line)? })
        }
        ("consts", Some(op)) => {
            Ok(Instruction::LoadConstMath { op, dst, s1, idx: constant(line)? })
        }
        _ => Ok(Instruction::Bi { op, dst, s1, s2: register(line)? }),
    }
}

/// The rest of a Fused, with its operation if it adds and if it subtracts.
fn fused(
    line: &mut Tokens,
    dst: Reg,
    a: Reg,
    [adds, subtracts]: [FusedOp; 2],
) -> Result<Instruction> {
    let b = register(line)?;
    let op = if either(line, "+", "-")? { subtracts } else { adds };
    Ok(Instruction::Fused { op, dst, a, b, c: register(line)? })
}

/// `(%0 + %1*im)`
fn pair(line: &mut Tokens) -> Result<(Reg, Reg)> {
    line.expect("(")?;
    let real = register(line)?;
    line.expect("+")?;
    let imaginary = register(line)?;
    line.expect("*")?;
    line.expect("im")?;
    line.expect(")")?;
    Ok((real, imaginary))
}

fn register(line: &mut Tokens) -> Result<Reg> {
    let reg = match line.peek() {
        "%$" => Some(Reg::Ret),
        "%t" => Some(Reg::Temp),
        "%l" => Some(Reg::Left),
        "%r" => Some(Reg::Right),
        text => text.strip_prefix('%').and_then(|text| text.parse().ok()).map(Reg::Gen),
    };
    line.read(reg, "a register (`%0` to `%255`, `%$`, `%t`, `%l` or `%r`)")
}

fn location(line: &mut Tokens) -> Result<Loc> {
    let space = match line.peek() {
        "Stack" => Some(Loc::Stack as fn(u32) -> Loc),
        "Mem" => Some(Loc::Mem as fn(u32) -> Loc),
        "Param" => Some(Loc::Param as fn(u32) -> Loc),
        _ => None,
    };
    let space = line.read(space, "a location (`Stack`, `Mem` or `Param`)")?;
    Ok(space(index(line)?))
}

/// `consts[5]`
fn constant(line: &mut Tokens) -> Result<u32> {
    line.expect("consts")?;
    index(line)
}

/// `[5]`
fn index(line: &mut Tokens) -> Result<u32> {
    line.expect("[")?;
    let index = number(line)?;
    line.expect("]")?;
    Ok(index)
}

pub fn number(line: &mut Tokens) -> Result<u32> {
    line.read(line.peek().parse().ok(), "a number up to 4294967295")
}

fn byte(line: &mut Tokens) -> Result<u8> {
    line.read(line.peek().parse().ok(), "a number up to 255")
}

fn named<T: Copy + Display>(name: &str, all: &[T]) -> Option<T> {
    all.iter().find(|op| op.to_string() == name).copied()
}

/// An operation; `or` says what else could stand there.
fn operation<T: Copy + Display>(line: &mut Tokens, all: &[T], or: &str) -> Result<T> {
    let Some(op) = named(line.peek(), all) else {
        let names: Vec<String> = all.iter().map(T::to_string).collect();
        return Err(line.expected(format!("{or}{}", names.join(", "))));
    };
    line.take();
    Ok(op)
}

#[cfg(test)]
mod tests {
    use super::*;

    fn why(text: &str) -> String {
        let error = one(text).unwrap_err();
        format!("{}: {}", error.column, error.what())
    }

    #[test]
    fn mistakes_are_told_with_their_column() {
        let cases = [
            ("", "1: expected an instruction, found the end of the line"),
            ("noop", "1: expected an instruction, found `noop`"),
            ("nop nop", "5: expected the end of the line, found `nop`"),
            ("%0 = %1", "4: expected `:=`, found `=`"),
            ("%0 := Mem[3", "12: expected `]`, found the end of the line"),
            ("%0 := Mem[4294967296]", "11: expected a number up to 4294967295, found `4294967296`"),
            ("goto x", "6: expected a number up to 4294967295, found `x`"),
            ("7 goto", "3: expected `:`, found `goto`"),
            ("Save Args; n = 256; real, true", "16: expected a number up to 255, found `256`"),
            ("Load Args []; 1, true", "15: expected `real` or `complex`, found `1`"),
            ("%0 := %1 * %2 / %3", "15: expected `+` or `-`, found `/`"),
            (
                "Mem[0] := Mem[1]",
                "11: expected a register (`%0` to `%255`, `%$`, `%t`, `%l` or `%r`), found `Mem`",
            ),
        ];
        for (text, expected) in cases {
            assert_eq!(why(text), expected, "{text}");
        }
    }

    #[test]
    fn mistakes_in_operations_name_them_all() {
        let arith = "30: expected one of Plus, Minus, Times, Divide, found `And`";
        assert_eq!(why("(%0 + %1*im) := (%2 + %3*im) And (%4 + %5*im)"), arith);
        assert!(why("%0 := %1 plus %2").starts_with("10: expected one of Plus, Minus, "));
        assert!(why("%0 := neg(%1)").starts_with("7: expected a register, a location, `consts`"));
        assert!(why("%0 := %1 And Mem[3]").starts_with("14: expected a register"));
        assert!(why("%256 := %1").starts_with("1: expected a register"));
        assert!(why("%x := %1").starts_with("1: expected a register"));
    }

    fn mistakes(text: &str, most: usize) -> Mistakes {
        whole_list(text, most).unwrap_err()
    }

    #[test]
    fn every_line_may_have_a_mistake_and_only_one() {
        let text = "settings count_regs=2 args\nnop nop nop\nend\n# no\n\n%0 = %1 = %2\n7:\nnoop";
        let Mistakes { told, count } = mistakes(text, usize::MAX);
        let places: Vec<(usize, usize)> = told.iter().map(|it| (it.line, it.column)).collect();
        assert_eq!((places, count), (vec![(1, 27), (2, 5), (6, 4), (8, 1)], 4));
        for most in 0..=5 {
            let some = mistakes(text, most);
            assert_eq!((some.told.as_slice(), some.count), (&told[..most.min(4)], 4));
        }
        assert_eq!(list(text), Err(told[0].clone()));
    }

    #[test]
    fn a_text_without_settings_is_read_on() {
        let settings_first = |found: &str| {
            format!(
                "line 1, column 1: expected the settings first, as in `settings count_regs=4 \
                 args=0`, found {found}"
            )
        };
        // The first line is one mistake, whether it is an instruction or not.
        for (first, found) in [("nop", "`nop`"), ("%0 = 1", "`%0`")] {
            let all = mistakes(&format!("{first}\nend\nnoop\n"), 9);
            let noop = "line 3, column 1: expected an instruction, found `noop`";
            assert_eq!(all.to_string(), format!("{}\n{noop}", settings_first(found)));
        }
        let late = mistakes("nop\nsettings count_regs=1\nend\n", 9);
        let once =
            "line 2, column 1: expected an instruction (the settings stand once, before all \
                    instructions), found `settings`";
        assert_eq!(late.to_string(), format!("{}\n{once}", settings_first("`nop`")));
        let again = mistakes("settings count_regs=1\nsettings count_regs=1\n", 9);
        assert_eq!(again.to_string(), once);
    }

    #[test]
    fn what_is_not_told_is_counted() {
        let text = "settings count_regs=1\nfoo\nbar\nbaz\n";
        let foo = "line 2, column 1: expected an instruction, found `foo`";
        assert_eq!(mistakes(text, 1).to_string(), format!("{foo}\nand 2 more"));
        assert_eq!(mistakes(text, 0).to_string(), "3 mistakes");
        assert_eq!(mistakes("", 0).to_string(), "1 mistake");
    }
}
