#![doc = include_str!("text/form.md")]
//!
//! ```
//! use rudzaviks::text;
//!
//! let parsed = text::parse("settings count_regs=2\n%0 := Mem[3]\n%1 := %0 Plus %0\n")?;
//! assert_eq!(parsed.list.len(), 2);
//! assert_eq!(parsed.list[1].to_string(), "%1 := %0 Plus %0");
//!
//! let mistake = text::parse("settings count_regs=2\n%0 := Mem 3\n").unwrap_err();
//! assert_eq!(mistake.to_string(), "line 2, column 11: expected `[`, found `3`");
//!
//! let text = "settings count_regs=2\n%0 := Mem 3\nend\nfoo\nbar\n";
//! let mistakes = text::parse_all(text, 2).unwrap_err();
//! let lines: Vec<usize> = mistakes.told.iter().map(|mistake| mistake.line).collect();
//! assert_eq!((lines, mistakes.count), (vec![2, 4], 3));
//! # Ok::<(), text::ParseError>(())
//! ```

use std::fmt::Write;
use std::str::FromStr;

use crate::ffi::Settings;
use crate::instruction::Instruction;

mod mistake;
mod parse;
mod print;
mod printable;
mod settings;
mod tokens;

pub use mistake::{Mistakes, ParseError};
pub use printable::printable;

/// This description of the text form.
pub const FORM: &str = include_str!("text/form.md");

/// What a text says.
#[derive(Clone, Debug, PartialEq, Eq)]
pub struct Parsed {
    /// The settings of the list.
    pub settings: Settings,
    /// The instructions, in order.
    pub list: Vec<Instruction>,
    /// The line of each instruction, from 1 on.
    pub lines: Vec<usize>,
}

/// Reads the text of a list, up to its first mistake.
pub fn parse(text: &str) -> Result<Parsed, ParseError> {
    parse::list(text)
}

/// Reads the text of a list to its end; if it has mistakes, tells the first of them, at most so
/// many, and counts them all.
pub fn parse_all(text: &str, most: usize) -> Result<Parsed, Mistakes> {
    parse::whole_list(text, most)
}

/// The text of a list.
pub fn print(list: &[Instruction], settings: &Settings) -> String {
    let mut text = format!("{settings}\n");
    for ins in list {
        writeln!(text, "{ins}").expect("a string takes any text");
    }
    text
}

impl FromStr for Instruction {
    type Err = ParseError;

    /// Reads the text of one instruction.
    fn from_str(text: &str) -> Result<Instruction, ParseError> {
        parse::one(text)
    }
}

#[cfg(test)]
mod tests {
    use super::*;
    use crate::instruction::{ArithOp, BinOp, UniOp};

    /// The operations of a kind, as the description names them.
    fn named(kind: &str) -> Vec<&'static str> {
        let (_, operations) = FORM.split_once("\nThe operations").expect("they are named");
        let (_, rest) = operations.split_once(&format!("\n{kind} ")).expect("a line of the kind");
        let end = rest.find(";").into_iter().chain(rest.find("\n```"));
        let end = end.chain(rest.match_indices('\n').find_map(|(at, _)| {
            let goes_on = rest[at + 1..].starts_with(' ');
            (!goes_on).then_some(at)
        }));
        let names = &rest[..end.min().expect("an end")];
        names.split([',', ' ', '\n']).filter(|name| !name.is_empty()).collect()
    }

    fn texts<T: ToString>(all: &[T]) -> Vec<String> {
        all.iter().map(T::to_string).collect()
    }

    #[test]
    fn every_operation_is_described_in_the_order_of_its_number() {
        assert_eq!(named("Uni"), texts(UniOp::ALL));
        assert_eq!(named("Bi"), texts(BinOp::ALL));
        assert_eq!(named("LoadMath"), texts(ArithOp::ALL));
    }
}
