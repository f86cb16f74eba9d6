//! Why a list is refused.

use std::error::Error;
use std::fmt;

/// The question that was answered no, and the index of the record that it was put to.
#[derive(Clone, Copy, Debug, PartialEq, Eq)]
pub struct Refusal {
    /// The question's number: 1 to 9, 15 or 16.
    pub number: u32,
    /// The record's index, from 0 on; 0 for questions 1 to 4, which are about the whole list.
    pub index: u32,
}

impl Refusal {
    /// What is wrong, in words.
    pub fn reason(self) -> &'static str {
        match self.number {
            1 => "count_regs is above 64",
            2 => "args is above 65,535",
            3 => "the list or its table of locations is too long, or of a wrong length",
            4 => "an output has too little room",
            5 => "it is of no known kind",
            6 => "one of its fields is out of range",
            7 => "it names a general register that is not below count_regs",
            8 => "its location is the last of its space and so has no imaginary partner",
            9 => {
                "it reads a general register not written since the start or the last label or call"
            }
            15 => "it reads a general register not written since the last conditional branch",
            16 => "no label has the number that it jumps to",
            _ => "there is no such question",
        }
    }
}

impl fmt::Display for Refusal {
    fn fmt(&self, f: &mut fmt::Formatter) -> fmt::Result {
        write!(f, "refused by question {}", self.number)?;
        if self.number > 4 {
            write!(f, " at record {}", self.index)?;
        }
        write!(f, ": {}", self.reason())
    }
}

impl Error for Refusal {}

#[cfg(test)]
mod tests {
    use super::*;

    #[test]
    fn a_refusal_says_which_question_and_where() {
        let whole = Refusal { number: 1, index: 0 };
        assert_eq!(whole.to_string(), "refused by question 1: count_regs is above 64");
        let record = Refusal { number: 5, index: 12 };
        assert_eq!(
            record.to_string(),
            "refused by question 5 at record 12: it is of no known kind"
        );
    }

    #[test]
    fn each_question_has_words_of_its_own() {
        let numbers = (0..=9).chain([15, 16]);
        let mut reasons: Vec<&str> =
            numbers.map(|number| Refusal { number, index: 0 }.reason()).collect();
        reasons.sort_unstable();
        reasons.dedup();
        assert_eq!(reasons.len(), 12);
    }
}
