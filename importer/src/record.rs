//! Lists as the C entries take them: records of 8 words, and a table of locations beside them.

use std::fmt;

use crate::instruction::Instruction;

mod decode;
mod encode;

/// How many words a record has.
pub const WORDS: usize = 8;

/// A list in records.
#[derive(Clone, Debug, Default, PartialEq, Eq)]
pub struct Records {
    /// Eight words for each record.
    pub list: Vec<u32>,
    /// The locations that LoadArgs records name, a space and an index each.
    pub table: Vec<u32>,
}

/// A word that has no meaning in its record.
#[derive(Clone, Debug, PartialEq, Eq)]
pub struct BadWord {
    /// Its place in the record; 0 is that of the kind.
    pub at: usize,
    /// The word.
    pub value: u32,
    /// What should stand there.
    pub expected: String,
}

impl Records {
    /// The records of a list, with a table for its LoadArgs. Those of the same locations share
    /// their place in it.
    pub fn new(list: &[Instruction]) -> Records {
        encode::records(list)
    }

    /// How many records there are.
    pub fn len(&self) -> usize {
        self.list.len() / WORDS
    }

    /// Whether there is none.
    pub fn is_empty(&self) -> bool {
        self.len() == 0
    }

    /// The words of a record, which must be there.
    pub fn record(&self, index: usize) -> &[u32] {
        &self.list[index * WORDS..(index + 1) * WORDS]
    }

    /// The instruction that a record stands for; the record must be there.
    pub fn instruction(&self, index: usize) -> Result<Instruction, BadWord> {
        decode::instruction(self.record(index), &self.table)
    }

    /// The instructions of all records; or the index of the first that has no meaning, and why.
    pub fn instructions(&self) -> Result<Vec<Instruction>, (usize, BadWord)> {
        let indexes = 0..self.len();
        indexes.map(|index| self.instruction(index).map_err(|why| (index, why))).collect()
    }
}

impl fmt::Display for BadWord {
    fn fmt(&self, f: &mut fmt::Formatter) -> fmt::Result {
        write!(f, "word {} is {} and should be {}", self.at, self.value, self.expected)
    }
}

impl std::error::Error for BadWord {}
