//! Reducing a list of instructions.

use crate::ffi::{optimize, Answer, Buffers, Counts, Refusal, Settings};
use crate::instruction::Instruction;
use crate::outcome::{outcomes, Outcome};
use crate::pressure::{self, Stretch};
use crate::record::{Records, WORDS};

/// What is left of a list, and what became of each of its instructions.
#[derive(Clone, Debug, PartialEq, Eq)]
pub struct Reduced {
    /// The shortened list.
    pub list: Vec<Instruction>,
    /// How many instructions are left, how many of each sort were dropped, and how full the registers
    /// got.
    pub counts: Counts,
    /// What became of each instruction of the given list, in order.
    pub outcomes: Vec<Outcome>,
    /// How long each value that is written to a general register is needed, in the order of writing.
    pub stretches: Vec<Stretch>,
}

impl Reduced {
    /// How many registers are needed past each instruction of the given list.
    pub fn needed(&self) -> Vec<u32> {
        pressure::needed(&self.stretches, self.outcomes.len())
    }
}

/// Shortens a list, or says why it can't be.
///
/// Lists of up to 65,536 instructions are taken, with up to 32,768 different locations in their
/// LoadArgs.
pub fn reduce(list: &[Instruction], settings: &Settings) -> Result<Reduced, Refusal> {
    // Of the two entries this is the one for words: the other takes a file of at most 512 records,
    // and gives neither counts nor the colours and the read set that the outcomes follow from.
    let Records { list: words, table } = Records::new(list);
    let mut buffers = Buffers::new(words.len(), table.len());
    match optimize(&words, &table, *settings, buffers.lend()) {
        Answer::Refused(refusal) => Err(refusal),
        Answer::Reduced(counts) => Ok(Reduced {
            outcomes: outcomes(list, settings, &counts, &buffers),
            stretches: pressure::stretches(list, &buffers.colours, &buffers.ends),
            list: left(buffers.out, counts.records, table),
            counts,
        }),
    }
}

/// The instructions that the output starts with.
fn left(mut out: Vec<u32>, records: u32, table: Vec<u32>) -> Vec<Instruction> {
    out.truncate(records as usize * WORDS);
    let left = Records { list: out, table }.instructions();
    left.expect("the records that are left have the meaning of those that were given")
}
