//! Which registers a list uses, and where its labels are.

use std::collections::BTreeMap;

use crate::ffi::{self, Refusal, Settings};
use crate::instruction::{Instruction, Reg};
use crate::record::Records;

/// Which registers a list uses, and where its labels are.
#[derive(Clone, Debug, PartialEq, Eq)]
pub struct Survey {
    /// The general registers that are used, in ascending order.
    pub registers: Vec<Reg>,
    /// How many they are.
    pub count: u32,
    /// Every number that a Label, Branch or BranchIf names, in ascending order.
    pub labels: Vec<Label>,
}

/// The number of a label, and where it is.
#[derive(Clone, Copy, Debug, PartialEq, Eq)]
pub struct Label {
    /// The number.
    pub number: u32,
    /// Where the Labels with the number are.
    pub place: Place,
}

/// Where a list has a label.
#[derive(Clone, Copy, Debug, PartialEq, Eq)]
pub enum Place {
    /// Labels have the number.
    At {
        /// The index of the last one.
        last: usize,
        /// How many there are.
        times: usize,
    },
    /// No Label has the number.
    Absent {
        /// The index of the first record that jumps to it.
        jump: usize,
    },
}

/// Surveys a list, or says why it can't be.
///
/// A register is used if a record writes it or branches on it; but a record that writes two counts
/// only if both are general. With the setting `compress` all 64 are used.
///
/// Questions 1, 3 and 5 to 7 are put, so that a list that may not be reduced may be surveyed all
/// the same. The number of a Call is no label here.
///
/// Each place comes from a call of the proved operation, and so from a walk over the list: the time
/// grows with the numbers as it does with the records. For one label, [`ffi::survey`] walks once.
///
/// ```
/// use rudzaviks::mir::{branch, branch_if, load_mem, reg, save_mem, set_label};
/// use rudzaviks::record::Records;
/// use rudzaviks::{survey, Label, Place, Settings};
///
/// let list = [
///     load_mem(reg(2), 0),
///     branch_if(reg(2), 7, false),
///     set_label(7),
///     save_mem(reg(1), 0), // reads what nothing has written: question 9 is not put
///     set_label(7),
///     branch(8),
/// ];
/// let settings = Settings { count_regs: 3, ..Settings::default() };
///
/// let survey = survey(&Records::new(&list), &settings)?;
/// assert_eq!((survey.registers, survey.count), (vec![reg(2)], 1));
/// let seven = Label { number: 7, place: Place::At { last: 4, times: 2 } };
/// let eight = Label { number: 8, place: Place::Absent { jump: 5 } };
/// assert_eq!(survey.labels, [seven, eight]);
/// # Ok::<(), rudzaviks::Refusal>(())
/// ```
pub fn survey(records: &Records, settings: &Settings) -> Result<Survey, Refusal> {
    let Records { list, table } = records;
    let ask = |label| ffi::survey(list, table, settings.count_regs, settings.compress, label);
    let mentions = mentions(records);
    let answers: Vec<ffi::Survey> =
        mentions.keys().map(|number| ask(*number)).collect::<Result<_, _>>()?;
    // Every answer has the same registers; where no number is mentioned, any will do.
    let ffi::Survey { mask, count, .. } = match answers.first() {
        Some(answer) => *answer,
        None => ask(0)?,
    };
    let labels = mentions
        .into_iter()
        .zip(answers)
        .map(|((number, mentions), answer)| Label { number, place: mentions.place(answer.place) });
    Ok(Survey { registers: registers(mask), count, labels: labels.collect() })
}

/// The registers of a mask.
fn registers(mask: u64) -> Vec<Reg> {
    (0..64).filter(|number| mask >> number & 1 == 1).map(Reg::Gen).collect()
}

/// What the records say of a number, beside the place that the entry gives.
#[derive(Debug, Default)]
struct Mentions {
    /// How many Labels have it.
    labels: usize,
    /// The first record that jumps to it.
    jump: Option<usize>,
}

impl Mentions {
    fn place(&self, place: ffi::Place) -> Place {
        match place {
            ffi::Place::At(index) => Place::At { last: index as usize, times: self.labels },
            ffi::Place::Absent => {
                Place::Absent { jump: self.jump.expect("what no Label has, a jump mentions") }
            }
        }
    }
}

/// The numbers that labels and jumps mention. A record without a meaning, which the entry refuses,
/// mentions none.
fn mentions(records: &Records) -> BTreeMap<u32, Mentions> {
    let mut mentions = BTreeMap::<u32, Mentions>::new();
    for index in 0..records.len() {
        match records.instruction(index) {
            Ok(Instruction::Label { label }) => mentions.entry(label).or_default().labels += 1,
            Ok(Instruction::Branch { label } | Instruction::BranchIf { label, .. }) => {
                mentions.entry(label).or_default().jump.get_or_insert(index);
            }
            _ => {}
        }
    }
    mentions
}

#[cfg(test)]
mod tests {
    use super::*;
    use crate::mir::{branch, branch_if, call, load_mem, load_mem_complex, nop, reg, set_label};

    fn surveyed(list: &[Instruction], settings: Settings) -> Survey {
        survey(&Records::new(list), &settings).expect("a list that passes")
    }

    #[test]
    fn masks_have_their_registers() {
        assert_eq!(registers(0), []);
        assert_eq!(registers(1 << 31 | 0b101), [reg(0), reg(2), reg(31)]);
        assert_eq!(registers(1 << 63 | 1 << 32), [reg(32), reg(63)]);
        assert_eq!(registers(u64::MAX).len(), 64);
    }

    #[test]
    fn written_registers_and_conditions_are_used() {
        let settings = Settings { count_regs: 9, ..Settings::default() };
        let list = [
            load_mem(reg(8), 0),
            load_mem(Reg::Temp, 0),
            branch_if(reg(1), 7, true),
            branch_if(Reg::Ret, 7, true),
            load_mem_complex(reg(4), reg(3), 0),
            load_mem_complex(reg(5), Reg::Left, 0),
        ];
        let Survey { registers, count, .. } = surveyed(&list, settings);
        assert_eq!((registers, count), (vec![reg(1), reg(3), reg(4), reg(8)], 4));
        let compressed = surveyed(&list, Settings { compress: true, ..settings });
        assert_eq!(compressed.registers, (0..64).map(reg).collect::<Vec<_>>());
        assert_eq!(compressed.count, 64);
    }

    #[test]
    fn every_number_has_its_place() {
        let list = [branch(9), set_label(3), branch(9), set_label(5), set_label(3), call(6, 0)];
        let labels = surveyed(&list, Settings::default()).labels;
        let expected = [
            Label { number: 3, place: Place::At { last: 4, times: 2 } },
            Label { number: 5, place: Place::At { last: 3, times: 1 } },
            Label { number: 9, place: Place::Absent { jump: 0 } },
        ];
        assert_eq!(labels, expected);
    }

    #[test]
    fn a_list_may_have_nothing_to_tell() {
        let nothing = Survey { registers: Vec::new(), count: 0, labels: Vec::new() };
        for list in [&[][..], &[nop()]] {
            assert_eq!(surveyed(list, Settings::default()), nothing);
        }
    }

    #[test]
    fn a_refusal_is_given_with_labels_and_without() {
        let settings = Settings { count_regs: 2, ..Settings::default() };
        let bad = load_mem(reg(2), 0);
        for (list, index) in [(vec![bad.clone()], 0), (vec![set_label(1), branch(2), bad], 2)] {
            let answer = survey(&Records::new(&list), &settings);
            assert_eq!(answer, Err(Refusal { number: 7, index }));
        }
        let too_many = Settings { count_regs: 65, ..settings };
        assert_eq!(survey(&Records::default(), &too_many), Err(Refusal { number: 1, index: 0 }));
    }
}
