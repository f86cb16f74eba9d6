//! How full the registers get.
//!
//! A value that an instruction writes to a general register is in a register of the shortened list
//! from there to the last instruction that reads it: its [`Stretch`]. Past an instruction a register
//! is needed if a value that is in it by then will still be read. What happens to be left in a
//! register, and is found again later, is not needed in between.
//!
//! ```
//! use rudzaviks::mir::{load_mem, plus, reg, save_mem};
//! use rudzaviks::pressure::{needed, Stretch};
//! use rudzaviks::{reduce, Settings};
//!
//! let list = [
//!     load_mem(reg(0), 0),
//!     load_mem(reg(1), 1),
//!     plus(reg(0), reg(0), reg(1)),
//!     save_mem(reg(0), 2),
//! ];
//! let settings = Settings { count_regs: 3, ..Settings::default() };
//!
//! let reduced = reduce(&list, &settings)?;
//! let sum = Stretch { register: 2, written: 2, until: 3 };
//! assert_eq!(reduced.stretches[2], sum);
//! assert_eq!(needed(&reduced.stretches, list.len()), [1, 2, 1, 0]);
//! assert_eq!(reduced.counts.fullest, 2);
//! # Ok::<(), rudzaviks::Refusal>(())
//! ```

use std::iter;

use crate::instruction::{Instruction, Reg};

/// How many numbers of registers there may be.
const NUMBERS: usize = 1 << u8::BITS;

/// How long a value that is written to a general register is needed.
#[derive(Clone, Copy, Debug, PartialEq, Eq)]
pub struct Stretch {
    /// The number of the register of the shortened list that it is in.
    pub register: u8,
    /// The index, in the given list, of the instruction that writes it.
    pub written: usize,
    /// The index of the last one that reads it, or of a Branch before that, behind which nothing runs
    /// up to the next Label; if none reads it, that of the one that writes it.
    pub until: usize,
}

impl Stretch {
    /// Whether an instruction reads the value.
    pub fn is_read(self) -> bool {
        self.written < self.until
    }

    /// Whether the register is needed for this value past the instruction of that index.
    pub fn is_needed_past(self, index: usize) -> bool {
        self.written <= index && index < self.until
    }
}

/// How many registers are needed past each of so many instructions.
///
/// The stretches are in the order of their writing, as [`Reduced`](crate::Reduced) has them, and
/// end within the list. A register that is needed for several values counts once.
pub fn needed(stretches: &[Stretch], instructions: usize) -> Vec<u32> {
    let (mut begun, mut ended) = (vec![0; instructions], vec![0; instructions]);
    // Where each register is needed no longer for what it was given so far. A value that comes
    // before that adds only what goes beyond it.
    let mut covered = [0; NUMBERS];
    for stretch in stretches {
        let covered = &mut covered[usize::from(stretch.register)];
        let from = stretch.written.max(*covered);
        if from < stretch.until {
            begun[from] += 1;
            ended[stretch.until] += 1;
            *covered = stretch.until;
        }
    }
    let changes = iter::zip(begun, ended);
    let running = changes.scan(0, |needed, (begun, ended)| {
        *needed = *needed + begun - ended;
        Some(*needed)
    });
    running.collect()
}

/// The stretches of a list that was reduced, from the colour and the end of each general register
/// that it writes.
pub(crate) fn stretches(list: &[Instruction], colours: &[u32], ends: &[u32]) -> Vec<Stretch> {
    let writes = list.iter().enumerate().flat_map(|(index, ins)| {
        let general = ins.destinations().into_iter().filter(|dst| matches!(dst, Reg::Gen(_)));
        general.map(move |_| index)
    });
    let branches = branches_from(list);
    let values = iter::zip(writes, iter::zip(colours, ends));
    let stretch = |(written, (colour, end)): (usize, (&u32, &u32))| Stretch {
        register: *colour as u8,
        written,
        until: branches[written].min(*end as usize),
    };
    values.map(stretch).collect()
}

/// For each instruction the index of the first Branch from it on, or the list's length.
fn branches_from(list: &[Instruction]) -> Vec<usize> {
    let mut next = list.len();
    let mut branches = vec![next; list.len()];
    for (index, ins) in list.iter().enumerate().rev() {
        if matches!(ins, Instruction::Branch { .. }) {
            next = index;
        }
        branches[index] = next;
    }
    branches
}

#[cfg(test)]
mod tests {
    use super::*;
    use crate::ffi::Settings;
    use crate::mir::*;
    use crate::reduce;

    /// The stretches of a list for so many registers.
    fn stretches_of(list: &[Instruction], count_regs: u32) -> Vec<(u8, usize, usize)> {
        let reduced = reduce(list, &Settings { count_regs, ..Settings::default() });
        let stretches = reduced.expect("a list that passes").stretches;
        stretches.iter().map(|it| (it.register, it.written, it.until)).collect()
    }

    fn needed_by(list: &[Instruction], count_regs: u32) -> Vec<u32> {
        let reduced = reduce(list, &Settings { count_regs, ..Settings::default() });
        let reduced = reduced.expect("a list that passes");
        assert_eq!(reduced.counts.fullest, reduced.needed().into_iter().max().unwrap_or(0));
        reduced.needed()
    }

    #[test]
    fn what_nobody_reads_is_not_needed() {
        let list = [load_mem(reg(0), 0), load_mem(reg(1), 1), save_mem(reg(1), 2)];
        assert_eq!(stretches_of(&list, 2), [(0, 0, 0), (1, 1, 2)]);
        assert_eq!(needed_by(&list, 2), [0, 1, 0]);
        assert!(!Stretch { register: 0, written: 0, until: 0 }.is_read());
    }

    #[test]
    fn values_that_are_read_later_are_needed_at_once() {
        let list = [
            load_mem(reg(0), 0),
            load_mem(reg(1), 1),
            save_mem(reg(0), 2),
            save_mem(reg(1), 3),
            end(),
        ];
        assert_eq!(stretches_of(&list, 2), [(0, 0, 2), (1, 1, 3)]);
        assert_eq!(needed_by(&list, 2), [1, 2, 1, 0, 0]);
    }

    #[test]
    fn a_register_that_holds_two_values_counts_once() {
        let list = [
            load_mem(reg(0), 5),
            load_mem(reg(1), 5), // found in register 0, which is read until index 2
            save_mem(reg(0), 6),
            save_mem(reg(1), 7),
        ];
        assert_eq!(stretches_of(&list, 2), [(0, 0, 2), (0, 1, 3)]);
        assert_eq!(needed_by(&list, 2), [1, 1, 1, 0]);
    }

    #[test]
    fn what_is_found_again_is_not_needed_in_between() {
        let list = [
            load_mem(reg(0), 5),
            save_mem(reg(0), 6),
            nop(),
            load_mem(reg(0), 6),
            save_mem(reg(0), 7),
        ];
        assert_eq!(stretches_of(&list, 2), [(0, 0, 1), (0, 3, 4)]);
        assert_eq!(needed_by(&list, 2), [1, 0, 0, 1, 0]);
    }

    #[test]
    fn behind_a_branch_nothing_from_before_it_is_needed() {
        let list = [
            load_mem(reg(0), 0), // stays in register 0, which is free, so the next take 1 and 2
            load_mem(reg(1), 1),
            load_mem(reg(2), 2),
            branch(7),
            load_const(reg(0), 0),
            plus(reg(0), reg(0), reg(1)),
            plus(reg(0), reg(0), reg(2)),
            save_mem(reg(0), 3),
            set_label(7),
        ];
        let written = [(0, 0, 0), (1, 1, 3), (2, 2, 3), (0, 4, 5), (0, 5, 6), (0, 6, 7)];
        assert_eq!(stretches_of(&list, 3), written);
        assert_eq!(needed_by(&list, 3), [0, 1, 2, 0, 1, 1, 1, 0, 0]);
    }

    #[test]
    fn both_halves_of_a_complex_value_are_needed() {
        let list = [load_mem_complex(reg(0), reg(1), 0), save_mem(reg(1), 2), save_mem(reg(0), 3)];
        assert_eq!(stretches_of(&list, 2), [(0, 0, 2), (1, 0, 1)]);
        assert_eq!(needed_by(&list, 2), [2, 1, 0]);
        let named = [load_mem_complex(Reg::Temp, reg(1), 0), save_mem(reg(1), 2)];
        assert_eq!(stretches_of(&named, 2), [(0, 0, 1)]);
    }

    #[test]
    fn a_value_may_take_the_register_of_its_source() {
        let list = [load_mem(reg(0), 0), neg(reg(0), reg(0)), save_mem(reg(0), 1)];
        assert_eq!(stretches_of(&list, 1), [(0, 0, 1), (0, 1, 2)]);
        assert_eq!(needed_by(&list, 1), [1, 1, 0]);
    }

    #[test]
    fn a_list_may_need_no_registers() {
        assert_eq!(needed_by(&[], 0), []);
        assert_eq!(needed_by(&[], 64), []);
        let list = [load_mem(Reg::Ret, 0), nop(), save_mem(Reg::Ret, 1)];
        assert_eq!(stretches_of(&list, 0), []);
        assert_eq!(needed_by(&list, 0), [0, 0, 0]);
    }

    #[test]
    fn every_register_may_be_needed() {
        let loads = (0..64).map(|number| load_mem(reg(number), u32::from(number)));
        let saves = (0..64).map(|number| save_mem(reg(number), 64));
        let list: Vec<Instruction> = loads.chain(saves).collect();
        let expected: Vec<u32> = (1..=64).chain((0..64).rev()).collect();
        assert_eq!(needed_by(&list, 64), expected);
    }

    /// Made-up stretches in the order of their writing, many of which share a register.
    fn made_up(instructions: usize, mut seed: u32) -> Vec<Stretch> {
        let mut below = |bound: usize| {
            seed = seed.wrapping_mul(1_664_525).wrapping_add(1_013_904_223);
            (seed >> 16) as usize % bound
        };
        let mut one = |written| Stretch {
            register: below(5) as u8,
            written,
            until: written + below((instructions - written).min(12)),
        };
        (0..instructions).flat_map(|written| [one(written), one(written)]).collect()
    }

    /// The number is the one that the definition gives, which asks every register for every
    /// instruction.
    #[test]
    fn as_many_are_needed_as_the_definition_says() {
        for seed in 0..200 {
            let instructions = 1 + seed % 40;
            let stretches = made_up(instructions, seed as u32);
            let by_definition = (0..instructions).map(|index| {
                let needed = |number: &u8| {
                    let mut of_number = stretches.iter().filter(|it| it.register == *number);
                    of_number.any(|it| it.is_needed_past(index))
                };
                (0..5).filter(needed).count() as u32
            });
            assert_eq!(needed(&stretches, instructions), by_definition.collect::<Vec<_>>());
        }
    }

    #[test]
    fn the_longest_list_has_its_numbers() {
        let list: Vec<Instruction> = (0..65_536).map(|_| load_mem(reg(0), 0)).collect();
        assert_eq!(needed_by(&list, 1), vec![0; 65_536]);
    }
}
