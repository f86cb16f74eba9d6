//! The plain machine of docs/SPECIFICATION.md, section 5, for lists of all kinds but LoadArgs,
//! SaveArgs and Call. A seed stands for the state that a run starts from, for what the operations
//! give, and for which words make a BranchIf jump. Of the words that it makes up one in four is 0 or
//! minus zero; the others are hardly ever alike by chance.

use std::collections::{HashMap, HashSet};

use rudzaviks::{Instruction, Loc, Reg};

pub const MINUS_ZERO: u64 = 0x8000_0000_0000_0000;

/// Where the second half of a complex value is.
fn partner(loc: Loc) -> Loc {
    loc.imag().expect("question 8 asks for a partner")
}

/// The test of IfElse.
fn is_true(word: u64) -> bool {
    word != 0 && word != MINUS_ZERO
}

/// Runs instructions without jumps on a machine, and gives it back.
pub fn run(code: &[Instruction], machine: Machine) -> Machine {
    run_within(code, machine, code.len() as u64).expect("a run without jumps ends").machine
}

/// A run that has come to its end.
pub struct Ended {
    pub machine: Machine,
    /// How many instructions were run, each time anew.
    pub steps: u64,
    /// How many jumps went back.
    pub backward: u64,
}

/// Runs instructions on a machine until End is met or the last one is passed; none if that takes
/// more steps than the budget. A jump goes to the last Label with its number.
pub fn run_within(code: &[Instruction], mut machine: Machine, budget: u64) -> Option<Ended> {
    let labels = code.iter().enumerate().filter_map(|(at, ins)| match ins {
        Instruction::Label { label } => Some((*label, at)),
        _ => None,
    });
    let places: HashMap<u32, usize> = labels.collect();
    let (mut at, mut steps, mut backward) = (0, 0, 0);
    while at < code.len() && !machine.is_over() {
        if steps == budget {
            return None;
        }
        steps += 1;
        let next = match machine.jump(&code[at]) {
            Some(label) => *places.get(&label).expect("question 16 asks for a Label"),
            None => at + 1,
        };
        backward += u64::from(next < at);
        machine.run(&code[at]);
        at = next;
    }
    Some(Ended { machine, steps, backward })
}

#[derive(Default)]
pub struct Machine {
    seed: u64,
    regs: HashMap<Reg, u64>,
    cells: HashMap<Loc, u64>,
    over: bool,
    /// Which words make a BranchIf jump, where the seed does not tell.
    jumps: Option<fn(u64, bool) -> bool>,
}

impl Machine {
    pub fn new(seed: u64) -> Machine {
        Machine { seed, ..Machine::default() }
    }

    /// The same, but with BranchIf jumping by this test of the condition's word and `is_else`.
    pub fn jumping(seed: u64, jumps: fn(u64, bool) -> bool) -> Machine {
        Machine { jumps: Some(jumps), ..Machine::new(seed) }
    }

    /// A word made of a text and words.
    fn word(&self, text: impl ToString, words: &[u64]) -> u64 {
        let text = text.to_string();
        let parts = text.bytes().map(u64::from).chain(words.iter().copied());
        let hash = parts.fold(self.seed ^ 0xcbf2_9ce4_8422_2325, |hash: u64, part| {
            (hash ^ part).wrapping_mul(0x9e37_79b9_7f4a_7c15).rotate_left(31)
        });
        match hash % 8 {
            0 => 0,
            1 => MINUS_ZERO,
            _ => hash,
        }
    }

    pub fn reg(&self, reg: Reg) -> u64 {
        self.regs.get(&reg).copied().unwrap_or_else(|| self.word(reg, &[]))
    }

    pub fn cell(&self, loc: Loc) -> u64 {
        self.cells.get(&loc).copied().unwrap_or_else(|| self.word(loc, &[]))
    }

    pub fn set_cell(&mut self, loc: Loc, word: u64) {
        self.cells.insert(loc, word);
    }

    /// The run has met End.
    pub fn is_over(&self) -> bool {
        self.over
    }

    fn op(&self, op: impl ToString, sources: &[Reg]) -> u64 {
        let words: Vec<u64> = sources.iter().map(|reg| self.reg(*reg)).collect();
        self.word(op, &words)
    }

    /// The label that an instruction jumps to from this state.
    fn jump(&self, ins: &Instruction) -> Option<u32> {
        match *ins {
            Instruction::Branch { label } => Some(label),
            Instruction::BranchIf { cond, label, is_else } => {
                let word = self.reg(cond);
                let by_seed = || self.word("jump", &[word, u64::from(is_else)]) >> 20 & 1 == 1;
                let jumps = self.jumps.map_or_else(by_seed, |jumps| jumps(word, is_else));
                jumps.then_some(label)
            }
            _ => None,
        }
    }

    /// Runs one instruction, unless the run is over. Of two words x's is written first. Where a jump
    /// goes is `run_within`'s to see.
    pub fn run(&mut self, ins: &Instruction) {
        if self.over {
            return;
        }
        match *ins {
            Instruction::LoadComplex { xd, yd, loc } => {
                self.regs.insert(xd, self.cell(loc));
                self.regs.insert(yd, self.cell(partner(loc)));
            }
            Instruction::SaveComplex { xs, ys, loc } => {
                self.set_cell(loc, self.reg(xs));
                self.set_cell(partner(loc), self.reg(ys));
            }
            Instruction::ComplexBi { op, xd, yd, x1, y1, x2, y2 } => {
                let half = |half: &str| self.op(format!("{op} {half}"), &[x1, y1, x2, y2]);
                let [x, y] = ["x", "y"].map(half);
                self.regs.insert(xd, x);
                self.regs.insert(yd, y);
            }
            _ => self.run_scalar(ins),
        }
    }

    /// Runs an instruction that writes at most one register or cell.
    fn run_scalar(&mut self, ins: &Instruction) {
        let constant = |idx: u32| self.word("consts", &[u64::from(idx)]);
        let (dst, value) = match *ins {
            Instruction::Nop | Instruction::Label { .. } => return,
            Instruction::Branch { .. } | Instruction::BranchIf { .. } => return,
            Instruction::End => return self.over = true,
            Instruction::Save { src, loc } => return self.set_cell(loc, self.reg(src)),
            Instruction::Uni { op, dst, s1 } => (dst, self.op(op, &[s1])),
            Instruction::Bi { op, dst, s1, s2 } => (dst, self.op(op, &[s1, s2])),
            Instruction::Mov { dst, s1 } => (dst, self.reg(s1)),
            Instruction::Load { dst, loc } => (dst, self.cell(loc)),
            Instruction::LoadConst { dst, idx } => (dst, constant(idx)),
            Instruction::Fused { op, dst, a, b, c } => (dst, self.op(op, &[a, b, c])),
            Instruction::IfElse { dst, true_val, false_val, cond } => {
                (dst, self.reg(if is_true(self.cell(cond)) { true_val } else { false_val }))
            }
            Instruction::LoadMath { op, dst, s1, loc } => {
                (dst, self.word(op, &[self.reg(s1), self.cell(loc)]))
            }
            Instruction::LoadConstMath { op, dst, s1, idx } => {
                (dst, self.word(op, &[self.reg(s1), constant(idx)]))
            }
            _ => panic!("{ins} is not of a list that the machine runs"),
        };
        self.regs.insert(dst, value);
    }

    /// Where two machines of one seed differ in what demand 3 is about: the named registers, Mem,
    /// Param, and Stack below the mark.
    pub fn difference(&self, other: &Machine, fixed_mark: u64) -> Option<String> {
        let named = [Reg::Ret, Reg::Temp, Reg::Left, Reg::Right];
        if let Some(reg) = named.into_iter().find(|reg| self.reg(*reg) != other.reg(*reg)) {
            return Some(reg.to_string());
        }
        let written: HashSet<Loc> = self.cells.keys().chain(other.cells.keys()).copied().collect();
        let looked_at = |loc: &Loc| match *loc {
            Loc::Stack(index) => u64::from(index) < fixed_mark,
            Loc::Mem(_) | Loc::Param(_) => true,
        };
        let differs = |loc: &Loc| looked_at(loc) && self.cell(*loc) != other.cell(*loc);
        written.into_iter().find(differs).map(|loc| loc.to_string())
    }
}
