//! What became of each instruction, and why.

use std::collections::HashSet;
use std::fmt;
use std::slice;

use crate::ffi::{Buffers, Counts, Settings};
use crate::instruction::{Instruction, Loc, Reg};

/// The most general registers that a list may have, by question 1, and so the most colours.
const MOST_REGS: usize = 64;

/// What became of an instruction.
#[derive(Clone, Copy, Debug, PartialEq, Eq)]
pub enum Outcome {
    /// It is left, at this index of the shortened list.
    Kept(usize),
    /// It is not.
    Dropped(Reason),
}

/// Why an instruction was dropped. Registers are those of the shortened list.
#[derive(Clone, Copy, Debug, PartialEq, Eq)]
pub enum Reason {
    /// A Nop does nothing.
    Nothing,
    /// A load of what is in a register already.
    Held(Held),
    /// A load of a complex value, both halves of which are in registers already.
    BothHeld(Held, Held),
    /// A move from a register to itself.
    OntoItself(Reg),
    /// A save that no instruction left reads, at or above the fixed mark.
    Unread(Loc),
    /// A save of a complex value there, of which no instruction left reads either half.
    NeitherRead(Loc, Loc),
}

/// A location whose value is in a register.
#[derive(Clone, Copy, Debug, PartialEq, Eq)]
pub struct Held {
    /// Where the value comes from.
    pub loc: Loc,
    /// Where it is.
    pub reg: Reg,
}

impl fmt::Display for Outcome {
    fn fmt(&self, f: &mut fmt::Formatter) -> fmt::Result {
        match self {
            Outcome::Kept(_) => write!(f, "kept"),
            Outcome::Dropped(reason) => write!(f, "dropped: {reason}"),
        }
    }
}

impl fmt::Display for Reason {
    fn fmt(&self, f: &mut fmt::Formatter) -> fmt::Result {
        match self {
            Reason::Nothing => write!(f, "does nothing"),
            Reason::Held(Held { loc, reg }) => write!(f, "{loc} is already in {reg}"),
            Reason::BothHeld(x, y) => {
                write!(f, "{} is already in {}, and {} in {}", x.loc, x.reg, y.loc, y.reg)
            }
            Reason::OntoItself(reg) => write!(f, "moves {reg} onto itself"),
            Reason::Unread(loc) => {
                write!(f, "nothing kept reads {loc}, at or above the fixed mark")
            }
            Reason::NeitherRead(x, y) => {
                write!(f, "nothing kept reads {x} or {y}, at or above the fixed mark")
            }
        }
    }
}

/// The outcomes of a list that was reduced, from the colours and the read set that were left.
pub fn outcomes(
    list: &[Instruction],
    settings: &Settings,
    counts: &Counts,
    buffers: &Buffers,
) -> Vec<Outcome> {
    let colours = &buffers.colours[..counts.statics as usize];
    let set = &buffers.set[..2 * counts.members as usize];
    let mut colouring = Colouring {
        colours: colours.iter(),
        current: [Reg::Ret; MOST_REGS],
        held: [None; MOST_REGS],
        read: set.chunks_exact(2).filter(|pair| pair[0] == 0).map(|pair| pair[1]).collect(),
        fixed_mark: settings.fixed_mark(),
    };
    let mut kept = 0;
    let outcome = |ins| match colouring.step(ins) {
        Some(reason) => Outcome::Dropped(reason),
        None => {
            kept += 1;
            Outcome::Kept(kept - 1)
        }
    };
    list.iter().map(outcome).collect()
}

/// The colours' locations at each instruction. Which colour a static has is known, so nothing is
/// chosen here, and a location was found just if the static's colour holds it.
struct Colouring<'a> {
    /// The colours of the statics that are still to come.
    colours: slice::Iter<'a, u32>,
    /// The colour of each general register's last static.
    current: [Reg; MOST_REGS],
    /// The location of each colour.
    held: [Option<Loc>; MOST_REGS],
    /// The Stack cells that are read.
    read: HashSet<u32>,
    fixed_mark: u64,
}

impl Colouring<'_> {
    /// Goes past an instruction; gives the reason if it was dropped.
    fn step(&mut self, ins: &Instruction) -> Option<Reason> {
        match *ins {
            Instruction::Nop => Some(Reason::Nothing),
            Instruction::Load { dst, loc } => self.write(dst, Some(loc)).map(Reason::Held),
            Instruction::LoadComplex { xd, yd, loc } => {
                let (x, y) = (self.write(xd, Some(loc)), self.write(yd, loc.imag()));
                x.zip(y).map(|(x, y)| Reason::BothHeld(x, y))
            }
            Instruction::Mov { dst, s1 } => {
                let source = self.source(s1);
                self.write(dst, self.held_by(source));
                (self.source(dst) == source).then_some(Reason::OntoItself(source))
            }
            Instruction::Save { src, loc } => {
                self.save(&[(src, loc)]);
                self.is_unread(loc).then_some(Reason::Unread(loc))
            }
            Instruction::SaveComplex { xs, ys, loc } => {
                let imag = loc.imag().expect("question 8 asks for a partner");
                self.save(&[(xs, loc), (ys, imag)]);
                let unread = self.is_unread(loc) && self.is_unread(imag);
                unread.then_some(Reason::NeitherRead(loc, imag))
            }
            Instruction::Label { .. } | Instruction::Call { .. } => self.forget(),
            Instruction::Branch { .. } | Instruction::BranchIf { .. } => self.forget(),
            _ => {
                for dst in ins.destinations() {
                    self.write(dst, None);
                }
                None
            }
        }
    }

    /// The register that stands for a source.
    fn source(&self, src: Reg) -> Reg {
        match src {
            Reg::Gen(number) => self.current[usize::from(number)],
            named => named,
        }
    }

    fn held_by(&self, reg: Reg) -> Option<Loc> {
        match reg {
            Reg::Gen(colour) => self.held[usize::from(colour)],
            _ => None,
        }
    }

    /// Gives the next static its colour, with a location. The colour, if it was found.
    fn write(&mut self, dst: Reg, loc: Option<Loc>) -> Option<Held> {
        let Reg::Gen(number) = dst else { return None };
        let colour = *self.colours.next().expect("a colour for each static");
        let reg = Reg::Gen(colour as u8);
        self.current[usize::from(number)] = reg;
        let held = std::mem::replace(&mut self.held[colour as usize], loc);
        loc.filter(|_| held == loc).map(|loc| Held { loc, reg })
    }

    /// Puts sources into locations.
    fn save(&mut self, places: &[(Reg, Loc)]) {
        for held in &mut self.held {
            *held = held.filter(|held| places.iter().all(|(_, loc)| loc != held));
        }
        for (src, loc) in places {
            if let Reg::Gen(colour) = self.source(*src) {
                self.held[usize::from(colour)] = Some(*loc);
            }
        }
    }

    /// Whether it is a Stack cell at or above the fixed mark, and is not read.
    fn is_unread(&self, loc: Loc) -> bool {
        match loc {
            Loc::Stack(index) => u64::from(index) >= self.fixed_mark && !self.read.contains(&index),
            Loc::Mem(_) | Loc::Param(_) => false,
        }
    }

    fn forget(&mut self) -> Option<Reason> {
        self.held = [None; MOST_REGS];
        None
    }
}
