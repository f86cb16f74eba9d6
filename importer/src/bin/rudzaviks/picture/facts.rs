//! What a picture says of a list.

use rudzaviks::mir::reg;
use rudzaviks::pressure::Stretch;
use rudzaviks::{Outcome, Reduced};

use crate::counts::number_of;
use crate::input::Input;
use crate::pressure;

/// A list, and what is worked out of it once.
pub struct Facts<'a> {
    pub input: &'a Input,
    pub reduced: &'a Reduced,
    /// How many registers are needed past each instruction.
    pub needed: Vec<u32>,
    pub fullest: u32,
    /// Where values are left in registers, not needed, until a dropped load finds them.
    pub left: Vec<Stretch>,
}

impl<'a> Facts<'a> {
    pub fn new(input: &'a Input, reduced: &'a Reduced) -> Facts<'a> {
        let (needed, fullest) = (reduced.needed(), reduced.counts.fullest);
        Facts { input, reduced, needed, fullest, left: left(reduced) }
    }

    pub fn is_dropped(&self, index: usize) -> bool {
        pressure::is_dropped(&self.reduced.outcomes[index])
    }

    /// An instruction as it is left, with the registers of the rows; one that was dropped as it was
    /// given.
    pub fn text(&self, index: usize) -> String {
        match self.reduced.outcomes[index] {
            Outcome::Kept(at) => self.reduced.list[at].to_string(),
            Outcome::Dropped(_) => self.input.instruction(index).to_string(),
        }
    }

    /// The instructions past which most registers are needed, from the first on.
    pub fn first_peak(&self) -> Option<(usize, usize)> {
        let first = pressure::fullest_at(self.reduced)?;
        let past = self.needed[first..].iter();
        let many = past.take_while(|needed| **needed == self.fullest).count();
        Some((first, first + many))
    }

    pub fn place(&self, index: usize) -> String {
        format!("{} {}", self.input.unit(), self.input.number(index))
    }

    /// What there is to say of a column.
    pub fn column_tip(&self, index: usize) -> String {
        let given = self.input.instruction(index).to_string();
        let outcome = match self.reduced.outcomes[index] {
            Outcome::Kept(at) if self.reduced.list[at].to_string() == given => String::new(),
            Outcome::Kept(at) => format!("\nleft as {}", self.reduced.list[at]),
            dropped => format!("\n{dropped}"),
        };
        format!("{}: {given}{outcome}\n{}", self.place(index), self.needed_tip(index))
    }

    /// How many registers are needed past an instruction, in words.
    pub fn needed_tip(&self, index: usize) -> String {
        let registers = number_of(self.input.settings.count_regs as usize, "register");
        format!("{} of {registers} needed past {}", self.needed[index], self.place(index))
    }

    /// What there is to say of a value.
    pub fn stretch_tip(&self, stretch: Stretch) -> String {
        let Stretch { register, written, until } = stretch;
        let at = |index: usize| {
            let dropped = if self.is_dropped(index) { " (dropped)" } else { "" };
            format!("{}: {}{dropped}", self.place(index), self.text(index))
        };
        let read = match stretch.is_read() {
            true => format!("needed up to {}", at(until)),
            false => "never read".to_string(),
        };
        format!("{}\nwritten at {}\n{read}", reg(register), at(written))
    }

    /// What there is to say of a value that is left in a register.
    pub fn left_tip(&self, left: Stretch) -> String {
        let (from, to) = (self.place(left.written), self.place(left.until));
        format!("{}\nnot needed past {from}, but still there at {to}", reg(left.register))
    }
}

/// Where values are left in registers: a load was dropped since it found its value there, and
/// nothing had needed it in between.
fn left(reduced: &Reduced) -> Vec<Stretch> {
    let mut needed = [0; u8::MAX as usize + 1];
    let gap = |stretch: &Stretch| {
        let needed = &mut needed[usize::from(stretch.register)];
        let from = std::mem::replace(needed, stretch.until.max(*needed));
        let is_dropped = pressure::is_dropped(&reduced.outcomes[stretch.written]);
        let left = Stretch { written: from, until: stretch.written, ..*stretch };
        (is_dropped && left.is_read()).then_some(left)
    };
    reduced.stretches.iter().filter_map(gap).collect()
}
