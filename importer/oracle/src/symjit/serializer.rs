// Carried over from symjit, repository siravan/symjit at ee8b609e48, file rust/serializer.rs.
// MIT licence, see NOTICE. The bytes are left out: `MirWriter` is a plain list. `push` appends and
// `iter` gives the instructions in order, by value.

use super::mir::Instruction;

#[derive(Clone)]
pub struct MirWriter {
    list: Vec<Instruction>,
}

impl Default for MirWriter {
    fn default() -> Self {
        Self::new()
    }
}

impl MirWriter {
    pub fn new() -> MirWriter {
        MirWriter { list: Vec::new() }
    }

    pub fn push(&mut self, ins: &Instruction) {
        self.list.push(ins.clone());
    }

    pub fn iter(&self) -> std::iter::Cloned<std::slice::Iter<'_, Instruction>> {
        self.list.iter().cloned()
    }
}
