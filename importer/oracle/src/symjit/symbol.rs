// Carried over from symjit, repository siravan/symjit at ee8b609e48, file rust/symbol.rs.
// MIT licence, see NOTICE. Kept: locations.

use std::fmt;

#[derive(Clone, Copy, PartialEq, Eq, Hash)]
pub enum Loc {
    Stack(u32),
    Mem(u32),
    Param(u32),
}

impl fmt::Debug for Loc {
    fn fmt(&self, f: &mut fmt::Formatter<'_>) -> fmt::Result {
        match self {
            Loc::Mem(idx) => write!(f, "Mem[{}]", idx),
            Loc::Stack(idx) => write!(f, "Stack[{}]", idx),
            Loc::Param(idx) => write!(f, "Param[{}]", idx),
        }
    }
}

impl Loc {
    pub fn imag(&self) -> Loc {
        match self {
            Loc::Mem(idx) => Loc::Mem(1 + idx),
            Loc::Stack(idx) => Loc::Stack(1 + idx),
            Loc::Param(idx) => Loc::Param(1 + idx),
        }
    }
}
