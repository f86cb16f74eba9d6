//! The original: symjit's `rust/allocator.rs`, unchanged, with the parts of other files that it
//! depends on, and `get_dst`, `used_registers` and `populate_labels` of `rust/mir.rs`.
//! Repository siravan/symjit at ee8b609e48, MIT licence, see NOTICE. Beside it is a copy with the
//! two rules of request 1: a two-part load goes only if both halves were found, and a two-part save
//! stays if either half is read.

pub mod symjit;

pub use symjit::allocator::GreedyAllocator;
pub use symjit::amended::GreedyAllocator as AmendedAllocator;
pub use symjit::config::{Config, COMPLEX, COMPRESS};
pub use symjit::mir::{ArithOp, BinOp, FusedOp, Instruction, Mir, UniOp};
pub use symjit::runnable::CompilerType;
pub use symjit::serializer::MirWriter;
pub use symjit::symbol::Loc;
pub use symjit::utils::Reg;
