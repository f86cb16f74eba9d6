//! The carried-over modules, named as in symjit; `amended` is `allocator` with two rules changed.

pub mod allocator;
pub mod amended;
pub mod config;
pub mod mir;
pub mod runnable;
pub mod serializer;
pub mod symbol;
pub mod utils;
