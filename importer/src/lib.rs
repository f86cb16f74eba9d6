//! The machine-list allocator, from Rust.
//!
//! A formula, compiled to a list of [`Instruction`]s, is shortened by [`reduce`]: registers are
//! assigned anew, and loads, moves and saves that are then not needed are dropped. The work is done
//! by a verified library, called through the C entries of [`ffi`]. A list that breaks its rules is
//! refused, and the [`Refusal`] says by which question and at which record.
//!
//! ```
//! use rudzaviks::mir::{load_const, load_mem, reg, save_mem, save_stack};
//! use rudzaviks::{reduce, Outcome, Settings};
//!
//! let list = [
//!     load_const(reg(0), 5),
//!     save_mem(reg(0), 3),
//!     load_mem(reg(0), 3),
//!     save_stack(reg(0), 16),
//! ];
//! let settings = Settings { count_regs: 1, ..Settings::default() };
//!
//! let reduced = reduce(&list, &settings)?;
//! assert_eq!(reduced.list, list[..2]);
//! assert_eq!(reduced.outcomes[..2], [Outcome::Kept(0), Outcome::Kept(1)]);
//! assert_eq!(reduced.outcomes[2].to_string(), "dropped: Mem[3] is already in %0");
//!
//! // There is no register 1 where there is one register.
//! let refusal = reduce(&[load_mem(reg(1), 3)], &settings).unwrap_err();
//! assert_eq!((refusal.number, refusal.index), (7, 0));
//! # Ok::<(), rudzaviks::Refusal>(())
//! ```
//!
//! [`survey()`] tells which registers a list uses, and where its labels are; [`pressure`] how many
//! registers are needed at once.
//!
//! Lists can be written and read as [`text`], and as a [`mod@file`] of words; the command-line tool
//! `rudzaviks` does both, and shows what became of each line.
//!
//! The feature `library`, on unless `default-features = false` is asked, links the verified library,
//! which must have been built. Without it there are texts, files and records, but no answers:
//! [`reduce`], [`survey()`] and [`file::reduce`] panic, as [`ffi::LINKED`] tells beforehand.

#![warn(missing_docs)]

pub mod ffi;
pub mod file;
pub mod mir;
pub mod pressure;
pub mod record;
pub mod text;

mod instruction;
mod outcome;
mod reduced;
mod survey;

pub use ffi::{Counts, Refusal, Settings};
pub use instruction::{ArithOp, BinOp, FusedOp, Instruction, Loc, Reg, UniOp};
pub use outcome::{Held, Outcome, Reason};
pub use reduced::{reduce, Reduced};
pub use survey::{survey, Label, Place, Survey};
