//! Reducing through `rudzaviks_optimize`: the answer, the five lent slices to their last word, and
//! what lies around them.

mod branches;
mod exhaustive;
mod fullest;
mod known;
mod random;
mod refusals;
pub mod support;
