//! What the tests need: lists of records, good and damaged, and the answers that are expected for
//! them by the copies of the original and by the questions. Nothing here calls the verified code.

pub mod answers;
pub mod branch_cases;
pub mod cases;
pub mod damage;
pub mod file;
pub mod fullest;
pub mod kinds;
pub mod lent;
pub mod limits;
pub mod lists;
pub mod mended;
pub mod panics;
pub mod profile;
pub mod programs;
pub mod questions;
pub mod random;
pub mod record;
pub mod reduced;
pub mod roles;
pub mod run;
pub mod settings;
pub mod short;
pub mod sorts;
pub mod stored_lists;
pub mod tally;
pub mod theorem;
pub mod used;
pub mod vectors;
pub mod worked_examples;

/// With fewer lists than this, a test could miss a case that it counts.
const FEWEST: u64 = 20_000;

/// How many random lists a test takes: the variable RUDZAVIKS_LISTS, or else the given number.
pub fn how_many(usual: u64) -> u64 {
    match std::env::var("RUDZAVIKS_LISTS") {
        Ok(text) => FEWEST.max(text.parse().expect("RUDZAVIKS_LISTS is a number")),
        Err(_) => usual,
    }
}
