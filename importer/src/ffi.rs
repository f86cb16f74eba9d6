//! The C entries.
//!
//! A list is records of 8 words; a table is pairs of words that LoadArgs records name. Each entry
//! answers in one 64-bit word. Bits 32 to 55 hold the number of the question that refused the list,
//! 0 for none; bits 0 to 31 then hold the record's index.
//!
//! The entries are the library's, which the feature `library` links. Without that feature each call
//! of one panics, and [`LINKED`] tells so beforehand.

mod optimize;
mod reduce;
mod refusal;
mod survey;

pub use optimize::{optimize, optimize_word, Answer, Buffers, Counts, Lent, Settings};
pub use reduce::{reduce, reduce_word};
pub use refusal::Refusal;
pub use survey::{survey, survey_word, Place, Survey, PARTS};

/// Whether the library is linked. Where it is not, every function that calls an entry panics.
pub const LINKED: bool = cfg!(feature = "library");

/// Declares an entry; where the library is not linked, a stand-in for it, which never answers.
macro_rules! entry {
    (fn $name:ident($($parameter:ident: $type:ty),* $(,)?) -> u64;) => {
        #[cfg(feature = "library")]
        extern "C" {
            fn $name($($parameter: $type),*) -> u64;
        }

        #[cfg(not(feature = "library"))]
        #[allow(clippy::too_many_arguments)]
        unsafe fn $name($(_: $type),*) -> u64 {
            panic!(concat!(
                stringify!($name),
                " cannot answer: this was built without the library (feature `library`)",
            ))
        }
    };
}

use entry;

fn low(word: u64) -> u32 {
    word as u32
}

fn refusal(word: u64) -> Option<Refusal> {
    let number = (word >> 32) as u32 & 0x00ff_ffff;
    (number != 0).then_some(Refusal { number, index: low(word) })
}
