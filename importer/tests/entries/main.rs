//! The operations through the C entries, beside the copies of the original and the questions.

mod arbitrary;
mod faulty;
mod optimize;
mod reduce;
mod support;
mod survey;
mod vectors;
