//! The command-line tool, run as a user runs it.

mod colour;
mod completion;
mod coverage;
mod files;
mod json;
mod many;
mod mistakes;
mod pressure;
mod readme;
mod reduce;
mod refusals;
mod support;
mod survey;
mod usage;
