//! The library over the C entries: text, files, reduced lists with the reasons of what was dropped,
//! and surveys.

mod branches;
mod file;
mod machine;
mod outcomes;
mod reduce;
mod runs;
mod support;
mod survey;
mod text;
mod two_part;
