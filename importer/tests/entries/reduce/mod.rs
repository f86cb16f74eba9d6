//! Reducing a file through `rudzaviks_reduce`: the answer, the output to its last byte, and what
//! lies around it and the file.

mod form;
mod known;
mod random;
mod refusals;
mod room;
mod support;
