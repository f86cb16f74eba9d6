//! Surveying through `rudzaviks_survey`: the answer, the lent parts to their last word, and what
//! lies around them.

mod adjacent;
mod any_words;
mod exhaustive;
mod known;
mod labels;
mod random;
mod refusals;
mod room;
mod support;
