//! Lists as a failing test shows them.

use harness::lists::List;

/// The list, unless it is too long to read.
pub fn shown(list: &List) -> String {
    match list.words.len() + list.table.len() {
        0..=10_000 => format!("{list:?}"),
        words => format!("{:?}, {words} words", list.settings),
    }
}
