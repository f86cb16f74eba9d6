//! Programs that a test needs and that need not be there.

use std::io::{stderr, Write};
use std::process::Command;

/// The first of these programs that is here. If none is, says what is not tried, even where the tests'
/// own text is not shown.
pub fn program(names: &[&'static str], what: &str) -> Option<&'static str> {
    let is_here = |name: &&str| Command::new(name).arg("--version").output().is_ok();
    let found = names.iter().copied().find(is_here);
    if found.is_none() {
        writeln!(stderr(), "none of {names:?} is here: {what} is not tried").expect("a note");
    }
    found
}
