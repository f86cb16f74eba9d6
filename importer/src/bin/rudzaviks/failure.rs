//! Why the tool can't do what it was asked.

use std::fmt;

use crate::colour::{Page, Style};
use crate::json::{Fields, Json};

/// The exit statuses other than 0.
pub const REFUSED: u8 = 1;
pub const WRONG: u8 = 2;
pub const NO_LIBRARY: u8 = 3;

/// What a line that says what can be done starts with.
pub const HELP: &str = "help: ";

/// What to say on standard error, the same for programs, and the exit status.
#[derive(Debug)]
pub struct Failure {
    pub status: u8,
    pub page: Page,
    pub fields: Fields,
}

impl Failure {
    /// A failure that is told in a sentence; then may follow a line with what is behind it, and one
    /// with what can be done.
    pub fn new(status: u8, message: &str) -> Failure {
        let mut lines = message.lines();
        let first = lines.next().unwrap_or_default();
        let mut page = Page::default();
        page.add(Style::Title, first);
        let mut fields = vec![("error", Json::text(first.trim_start_matches("rudzaviks: ")))];
        for line in lines {
            let help = line.strip_prefix(HELP);
            page.add(if help.is_some() { Style::Note } else { Style::Plain }, line);
            fields
                .push(help.map_or(("detail", Json::text(line)), |help| ("help", Json::text(help))));
        }
        Failure { status, page, fields }
    }

    /// The end of a run of which nobody wants to hear more.
    pub fn silent() -> Failure {
        Failure { status: 0, page: Page::default(), fields: Fields::new() }
    }

    pub fn is_silent(&self) -> bool {
        self.status == 0
    }

    /// Wrong usage, or what can't be read or written.
    pub fn wrong(message: String) -> Failure {
        Failure::new(WRONG, &message)
    }
}

impl fmt::Display for Failure {
    fn fmt(&self, f: &mut fmt::Formatter) -> fmt::Result {
        write!(f, "{}", self.page)
    }
}
