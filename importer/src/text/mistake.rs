//! Mistakes in a text.

use std::error::Error;
use std::fmt;

/// A mistake in a text.
#[derive(Clone, Debug, PartialEq, Eq)]
pub struct ParseError {
    /// The line, from 1 on.
    pub line: usize,
    /// The column, from 1 on, in characters.
    pub column: usize,
    /// What could stand there.
    pub expected: String,
    /// What stands there: short, and [`printable`](super::printable()).
    pub found: String,
}

impl ParseError {
    /// What is wrong, without the place.
    pub fn what(&self) -> String {
        format!("expected {}, found {}", self.expected, self.found)
    }
}

impl fmt::Display for ParseError {
    fn fmt(&self, f: &mut fmt::Formatter) -> fmt::Result {
        write!(f, "line {}, column {}: {}", self.line, self.column, self.what())
    }
}

impl Error for ParseError {}

/// The mistakes in a text, at least one; a line has at most one.
#[derive(Clone, Debug, PartialEq, Eq)]
pub struct Mistakes {
    /// The first of them, as many as were asked for, in the order of the lines.
    pub told: Vec<ParseError>,
    /// How many there are in all.
    pub count: usize,
}

impl Mistakes {
    /// Counts a mistake, and tells it if fewer than the most are told.
    pub(super) fn add(&mut self, mistake: ParseError, most: usize) {
        self.count += 1;
        if self.told.len() < most {
            self.told.push(mistake);
        }
    }
}

/// A line for each that is told, and one for how many more there are.
impl fmt::Display for Mistakes {
    fn fmt(&self, f: &mut fmt::Formatter) -> fmt::Result {
        let mut lines: Vec<String> = self.told.iter().map(ParseError::to_string).collect();
        match self.count.saturating_sub(lines.len()) {
            0 => {}
            1 if lines.is_empty() => lines.push("1 mistake".to_string()),
            more if lines.is_empty() => lines.push(format!("{more} mistakes")),
            more => lines.push(format!("and {more} more")),
        }
        f.write_str(&lines.join("\n"))
    }
}

impl Error for Mistakes {}
