//! What is written of each list.

use std::io::{self, IsTerminal};

use crate::arguments::Arguments;
use crate::colour::{Page, Style};
use crate::commands::Command;
use crate::counts::Sums;
use crate::failure::Failure;
use crate::input;
use crate::json::{Fields, Json};
use crate::report::{Alone, Report};

/// What is written of a list, and what the total goes by.
pub struct Shown {
    pub out: Alone,
    pub err: String,
    pub status: u8,
    pub sums: Option<Sums>,
    /// Whether it is a list that no theorem covers.
    pub uncovered: bool,
}

/// How lists are shown.
pub struct Manner<'a> {
    pub arguments: &'a Arguments,
    /// Whether standard output and standard error are coloured.
    colours: [bool; 2],
}

impl Manner<'_> {
    pub fn new(arguments: &Arguments) -> Manner<'_> {
        let terminals = [io::stdout().is_terminal(), io::stderr().is_terminal()];
        let colours = terminals.map(|terminal| arguments.color.colours(terminal));
        Manner { arguments, colours }
    }

    pub fn is_many(&self) -> bool {
        self.arguments.files.len() > 1
    }

    /// A page for standard output.
    pub fn page(&self, page: &Page) -> String {
        page.show(self.colours[0])
    }

    /// What is written of the list at a place among all.
    pub fn list(&self, at: usize, given: Result<Report, Failure>) -> Shown {
        let status = given.as_ref().map_or_else(|failure| failure.status, |report| report.status);
        let sums = given.as_ref().ok().and_then(|report| report.sums);
        let uncovered = given.as_ref().is_ok_and(|report| report.uncovered);
        let (out, err) = match given {
            _ if self.arguments.json => (Alone::Text(self.json(at, status, given)), String::new()),
            Ok(report) => self.report(at, report),
            Err(failure) => (Alone::Text(String::new()), failure.page.show(self.colours[1])),
        };
        Shown { out, err, status, sums, uncovered }
    }

    fn report(&self, at: usize, report: Report) -> (Alone, String) {
        let err = report.notes.show(self.colours[1]);
        let is_page = report.page != Page::default();
        let out = report.alone.unwrap_or_else(|| {
            let is_headed = self.is_many() && is_page && self.arguments.command != Command::Check;
            let page = if is_headed { self.headed(at, report.page) } else { report.page };
            Alone::Text(self.page(&page))
        });
        (out, err)
    }

    /// A page under the name of its list.
    fn headed(&self, at: usize, page: Page) -> Page {
        let mut headed = Page::default();
        headed.add(Style::Title, format!("==> {} <==", input::name(&self.arguments.files[at])));
        headed.append(page);
        headed.add(Style::Plain, "");
        headed
    }

    fn json(&self, at: usize, status: u8, given: Result<Report, Failure>) -> String {
        let name = Json::text(self.arguments.files[at].to_string_lossy());
        let head = [("name", name), ("status", Json::number(status))];
        let fields: Fields = given.map_or_else(|failure| failure.fields, |report| report.fields);
        let list = Json::Object(head.into_iter().chain(fields).collect());
        let end = if at + 1 < self.arguments.files.len() { ",\n" } else { "\n" };
        format!("    {}{end}", list.show("    "))
    }
}
