//! A command on its lists.

use std::env;
use std::path::PathBuf;

use rudzaviks::ffi::LINKED;

use crate::arguments::{Arguments, View};
use crate::colour::{Page, Style};
use crate::commands::Command;
use crate::counts::{number_of, Sums};
use crate::failure::{Failure, HELP, NO_LIBRARY, REFUSED};
use crate::json::{Fields, Json};
use crate::report::{self, Alone, Places};
use crate::shown::{Manner, Shown};
use crate::{output, places, workers};

/// Set by the script `rudzaviks`, which has the library made once it is known that it is needed.
const LATER: &str = "RUDZAVIKS_LIBRARY_LATER";

/// Tells that script so.
const NOT_YET: u8 = 77;

/// Does what was asked with every list; gives the exit status.
pub fn run(arguments: &Arguments) -> Result<u8, Failure> {
    if arguments.command.needs_library() && !LINKED && env::var_os(LATER).is_some() {
        return Ok(NOT_YET);
    }
    if arguments.command.needs_library() && !LINKED {
        let what = "rudzaviks: this tool was built without the verified library";
        let how = "build it with the library, which `tools/library` makes";
        return Err(Failure::new(NO_LIBRARY, &format!("{what}\n{HELP}{how}")));
    }
    let outs = Outs::new(arguments)?;
    let jobs = arguments.jobs.unwrap_or_else(workers::cores);
    let manner = Manner::new(arguments);
    let mut total = Total::default();
    let shown = |at| manner.list(at, report::of(arguments, outs.places(arguments, at)));
    begin(arguments)?;
    // Where files are written, the work goes on to its end, whoever reads what is shown.
    let goes_on = arguments.out.is_some() || arguments.svg.is_some();
    let done = workers::in_order(arguments.files.len(), jobs, shown, |shown| {
        total.add(&shown);
        match write(shown) {
            Err(failure) if failure.is_silent() && goes_on => Ok(()),
            written => written,
        }
    });
    match done.and_then(|()| end(&manner, &total)) {
        Err(failure) if !failure.is_silent() => Err(failure),
        _ => Ok(total.status),
    }
}

/// Where what is made of the lists is written.
struct Outs {
    lists: Option<Vec<PathBuf>>,
    pictures: Option<Vec<PathBuf>>,
}

impl Outs {
    fn new(arguments: &Arguments) -> Result<Outs, Failure> {
        let Arguments { command, files, view, out, svg, .. } = arguments;
        let is_words = *command == Command::Assemble || *view == View::Words;
        let extension = if is_words { "words" } else { "txt" };
        let lists = out.as_ref().map(|out| places::of(files, out, extension));
        let pictures = svg.as_ref().map(|svg| places::of(files, svg, "svg"));
        Ok(Outs { lists: lists.transpose()?, pictures: pictures.transpose()? })
    }

    fn places<'a>(&'a self, arguments: &'a Arguments, at: usize) -> Places<'a> {
        let place = |places: &'a Option<Vec<PathBuf>>| places.as_ref().map(|all| all[at].as_path());
        let (out, svg) = (place(&self.lists), place(&self.pictures));
        Places { file: &arguments.files[at], out, svg }
    }
}

fn begin(arguments: &Arguments) -> Result<(), Failure> {
    if !arguments.json {
        return Ok(());
    }
    let command = Json::text(arguments.command.name()).show("");
    output::send(format!("{{\n  \"command\": {command},\n  \"lists\": [\n").as_bytes())
}

fn write(shown: Shown) -> Result<(), Failure> {
    output::tell(&shown.err);
    match shown.out {
        Alone::Text(text) => output::send(text.as_bytes()),
        Alone::Words(words) => output::send_words(&words),
    }
}

/// Ends with what there is to say of all lists.
fn end(manner: &Manner, total: &Total) -> Result<(), Failure> {
    let arguments = manner.arguments;
    let text = if arguments.json {
        format!(
            "  ],\n  \"total\": {}\n}}\n",
            Json::Object(total.fields(arguments.command)).show("  ")
        )
    } else if manner.is_many() {
        manner.page(&total.page(arguments))
    } else {
        return Ok(());
    };
    output::send(text.as_bytes())
}

/// What there was of all lists.
#[derive(Default)]
struct Total {
    lists: usize,
    refused: usize,
    /// Those with mistakes, or that could not be read, or what was made of them not written.
    failed: usize,
    /// Those that were taken, and that no theorem covers.
    uncovered: usize,
    sums: Option<Sums>,
    status: u8,
}

impl Total {
    fn add(&mut self, shown: &Shown) {
        self.lists += 1;
        self.status = self.status.max(shown.status);
        match shown.status {
            0 => {}
            REFUSED => self.refused += 1,
            _ => self.failed += 1,
        }
        self.uncovered += usize::from(shown.uncovered);
        if let Some(sums) = &shown.sums {
            self.sums.get_or_insert_default().add(sums);
        }
    }

    fn page(&self, arguments: &Arguments) -> Page {
        let refused = if arguments.command.needs_library() { "refused" } else { "faulty" };
        let uncovered = "that no theorem covers";
        let failed =
            [(self.uncovered, uncovered), (self.refused, refused), (self.failed, "failed")];
        let failed = failed.iter().filter(|(count, _)| *count > 0);
        let failed: String = failed.map(|(count, what)| format!(", {count} {what}")).collect();
        let mut page = Page::default();
        page.add(Style::Title, format!("total: {}{failed}", number_of(self.lists, "list")));
        match (&self.sums, arguments.view) {
            (Some(sums), View::Stats) => page.append(sums.table()),
            (Some(sums), _) => page.append(sums.total()),
            (None, _) => {}
        }
        page
    }

    fn fields(&self, command: Command) -> Fields {
        let numbers = [("lists", self.lists), ("refused", self.refused), ("failed", self.failed)];
        let asked = matches!(command, Command::Reduce | Command::Check);
        let uncovered = asked.then(|| ("lists_uncovered", Json::number(self.uncovered)));
        let sums = self.sums.iter().map(|sums| ("counts", Json::Object(sums.fields())));
        let numbers = numbers.map(|(name, number)| (name, Json::number(number)));
        numbers.into_iter().chain(uncovered).chain(sums).collect()
    }
}
