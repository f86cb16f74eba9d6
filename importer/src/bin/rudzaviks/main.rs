//! The command-line tool: shortens lists, checks and surveys them, shows how full the registers get,
//! and turns text into files and back.

use std::ffi::OsString;
use std::io::{self, IsTerminal};
use std::process::ExitCode;

use arguments::Request;
use colour::When;
use failure::Failure;

mod arguments;
mod colour;
mod commands;
mod completion;
mod counts;
mod coverage;
mod disassembly;
mod excerpt;
mod explain;
mod failure;
mod files;
mod help;
mod input;
mod json;
mod lists;
mod man;
mod options;
mod output;
mod picture;
mod places;
mod pressure;
mod report;
mod shown;
mod side_by_side;
mod survey;
mod table;
mod words;
mod workers;
mod wrap;

fn main() -> ExitCode {
    let words: Vec<OsString> = std::env::args_os().skip(1).collect();
    let (done, when) = match arguments::parse(&words) {
        Ok(Request::Print(text)) => (output::send(text.as_bytes()).map(|()| 0), When::Auto),
        Ok(Request::Run(arguments)) => (lists::run(&arguments), arguments.color),
        Err(misused) => (Err(misused), When::Auto),
    };
    ExitCode::from(done.unwrap_or_else(|failure| told(&failure, when)))
}

/// Tells a failure; gives its status.
fn told(failure: &Failure, when: When) -> u8 {
    let coloured = when.colours(io::stderr().is_terminal());
    output::tell(&failure.page.show(coloured));
    failure.status
}
