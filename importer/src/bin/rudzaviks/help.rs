//! The help texts, from the table.

use rudzaviks::text;

use crate::commands::{Command, Entry, Operand, ENTRIES};
use crate::options::{Opt, HELP, VERSION};
use crate::wrap::{fill, WIDTH};

pub const ABOUT: &str =
    "rudzaviks shortens lists of machine instructions with a verified register allocator.";

/// What a list is given as.
pub const FILES: &str =
    "FILE is a list, as text or as a file of words: what is in it tells which. - is standard input. \
     Of several lists each is told under its name, and a total over all comes last; -- ends the \
     options, for names that start with -.";

/// The exit statuses, and what each means.
pub const STATUSES: [(&str, &str); 4] = [
    ("0", "done"),
    (
        "1",
        "a list is refused (with --strict also one that no theorem covers), is too long for a file, \
         or has records that are no instructions",
    ),
    (
        "2",
        "wrong usage, a mistake in a text, or something that can't be read or written",
    ),
    ("3", "the verified library or this tool is missing, or could not be built"),
];

pub const AFTER_STATUSES: &str =
    "Of several lists the highest status counts. What went wrong is said on standard error with line \
     and column, or with --json in the document.";

pub const JSON: &str = include_str!("json.md");

pub fn general() -> String {
    let commands = ENTRIES.iter().map(|entry| (entry.name.to_string(), entry.brief));
    let options = [HELP, VERSION].map(|option| (option.usage(), option.about));
    let statuses = STATUSES.map(|(number, meaning)| (number.to_string(), meaning));
    format!(
        "{ABOUT}\n\nusage: rudzaviks COMMAND [OPTIONS] FILE...\n\n\
         {}\n{}\n{}\nexit status:\n\n{}\n{}",
        listed(&commands.collect::<Vec<_>>()),
        listed(&options),
        paragraph(FILES),
        listed(&statuses),
        paragraph(AFTER_STATUSES),
    )
}

pub fn on(command: Command) -> String {
    let entry = command.entry();
    let about: Vec<String> = entry.about.iter().map(|text| paragraph(text)).collect();
    let options = options(entry).map(|option| (option.usage(), option.about));
    let options = listed(&options.collect::<Vec<_>>());
    let files = match entry.operand {
        Operand::Lists => format!("\n{}", paragraph(FILES)),
        _ => String::new(),
    };
    let examples: String = entry.examples.iter().map(|line| format!("  {line}\n")).collect();
    format!("{}\n\n{}\n{options}{files}\nexamples:\n\n{examples}", usage(entry), about.join("\n"))
}

/// How a command is called.
pub fn usage(entry: &Entry) -> String {
    let options = if entry.options.is_empty() { "" } else { " [OPTIONS]" };
    format!("usage: rudzaviks {}{options} {}", entry.name, entry.operand.name()).trim_end().into()
}

/// The options of a command, and that for help.
pub fn options(entry: &Entry) -> impl Iterator<Item = &'static Opt> {
    entry.options.iter().copied().chain([&HELP])
}

pub fn on_topic(topic: &str) -> Option<String> {
    match topic {
        "text" => Some(unmarked(text::FORM)),
        "json" => Some(unmarked(JSON)),
        name => Command::named(name).map(on),
    }
}

/// A description without the marks around its examples.
pub fn unmarked(text: &str) -> String {
    let lines = text.lines().filter(|line| !line.starts_with("```"));
    lines.flat_map(|line| [line, "\n"]).collect()
}

pub fn version() -> String {
    format!("rudzaviks {}\n", env!("CARGO_PKG_VERSION"))
}

fn paragraph(text: &str) -> String {
    fill(text, WIDTH, "").join("\n") + "\n"
}

/// Names and what is said of each, in two columns.
fn listed(rows: &[(String, &str)]) -> String {
    let width = rows.iter().map(|(name, _)| name.len()).max().unwrap_or(0);
    let indent = " ".repeat(width + 4);
    rows.iter()
        .map(|(name, about)| {
            let lines = fill(about, WIDTH - indent.len(), "");
            format!("  {name:width$}  {}\n", lines.join(&format!("\n{indent}")))
        })
        .collect()
}
