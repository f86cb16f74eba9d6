//! The manual page, from the table.

use rudzaviks::text;

use crate::commands::{Entry, ENTRIES};
use crate::help;
use crate::options::{self, HELP, VERSION};

/// The page, in the form that `man` reads.
pub fn page() -> String {
    let version = env!("CARGO_PKG_VERSION");
    let name = help::ABOUT.trim_start_matches("rudzaviks ").trim_end_matches('.');
    let title = format!(".TH RUDZAVIKS 1 \"\" \"rudzaviks {version}\" \"User Commands\"\n");
    let name = format!(".SH NAME\nrudzaviks \\- {}\n", escaped(name));
    let usages = ENTRIES.iter().map(|entry| help::usage(entry).replace("usage: ", ""));
    let synopsis: String = usages.map(|usage| format!("{}\n.br\n", escaped(&usage))).collect();
    let general = [HELP, VERSION].map(|option| tagged(&option.usage(), option.about)).concat();
    let commands: String = ENTRIES.iter().map(command).collect();
    let statuses = help::STATUSES.map(|(number, meaning)| tagged(number, meaning)).concat();
    let examples = ENTRIES.iter().flat_map(|entry| entry.examples).map(|line| as_is(line));
    [
        title,
        name,
        format!(".SH SYNOPSIS\n{synopsis}"),
        format!(".SH DESCRIPTION\n{}{general}", paragraph(help::FILES)),
        format!(".SH COMMANDS\n{commands}"),
        format!(".SH TEXT FORM\n{}", as_is(&help::unmarked(text::FORM))),
        format!(".SH JSON\n{}", as_is(&help::unmarked(help::JSON))),
        format!(".SH EXIT STATUS\n{statuses}{}", paragraph(help::AFTER_STATUSES)),
        format!(".SH ENVIRONMENT\n{}", tagged("NO_COLOR, TERM", options::COLOR.about)),
        format!(".SH EXAMPLES\n{}", examples.collect::<String>()),
    ]
    .concat()
}

fn command(entry: &Entry) -> String {
    let usage = help::usage(entry);
    let heading = format!(".SS \"{}\"\n", escaped(usage.trim_start_matches("usage: ")));
    let about: String = entry.about.iter().map(|text| paragraph(text)).collect();
    let options = entry.options.iter().map(|option| tagged(&option.usage(), option.about));
    [heading, about, options.collect()].concat()
}

fn paragraph(text: &str) -> String {
    format!(".PP\n{}\n", escaped(text))
}

fn tagged(name: &str, about: &str) -> String {
    format!(".TP\n.B {}\n{}\n", escaped(name), escaped(about))
}

/// Lines that stay as they are.
fn as_is(text: &str) -> String {
    let lines: String = text.lines().map(|line| format!("{}\n", escaped(line))).collect();
    format!(".PP\n.nf\n{lines}.fi\n")
}

/// A line that means itself: no dash is broken at, and no start of a line is an order.
fn escaped(line: &str) -> String {
    let line = line.replace('\\', "\\e").replace('-', "\\-");
    if line.starts_with(['.', '\'']) {
        return format!("\\&{line}");
    }
    line
}
