//! The tool's options.

/// An option.
pub struct Opt {
    /// Its names: a short one, if it has one, and then the long one.
    pub names: &'static [&'static str],
    /// What its value is called, if it takes one.
    pub value: Option<&'static str>,
    /// The values that it may have, if they are few.
    pub values: &'static [&'static str],
    pub about: &'static str,
}

impl Opt {
    /// Its long name.
    pub fn name(&self) -> &'static str {
        self.names[self.names.len() - 1]
    }

    /// Its names and its value, as the help shows them.
    pub fn usage(&self) -> String {
        let names = self.names.join(", ");
        self.value.map_or(names.clone(), |value| format!("{names} {value}"))
    }
}

const fn flag(names: &'static [&'static str], about: &'static str) -> Opt {
    Opt { names, value: None, values: &[], about }
}

const fn valued(names: &'static [&'static str], value: &'static str, about: &'static str) -> Opt {
    Opt { names, value: Some(value), values: &[], about }
}

pub const CHANGES: Opt =
    flag(&["--changes"], "show only the lines whose registers changed and those that were dropped");

pub const PLAIN: Opt =
    flag(&["--plain"], "print the shortened list alone, as text that every command reads");

pub const WORDS: Opt = flag(
    &["--words"],
    "print the shortened list alone, as a file of words, or write it so with -o",
);

pub const STATS: Opt = flag(
    &["--stats"],
    "print the counts alone, one to a line, and how many values are written to general registers \
     and how many locations are read",
);

pub const OUTPUT: Opt = valued(
    &["-o", "--output"],
    "OUT",
    "write the list to OUT and not to standard output. If OUT is a folder, as it must be for \
     several lists, it goes into that folder under its own name, with .txt for a text and .words \
     for a file of words",
);

pub const STRICT: Opt =
    flag(&["--strict"], "refuse a list that no theorem about runs covers, with status 1");

pub const SVG: Opt = valued(
    &["--svg"],
    "OUT",
    "write a picture to OUT as well, or into the folder OUT: for each register a bar from where a \
     value is written to where it is last read, over the lines; below it how many are needed. Any \
     browser shows it, and tells the line that the pointer is on. Where there are too many lines \
     for one to be seen, those that fall together are drawn as one",
);

pub const JSON: Opt = flag(
    &["--json"],
    "print one JSON document, for programs: results and counts, and refusals and mistakes with \
     their lines and columns. `rudzaviks help json` describes it",
);

pub const JOBS: Opt = valued(
    &["-j", "--jobs"],
    "N",
    "work on at most N lists at a time; without it, on as many as there are cores",
);

pub const COLOR: Opt = Opt {
    names: &["--color"],
    value: Some("WHEN"),
    values: &["auto", "always", "never"],
    about:
        "auto, always or never; auto colours what goes to a terminal, unless NO_COLOR is set or \
            TERM is dumb",
};

pub const HELP: Opt = flag(&["-h", "--help"], "explain the command and its options");

pub const VERSION: Opt = flag(&["-V", "--version"], "print the version");
