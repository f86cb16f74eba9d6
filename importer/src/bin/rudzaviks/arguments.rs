//! What the tool was asked to do.

use std::ffi::{OsStr, OsString};

use crate::colour::When;
use crate::commands::{Command, Operand};
use crate::failure::{Failure, HELP};
use crate::options::{self, Opt};
use crate::words::{self, Given};
use crate::{completion, help, man};

/// What `reduce` gives of a list.
#[derive(Clone, Copy, Debug, PartialEq, Eq)]
pub enum View {
    /// The list before and after.
    Beside,
    /// The lines of it that changed.
    Changes,
    /// The shortened list as text.
    Plain,
    /// The shortened list as a file of words.
    Words,
    /// Numbers.
    Stats,
}

#[derive(Debug)]
pub struct Arguments {
    pub command: Command,
    /// The lists; `-` stands for standard input.
    pub files: Vec<OsString>,
    pub view: View,
    /// Where to write the list to, if not to standard output.
    pub out: Option<OsString>,
    /// Where to write a picture to, if one is wanted.
    pub svg: Option<OsString>,
    /// Whether a list that no theorem is about is refused.
    pub strict: bool,
    pub json: bool,
    /// How many lists are worked on at a time, if that was said.
    pub jobs: Option<usize>,
    pub color: When,
}

#[derive(Debug)]
pub enum Request {
    Print(String),
    Run(Arguments),
}

/// Reads the words after the tool's name.
pub fn parse(words: &[OsString]) -> Result<Request, Failure> {
    let Some((first, rest)) = words.split_first() else {
        return Err(misused("a command is missing", None));
    };
    match first.to_str() {
        Some("--help" | "-h") => Ok(Request::Print(help::general())),
        Some("--version" | "-V") => Ok(Request::Print(help::version())),
        name => match name.and_then(Command::named) {
            Some(command) => on_command(command, rest),
            None => Err(misused(&format!("{} is no command", quoted(first)), None)),
        },
    }
}

fn on_command(command: Command, words: &[OsString]) -> Result<Request, Failure> {
    let given = words::read(command.entry(), words);
    let given = given.map_err(|what| misused(&what, Some(command)))?;
    if given.help {
        return Ok(Request::Print(help::on(command)));
    }
    let request = match command.entry().operand {
        Operand::Lists => arguments(command, given).map(Request::Run),
        _ => printed(command, &given.operands).map(Request::Print),
    };
    request.map_err(|what| misused(&what, Some(command)))
}

/// What a command that is about no list prints.
fn printed(command: Command, operands: &[OsString]) -> Result<String, String> {
    if let Some(more) = operands.get(1) {
        return Err(format!("{} is one word too many", quoted(more)));
    }
    let operand = operands.first().map(OsString::as_os_str);
    match (command, operand) {
        (Command::Man, None) => Ok(man::page()),
        (Command::Man, Some(word)) => Err(format!("{} is one word too many", quoted(word))),
        (Command::Completion, Some(shell)) => {
            shell.to_str().and_then(completion::of).ok_or_else(|| {
                format!("there is no completion for {}; bash, zsh and fish have one", quoted(shell))
            })
        }
        (Command::Completion, None) => Err("SHELL is missing: bash, zsh or fish".to_string()),
        (_, None) => Ok(help::general()),
        (_, Some(topic)) => {
            let text = topic.to_str().and_then(help::on_topic);
            text.ok_or_else(|| format!("there is no help on {}", quoted(topic)))
        }
    }
}

fn arguments(command: Command, given: Given) -> Result<Arguments, String> {
    let arguments = Arguments {
        command,
        view: view(&given)?,
        strict: given.has(&options::STRICT),
        json: given.has(&options::JSON),
        jobs: jobs(&given)?,
        color: given.value(&options::COLOR).map_or(Ok(When::Auto), color)?,
        out: given.value(&options::OUTPUT).map(OsStr::to_os_string),
        svg: given.value(&options::SVG).map(OsStr::to_os_string),
        files: given.operands,
    };
    if arguments.out.as_ref().is_some_and(|out| out == "-") {
        let how = if command == Command::Reduce { "with --plain" } else { "without -o" };
        return Err(format!("- is no OUT; {how} the list goes to standard output"));
    }
    one_output(&arguments)?;
    match arguments.files.iter().filter(|file| *file == "-").count() {
        _ if arguments.files.is_empty() => {
            Err("FILE is missing; - stands for standard input".to_string())
        }
        0 | 1 => Ok(arguments),
        _ => Err("- is named twice, and standard input can be read once".to_string()),
    }
}

/// The views that an option asks for.
const VIEWS: [(&Opt, View); 4] = [
    (&options::CHANGES, View::Changes),
    (&options::PLAIN, View::Plain),
    (&options::WORDS, View::Words),
    (&options::STATS, View::Stats),
];

fn view(given: &Given) -> Result<View, String> {
    let mut wanted = VIEWS.iter().filter(|(option, _)| given.has(option));
    match (wanted.next(), wanted.next()) {
        (None, _) => Ok(View::Beside),
        (Some((_, view)), None) => Ok(*view),
        (Some((one, _)), Some((other, _))) => {
            Err(format!("{} and {} are not for one run", one.name(), other.name()))
        }
    }
}

/// Standard output is for one thing, and for one list alone if that is written there.
fn one_output(arguments: &Arguments) -> Result<(), String> {
    let Arguments { command, view, json, .. } = arguments;
    let to_file = arguments.out.is_some();
    let prints = match view {
        View::Beside => false,
        View::Changes | View::Stats => true,
        View::Plain | View::Words => !to_file,
    };
    if let (true, Some((option, _))) = (*json && prints, VIEWS.iter().find(|(_, of)| of == view)) {
        let name = option.name();
        return Err(format!("{name} and --json both print, and are not for one run"));
    }
    let alone = match command {
        Command::Assemble | Command::Disassemble => true,
        Command::Reduce => matches!(view, View::Plain | View::Words),
        _ => false,
    };
    if alone && !json && !to_file && arguments.files.len() > 1 {
        return Err("several lists need a folder to go to: -o OUT".to_string());
    }
    Ok(())
}

fn jobs(given: &Given) -> Result<Option<usize>, String> {
    let Some(word) = given.value(&options::JOBS) else { return Ok(None) };
    match word.to_str().and_then(|word| word.parse().ok()) {
        Some(jobs) if jobs > 0 => Ok(Some(jobs)),
        _ => Err(format!("--jobs takes a number from 1 on, and not {}", quoted(word))),
    }
}

fn color(word: &OsStr) -> Result<When, String> {
    match word.to_str() {
        Some("auto") => Ok(When::Auto),
        Some("always") => Ok(When::Always),
        Some("never") => Ok(When::Never),
        _ => Err(format!("--color takes auto, always or never, and not {}", quoted(word))),
    }
}

pub fn quoted(word: &OsStr) -> String {
    format!("`{}`", rudzaviks::text::printable(&word.to_string_lossy()))
}

/// Wrong usage, and where help is found.
fn misused(what: &str, command: Option<Command>) -> Failure {
    let command = command.map_or(String::new(), |command| format!("{} ", command.name()));
    Failure::wrong(format!("rudzaviks: {what}\n{HELP}try `rudzaviks {command}--help`"))
}

#[cfg(test)]
mod tests {
    use super::*;
    use crate::commands::{ENTRIES, SHELLS, TOPICS};

    fn parsed(line: &str) -> Result<Request, Failure> {
        let words: Vec<OsString> = line.split_whitespace().map(OsString::from).collect();
        parse(&words)
    }

    fn arguments(line: &str) -> Arguments {
        match parsed(line) {
            Ok(Request::Run(arguments)) => arguments,
            other => panic!("{line}: {other:?}"),
        }
    }

    #[test]
    fn options_may_stand_before_and_after_the_file() {
        for line in [
            "assemble -o out in",
            "assemble in -o out",
            "assemble in --output out",
            "assemble --output=out in",
            "assemble -oout -- in",
        ] {
            let Arguments { command, files, out, svg, json, .. } = arguments(line);
            assert_eq!((command, json), (Command::Assemble, false), "{line}");
            assert_eq!((files, out, svg), (vec!["in".into()], Some("out".into()), None), "{line}");
        }
        for line in ["pressure --svg out in", "pressure in --svg=out"] {
            let Arguments { files, svg, .. } = arguments(line);
            assert_eq!((files, svg), (vec!["in".into()], Some("out".into())), "{line}");
        }
        assert_eq!(arguments("reduce - --stats").view, View::Stats);
        assert_eq!(arguments("reduce --plain -").view, View::Plain);
        assert_eq!(arguments("reduce x").view, View::Beside);
        assert_eq!(arguments("check - x").files, ["-", "x"]);
    }

    #[test]
    fn options_have_values() {
        for (line, jobs) in [
            ("check x", None),
            ("check -j 3 x", Some(3)),
            ("check -j3 x", Some(3)),
            ("check x --jobs=12", Some(12)),
        ] {
            assert_eq!(arguments(line).jobs, jobs, "{line}");
        }
        for (line, color) in [
            ("check x", When::Auto),
            ("check x --color auto", When::Auto),
            ("check x --color=always", When::Always),
            ("check --color never x", When::Never),
        ] {
            assert_eq!(arguments(line).color, color, "{line}");
        }
        let given = arguments("reduce --strict --json x");
        assert!(given.strict && given.json);
        let given = arguments("reduce --json --words -o out x y");
        assert_eq!((given.json, given.view), (true, View::Words));
    }

    #[test]
    fn two_dashes_end_the_options() {
        assert_eq!(arguments("check -- -V --json").files, ["-V", "--json"]);
        assert_eq!(arguments("check -- - --").files, ["-", "--"]);
    }

    #[test]
    fn help_is_given_for_each_command() {
        let help = ["--help", "-h", "help", "--version", "-V", "man"].map(str::to_string);
        let commands = ENTRIES.iter().flat_map(|entry| {
            let name = entry.name;
            [format!("{name} --help"), format!("{name} x -h"), format!("help {name}")]
        });
        let topics = TOPICS.iter().map(|topic| format!("help {topic}"));
        let shells = SHELLS.iter().map(|shell| format!("completion {shell}"));
        for line in help.into_iter().chain(commands).chain(topics).chain(shells) {
            assert!(matches!(parsed(&line), Ok(Request::Print(_))), "{line}");
        }
    }

    #[test]
    fn misuse_is_told() {
        let cases = [
            ("", "a command is missing"),
            ("shorten x", "`shorten` is no command"),
            ("help me", "there is no help on `me`"),
            ("help reduce check", "`check` is one word too many"),
            ("man x", "`x` is one word too many"),
            ("completion", "SHELL is missing"),
            ("completion tcsh", "no completion for `tcsh`"),
            ("reduce", "FILE is missing"),
            ("reduce --json --", "FILE is missing"),
            ("reduce - x -", "- is named twice"),
            ("check --plain x", "`--plain` is no option of check"),
            ("survey -o x y", "`-o` is no option of survey"),
            ("survey -ox y", "`-ox` is no option of survey"),
            ("assemble x -o", "-o needs a value, OUT"),
            ("assemble x --output", "--output needs a value, OUT"),
            ("assemble -o a -o b x", "-o is given twice"),
            ("reduce x --plain --stats", "--plain and --stats are not for one run"),
            ("reduce x --changes --words", "--changes and --words are not for one run"),
            ("reduce --json --stats x", "--stats and --json both print"),
            ("reduce --json --words x", "--words and --json both print"),
            ("reduce --plain=1 x", "--plain takes no value"),
            ("reduce --svg x y", "`--svg` is no option of reduce"),
            ("reduce --plain x y", "several lists need a folder"),
            ("disassemble x y", "several lists need a folder"),
            ("pressure --stats x", "`--stats` is no option of pressure"),
            ("pressure x --svg", "--svg needs a value"),
            ("pressure --svg x", "FILE is missing"),
            ("check --jobs 0 x", "--jobs takes a number from 1 on, and not `0`"),
            ("check --jobs=x x", "--jobs takes a number from 1 on, and not `x`"),
            ("check --color=red x", "--color takes auto, always or never"),
            ("check -x", "`-x` is no option of check"),
            ("reduce -o - x", "- is no OUT; with --plain the list goes to standard output"),
            ("assemble -o - x", "- is no OUT; without -o the list goes to standard output"),
        ];
        for (line, what) in cases {
            let failure = parsed(line).expect_err(line);
            assert_eq!(failure.status, 2);
            let said = failure.to_string();
            assert!(said.contains(what), "{line}: {said}");
        }
    }
}
