//! The tool's commands and options: the one table that words are read by, and that the help, the
//! manual page and the shell completions are made from.

use crate::options::{self, Opt};

#[derive(Clone, Copy, Debug, PartialEq, Eq)]
pub enum Command {
    Reduce,
    Check,
    Survey,
    Pressure,
    Assemble,
    Disassemble,
    Completion,
    Man,
    Help,
}

/// What follows a command and its options.
#[derive(Clone, Copy, Debug, PartialEq, Eq)]
pub enum Operand {
    /// One list or several.
    Lists,
    /// A name out of these, with what it is called in the help.
    OneOf(&'static str, &'static [&'static str]),
    /// A command, or a topic, or nothing.
    Topic,
    Nothing,
}

/// A command as it is described.
pub struct Entry {
    pub command: Command,
    pub name: &'static str,
    pub operand: Operand,
    /// What it does, in a line.
    pub brief: &'static str,
    /// What it does, in paragraphs.
    pub about: &'static [&'static str],
    pub options: &'static [&'static Opt],
    /// Uses of it, as they are typed.
    pub examples: &'static [&'static str],
}

/// The shells that there are completions for.
pub const SHELLS: [&str; 3] = ["bash", "zsh", "fish"];

/// What `help` explains besides commands.
pub const TOPICS: [&str; 2] = ["text", "json"];

pub const ENTRIES: [Entry; 9] =
    [REDUCE, CHECK, SURVEY, PRESSURE, ASSEMBLE, DISASSEMBLE, COMPLETION, MAN, HELP];

impl Command {
    pub fn named(name: &str) -> Option<Command> {
        ENTRIES.iter().find(|entry| entry.name == name).map(|entry| entry.command)
    }

    pub fn entry(self) -> &'static Entry {
        let entry = ENTRIES.iter().find(|entry| entry.command == self);
        entry.expect("every command is in the table")
    }

    pub fn name(self) -> &'static str {
        self.entry().name
    }

    /// Whether it asks the verified library something.
    pub fn needs_library(self) -> bool {
        use Command::{Check, Pressure, Reduce, Survey};
        matches!(self, Reduce | Check | Survey | Pressure)
    }
}

impl Operand {
    /// What it is called in a line of usage.
    pub fn name(self) -> &'static str {
        match self {
            Operand::Lists => "FILE...",
            Operand::OneOf(name, _) => name,
            Operand::Topic => "[TOPIC]",
            Operand::Nothing => "",
        }
    }
}

const REDUCE: Entry = Entry {
    command: Command::Reduce,
    name: "reduce",
    operand: Operand::Lists,
    brief: "show a list before and after, and why each dropped line was dropped",
    about: &[
        "Shortens the list and shows it before and after, side by side. In between stands | where a \
         line's registers changed and < where it was dropped; then the reason follows in the place \
         of the line. The last lines count what there was, what is left and what was dropped, and \
         tell how many registers are needed at once at most; `pressure` shows where.",
        "That the shortened list computes the same is proved of all lists but those with a call, or \
         with lines that load and save a call's arguments. Such a list is shortened by the same \
         rules, and a line says that no theorem covers it.",
    ],
    options: &[
        &options::CHANGES,
        &options::PLAIN,
        &options::WORDS,
        &options::STATS,
        &options::OUTPUT,
        &options::STRICT,
        &options::JSON,
        &options::JOBS,
        &options::COLOR,
    ],
    examples: &[
        "rudzaviks reduce volume.txt",
        "rudzaviks reduce --changes volume.txt branch.txt",
        "rudzaviks reduce -o shorter.txt volume.txt",
        "rudzaviks reduce --words -o shorter.words volume.txt",
        "rudzaviks reduce --stats --jobs 2 volume.txt branch.txt two_part.txt",
    ],
};

const CHECK: Entry = Entry {
    command: Command::Check,
    name: "check",
    operand: Operand::Lists,
    brief: "say whether a list may be reduced; if not, which line is at fault and why",
    about: &[
        "Puts the eleven questions that a list must pass before it may be reduced: those of the \
         numbers 1 to 9, 15 and 16. If the answer to one is no, says which question it is, shows \
         the line at fault, and explains.",
        "If the list has kinds that no theorem about runs covers, which are those of calls and of what \
         loads and saves their arguments, a line says so.",
    ],
    options: &[&options::STRICT, &options::JSON, &options::JOBS, &options::COLOR],
    examples: &[
        "rudzaviks check volume.txt",
        "rudzaviks check --strict volume.txt branch.txt",
        "rudzaviks check --json volume.txt",
    ],
};

const SURVEY: Entry = Entry {
    command: Command::Survey,
    name: "survey",
    operand: Operand::Lists,
    brief: "show which registers a list uses, and where its labels are",
    about: &[
        "Shows which general registers the list uses, how many they are, and where its labels are.",
        "A register is used if a line writes it. The condition of a branch counts as well; a line \
         that writes two registers, (%0 + %1*im) := ..., counts only if both are general. With the \
         setting compress all 64 registers are used.",
        "A label is shown if it is in the list or a line jumps to it: the place of the last line \
         that has its number, and how many lines have it if several do; or that it is absent, and \
         the first line that jumps to it. The number of a call is no label. Each number takes a \
         walk over the list: thousands of them in a long list take seconds, tens of thousands a \
         minute.",
        "Of the eleven questions only 1, 3 and 5 to 7 are put: a list that may not be reduced may \
         be surveyed all the same. A refusal is explained as `check` does it.",
    ],
    options: &[&options::JSON, &options::JOBS, &options::COLOR],
    examples: &["rudzaviks survey branch.txt"],
};

const PRESSURE: Entry = Entry {
    command: Command::Pressure,
    name: "pressure",
    operand: Operand::Lists,
    brief: "show how many registers are needed past each line, as a chart or as a picture",
    about: &[
        "Shows how full the registers get: for each line how many registers of the shortened list \
         are needed past it, as a number and as a bar. < marks a line that was dropped. The last \
         line tells the largest of these numbers, of how many registers there are, and where it \
         comes first.",
        "A register is needed past a line if a value that was put into it by then is read later. \
         Two values in one register count once. What happens to be left in a register until a load \
         of it is dropped is not needed in between; and behind a goto nothing that was written \
         before it is.",
    ],
    options: &[&options::SVG, &options::JSON, &options::JOBS, &options::COLOR],
    examples: &["rudzaviks pressure volume.txt", "rudzaviks pressure --svg volume.svg volume.txt"],
};

const ASSEMBLE: Entry = Entry {
    command: Command::Assemble,
    name: "assemble",
    operand: Operand::Lists,
    brief: "write a list as a file of words",
    about: &[
        "Writes the list as a file of 32-bit words, low byte first: five settings, the count of \
         pairs and the pairs, the count of records and the records. Records are the instructions, \
         and pairs the locations that Load Args lines name.",
        "A file holds at most 512 records and 512 pairs; a longer list is not written. The \
         questions are not put; `check` puts them.",
    ],
    options: &[&options::OUTPUT, &options::JSON, &options::JOBS, &options::COLOR],
    examples: &["rudzaviks assemble -o volume.words volume.txt"],
};

const DISASSEMBLE: Entry = Entry {
    command: Command::Disassemble,
    name: "disassemble",
    operand: Operand::Lists,
    brief: "write a list as text",
    about: &[
        "Writes the list as text, with the settings first. The questions are not put; `check` puts \
         them.",
        "A record that is no instruction is written as its eight words, with a remark that says \
         which word is wrong. No command takes such a line for an instruction, so that a damaged \
         list is not mistaken for a shorter one. A file with more than 512 records or pairs is \
         written too if it is as long as its counts say. Both are told, and the exit status is 1.",
    ],
    options: &[&options::OUTPUT, &options::JSON, &options::JOBS, &options::COLOR],
    examples: &["rudzaviks disassemble volume.words"],
};

const COMPLETION: Entry = Entry {
    command: Command::Completion,
    name: "completion",
    operand: Operand::OneOf("SHELL", &SHELLS),
    brief: "print what a shell needs to complete commands and options",
    about: &[
        "Prints the completions for bash, zsh or fish. For bash, put them into \
         ~/.local/share/bash-completion/completions/rudzaviks; for zsh, into a file _rudzaviks in a \
         folder of $fpath; for fish, into ~/.config/fish/completions/rudzaviks.fish.",
    ],
    options: &[],
    examples: &["rudzaviks completion bash"],
};

const MAN: Entry = Entry {
    command: Command::Man,
    name: "man",
    operand: Operand::Nothing,
    brief: "print the manual page",
    about: &["Prints the manual page. Put it into ~/.local/share/man/man1/rudzaviks.1, and `man \
         rudzaviks` finds it; or read it with `rudzaviks man | man -l -`."],
    options: &[],
    examples: &["rudzaviks man"],
};

const HELP: Entry = Entry {
    command: Command::Help,
    name: "help",
    operand: Operand::Topic,
    brief: "help COMMAND says more; help text explains the text form, help json what --json gives",
    about: &[
        "Explains a command; or text, the form that lists are written in; or json, what --json \
         gives. Without a topic, names the commands.",
    ],
    options: &[],
    examples: &["rudzaviks help reduce", "rudzaviks help text", "rudzaviks help json"],
};
