//! The help, and wrong usage.

use std::fs;
use std::process::{Command, Stdio};

use crate::support::{lines_fit, place, run, run_in, samples, COMMANDS, SAMPLE, TOOL};

/// All commands.
fn commands() -> impl Iterator<Item = &'static str> {
    COMMANDS.into_iter().chain(["completion", "man", "help"])
}

#[test]
fn help_is_given() {
    let general = run(&["--help"], b"").succeeds();
    for words in [&["help"][..], &["-h"]] {
        assert_eq!(run(words, b"").succeeds().out(), general.out());
    }
    lines_fit(general.out());
    for command in commands() {
        assert!(general.out().contains(&format!("\n  {command} ")), "{command}");
        let help = run(&[command, "--help"], b"").succeeds();
        assert!(help.out().starts_with(&format!("usage: rudzaviks {command}")));
        assert_eq!(run(&["help", command], b"").succeeds().out(), help.out());
        lines_fit(help.out());
    }
    let form = run(&["help", "text"], b"").succeeds();
    assert!(form.out().contains("\nFused          %0 := %1 * %2 + %3\n"));
    lines_fit(form.out());
    let json = run(&["help", "json"], b"").succeeds();
    assert!(json.out().contains("\nmistakes      line, column, expected and found"));
    lines_fit(json.out());
}

#[test]
fn the_version_is_told() {
    let version = concat!("rudzaviks ", env!("CARGO_PKG_VERSION"), "\n");
    for word in ["--version", "-V"] {
        assert_eq!(run(&[word], b"").succeeds().out(), version);
    }
}

/// Every command that a help text has for an example, in their order.
#[test]
fn the_examples_of_the_help_work() {
    let samples = samples();
    let mut examples = 0;
    for command in commands() {
        let help = run(&[command, "--help"], b"").succeeds();
        let shown = help.out().split_once("\nexamples:\n\n").expect("there are examples").1;
        for line in shown.lines() {
            let mut words = line.split_whitespace();
            assert_eq!(words.next(), Some("rudzaviks"), "{line}");
            let words: Vec<&str> = words.collect();
            assert_eq!(words[0], command, "{line}");
            let output = run_in(&samples, &words, b"").succeeds();
            let is_written = words.contains(&"-o");
            assert_eq!(output.out.is_empty(), is_written, "{line} shows something, or writes it");
            examples += 1;
        }
    }
    assert!(examples >= 17, "{examples}");
    for made in ["shorter.txt", "shorter.words", "volume.words", "volume.svg"] {
        assert!(samples.join(made).is_file(), "{made}");
    }
}

/// Each option that a help text has is one, and takes a value if the text says so.
#[test]
fn the_options_of_the_help_are_taken() {
    for command in COMMANDS {
        let help = run(&[command, "--help"], b"").succeeds();
        let shown = help.out().lines().filter_map(|line| line.strip_prefix("  -"));
        let options: Vec<&str> = shown.filter_map(|line| line.split("  ").next()).collect();
        assert!(options.len() >= 4, "{command}: {options:?}");
        for option in options {
            let usage = format!("-{option}");
            let (names, value) = match usage.rsplit_once(' ') {
                Some((names, value)) if !value.starts_with('-') => (names.to_string(), Some(value)),
                _ => (usage.clone(), None),
            };
            for name in names.split(", ") {
                is_taken(command, name, value);
            }
        }
    }
}

fn is_taken(command: &str, name: &str, value: Option<&str>) {
    let alone = run(&[command, name], b"");
    if ["-h", "--help"].contains(&name) {
        alone.succeeds();
        return;
    }
    match value {
        Some(value) => alone.fails(2, &[&format!("{name} needs a value, {value}")]),
        None => alone.fails(2, &["FILE is missing"]),
    }
}

#[test]
fn two_dashes_end_the_options() {
    let samples = samples();
    fs::rename(samples.join("volume.txt"), samples.join("--json")).expect("a new name");
    let output = run_in(&samples, &["check", "--", "--json"], b"").succeeds();
    assert_eq!(output.out(), "--json: passes all eleven questions\n");
}

#[test]
fn what_can_not_be_done_is_said() {
    run(&[], b"").fails(2, &["a command is missing", "rudzaviks --help"]);
    run(&["shorten", "x"], b"").fails(2, &["`shorten` is no command"]);
    run(&["reduce"], b"").fails(2, &["FILE is missing", "rudzaviks reduce --help"]);
    run(&["check", "--plain", "-"], b"").fails(2, &["`--plain` is no option of check"]);
    run(&["reduce", "--stats", "--plain", "-"], b"").fails(2, &["are not for one run"]);
    run(&["pressure", "--plain", "-"], b"").fails(2, &["`--plain` is no option of pressure"]);
    run(&["reduce", "-", "--svg", "x"], b"").fails(2, &["`--svg` is no option of reduce"]);
    run(&["pressure", "-", "--svg"], b"")
        .fails(2, &["--svg needs a value, OUT", "rudzaviks pressure --help"]);
    run(&["pressure", "--svg", "x"], b"").fails(2, &["FILE is missing"]);
    let nowhere = place("no such folder/list.txt");
    run(&["pressure", SAMPLE, "--svg", &nowhere], b"").fails(2, &["can't write", &nowhere]);
    run(&["check", &nowhere], b"").fails(2, &["can't read", &nowhere]);
    run(&["check", ""], b"").fails(2, &["can't read ``: "]);
    run(&["check", env!("CARGO_MANIFEST_DIR")], b"").fails(2, &["can't read", "directory"]);
    run(&["disassemble", SAMPLE, "-o", &nowhere], b"").fails(2, &["can't write", &nowhere]);
    run(&["help", "x", "y"], b"").fails(2, &["`y` is one word too many", "rudzaviks help --help"]);
    run(&["completion", "tcsh"], b"").fails(2, &["no completion for `tcsh`"]);
}

/// Where nothing more can be written, the status tells; a reader that has had enough is no failure.
#[test]
fn a_failed_write_has_a_status() {
    for words in [&["reduce", SAMPLE][..], &["reduce", "--json", SAMPLE], &["help"], &["man"]] {
        let mut full = Command::new(TOOL);
        let disk = fs::OpenOptions::new().write(true).open("/dev/full").expect("a full disk");
        let output = full.args(words).stdout(disk).output().expect("the tool runs");
        let err = String::from_utf8_lossy(&output.stderr);
        assert_eq!(output.status.code(), Some(2), "{err}");
        assert!(err.starts_with("rudzaviks: can't write standard output: "), "{err}");
    }
    let mut closed = Command::new(TOOL);
    closed.args(["help", "text"]).stdout(Stdio::piped()).stderr(Stdio::piped());
    let mut closed = closed.spawn().expect("the tool starts");
    drop(closed.stdout.take());
    let output = closed.wait_with_output().expect("the tool ends");
    assert_eq!((output.status.code(), output.stderr.len()), (Some(0), 0));
}
