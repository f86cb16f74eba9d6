//! The README has what the tool gives, and its commands work.

use std::fs;
use std::os::unix::fs::symlink;
use std::path::{Path, PathBuf};
use std::process::Command;

use crate::support::{
    folder, output_of, run, samples, RunOutput, BRANCH, PAST_BRANCH, SAMPLE, TOOL, TWO_PART,
};

const README: &str = include_str!("../../../README.md");

/// The blocks of the README in a language.
fn blocks(language: &str) -> impl Iterator<Item = &'static str> {
    let fence = format!("\n```{language}\n");
    let parts: Vec<&str> = README.split(&fence).skip(1).collect();
    parts.into_iter().map(|part| part.split_once("```\n").expect("a block ends").0)
}

/// That the README has a text in a block of its own.
fn is_shown(text: &str) {
    let shown = text.replace(env!("CARGO_MANIFEST_DIR"), "importer");
    assert!(blocks("text").any(|block| block == shown), "the README should have:\n{shown}");
}

#[test]
fn the_readme_shows_what_the_samples_give() {
    let first = blocks("sh").next().expect("a command");
    assert_eq!(first, "./rudzaviks reduce importer/samples/volume.txt\n");
    for words in [
        &["reduce", SAMPLE][..],
        &["pressure", SAMPLE],
        &["survey", BRANCH],
        &["check", SAMPLE, BRANCH, TWO_PART],
    ] {
        is_shown(run(words, b"").succeeds().out());
    }
    is_shown(&run(&["reduce", PAST_BRANCH], b"").err);
    // Of these two the README has the lists alone.
    for sample in [TWO_PART, BRANCH] {
        let output = run(&["reduce", sample], b"").succeeds();
        let lists = output.out().lines().skip_while(|line| !line.starts_with("line"));
        let lists = lists.take_while(|line| !line.is_empty());
        is_shown(&lists.flat_map(|line| [line, "\n"]).collect::<String>());
    }
}

/// What of the README is typed and not run here, and what runs it.
const ELSEWHERE: [(&str, &str); 8] = [
    ("bash .ci/run", "the gate is the one that runs this"),
    ("tools/library", "the gate"),
    ("tools/library --check", "tools/test"),
    ("cargo install --path importer", "tests/builds.rs"),
    ("cargo run", "tests/quickstart.rs"),
    ("rt version", "tests/quickstart.rs"),
    ("rt run <stdin", "the gate, of every program with a file stdin"),
    ("cargo --version", "it is cargo's"),
];

/// All that is typed: the lines of its blocks, and what stands in the text.
fn commands() -> Vec<&'static str> {
    let prose = README.split("\n```").step_by(2);
    let spans = prose.flat_map(|text| text.split('`').skip(1).step_by(2));
    let programs = ["./rudzaviks ", "rudzaviks ", "rt ", "cargo ", "tools/library", "bash "];
    let typed = |span: &&str| programs.iter().any(|program| span.starts_with(program));
    // What is compiled is run by tests/quickstart.rs.
    let blocks = blocks("sh").flat_map(str::lines).filter(|line| !line.starts_with("cc "));
    blocks.chain(spans.filter(typed).filter(|span| !span.contains("COMMAND"))).collect()
}

/// A folder in which the README's commands find what they name.
fn at_the_top() -> PathBuf {
    let top = folder();
    fs::create_dir(top.join("importer")).expect("a folder");
    fs::rename(samples(), top.join("importer/samples")).expect("the samples are moved");
    symlink(TOOL, top.join("rudzaviks")).expect("the tool has its name");
    top
}

fn typed(line: &str, top: &Path) -> RunOutput {
    let path = std::env::var("PATH").expect("a path");
    let mut shell = Command::new("sh");
    shell.args(["-c", line]).current_dir(top).env("HOME", top);
    shell.env("PATH", format!("{}:{path}", top.display()));
    output_of(shell, b"")
}

#[test]
fn the_commands_of_the_readme_work() {
    let top = at_the_top();
    let mut tried = 0;
    for line in commands() {
        if ELSEWHERE.iter().any(|(known, _)| *known == line) {
            continue;
        }
        let is_known = ["./rudzaviks ", "rudzaviks ", "mkdir -p ~/"];
        assert!(is_known.iter().any(|start| line.starts_with(start)), "{line} is run by no test");
        let output = typed(line, &top);
        let expected = i32::from(line.contains("past_branch"));
        assert_eq!(output.status, expected, "{line}: {}", output.err);
        tried += 1;
    }
    assert!(tried >= 20, "{tried}");
}
