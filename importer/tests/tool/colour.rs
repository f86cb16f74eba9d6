//! Colours: on a terminal, and not where they are not wanted.

use std::process::Command;

use harness::programs::program;

use crate::support::{output_of, run, run_on, PAST_BRANCH, SAMPLE, TOOL};

#[test]
fn what_goes_to_a_pipe_has_no_colours() {
    for command in ["reduce", "pressure", "check"] {
        let plain = run(&[command, SAMPLE], b"").succeeds();
        assert!(!plain.out().contains('\u{1b}'));
        assert_eq!(run(&[command, "--color=never", SAMPLE], b"").succeeds().out(), plain.out());
    }
    assert!(!run(&["check", PAST_BRANCH], b"").err.contains('\u{1b}'));
}

/// The text without the orders for colours.
fn uncoloured(text: &str) -> String {
    let mut parts = text.split("\u{1b}[");
    let mut plain = parts.next().expect("a first part").to_string();
    for part in parts {
        let (order, rest) = part.split_once('m').expect("an order ends");
        assert!(order.chars().all(|c| c.is_ascii_digit() || c == ';'), "{order}");
        plain.push_str(rest);
    }
    plain
}

#[test]
fn colours_change_no_text() {
    for words in [&["reduce", SAMPLE][..], &["pressure", SAMPLE], &["reduce", "--changes", SAMPLE]]
    {
        let plain = run(words, b"").succeeds();
        let coloured = run(&[words, &["--color", "always"]].concat(), b"").succeeds();
        assert_eq!(uncoloured(coloured.out()), plain.out());
    }
    let shown = run(&["reduce", "--color=always", SAMPLE], b"").succeeds();
    for line in [
        "\u{1b}[1mline  before                    after\u{1b}[0m\n",
        "\n  14  %0 := Mem[1]              %0 := Mem[1]\n",
        "\u{1b}[36m  15  %0 := %0 Plus Param[3]  | %1 := %0 Plus Param[3]\u{1b}[0m\n",
        "\u{1b}[2m  31  nop                     < dropped: does nothing\u{1b}[0m\n",
    ] {
        assert!(shown.out().contains(line), "{line:?} is not in {:?}", shown.out());
    }
    let refused = run(&["check", PAST_BRANCH, "--color=always"], b"");
    assert_eq!(uncoloured(&refused.err), run(&["check", PAST_BRANCH], b"").err);
    assert!(refused.err.contains("\u{1b}[1;31m      |           ^\u{1b}[0m\n"), "{}", refused.err);
}

/// Lists that are made for programs have none in any case.
#[test]
fn lists_have_no_colours() {
    for words in [
        &["reduce", "--plain"][..],
        &["reduce", "--words"],
        &["reduce", "--json"],
        &["assemble"],
        &["disassemble"],
        &["pressure", "--json"],
    ] {
        let plain = run(&[words, &[SAMPLE]].concat(), b"").succeeds();
        let coloured = run(&[words, &["--color=always", SAMPLE]].concat(), b"").succeeds();
        assert_eq!(plain.out, coloured.out);
    }
}

/// What the tool gives on a terminal, with these variables; `script` makes one.
fn on_a_terminal(script: &str, variables: &[(&str, &str)]) -> String {
    let mut terminal = Command::new(script);
    terminal.args(["-qec", &format!("'{TOOL}' reduce '{SAMPLE}'"), "/dev/null"]);
    terminal.env_remove("NO_COLOR").env("TERM", "xterm").envs(variables.iter().copied());
    output_of(terminal, b"").succeeds().out().to_string()
}

#[test]
fn a_terminal_has_colours_if_nothing_is_against_them() {
    let Some(script) = program(&["script"], "a terminal") else { return };
    assert!(on_a_terminal(script, &[]).contains("\u{1b}[36m"));
    assert!(on_a_terminal(script, &[("NO_COLOR", "")]).contains("\u{1b}[36m"));
    for against in [("NO_COLOR", "1"), ("TERM", "dumb")] {
        assert!(!on_a_terminal(script, &[against]).contains('\u{1b}'), "{against:?}");
    }
}

/// The choice holds for what fails before a list is read too.
#[test]
fn failures_are_coloured_as_asked() {
    let words = ["reduce", "-o", "no such folder", SAMPLE, PAST_BRANCH];
    let always = run(&[&words[..], &["--color=always"]].concat(), b"");
    assert!(
        always.err.starts_with("\u{1b}[1mrudzaviks: no such folder is no folder"),
        "{}",
        always.err
    );
    assert!(!run(&[&words[..], &["--color=never"]].concat(), b"").err.contains('\u{1b}'));
}

/// What would drive the terminal is not sent to it.
#[test]
fn control_characters_are_shown_as_numbers() {
    let list = "settings count_regs=1\n%0 := Mem[0] \u{1b}[2J\u{7} # \u{1b}[31m\n";
    let failed = run_on("check", list);
    failed.fails(2, &["input:2:14: ", "found `\\u{1b}`", "    2 | %0 := Mem[0] \\u{1b}[2J\\u{7}"]);
    assert!(!failed.err.contains(['\u{1b}', '\u{7}']));
    let missing = run(&["check", "no \u{1b}[2Jfile"], b"");
    missing.fails(2, &["can't read no \\u{1b}[2Jfile"]);
    run(&["\u{1b}[2J"], b"").fails(2, &["`\\u{1b}[2J` is no command"]);
}
