//! Completions and the manual page.

use std::fs;
use std::process::Command;

use harness::programs::program;

use crate::support::{folder, output_of, run, COMMANDS};

const HELP: [&str; 2] = ["-h", "--help"];

/// The options of a command, by its help.
fn options(command: &str) -> Vec<String> {
    let help = run(&[command, "--help"], b"").succeeds();
    let lines = help.out().lines().filter_map(|line| line.strip_prefix("  -"));
    let words = lines.flat_map(|line| {
        let usage = format!("-{}", line.split("  ").next().expect("a name"));
        let names = usage.split([' ', ',']).filter(|word| word.starts_with('-'));
        names.map(str::to_string).collect::<Vec<_>>()
    });
    words.collect()
}

/// What bash offers where the last of these words is being typed.
fn offered(bash: &str, words: &[&str]) -> Vec<String> {
    let folder = folder();
    let completions = run(&["completion", "bash"], b"").succeeds();
    fs::write(folder.join("completions"), completions.out()).expect("they are written");
    let quoted: Vec<String> = words.iter().map(|word| format!("'{word}'")).collect();
    let script = format!(
        "source ./completions\nCOMP_WORDS=({})\nCOMP_CWORD={}\n_rudzaviks\n\
         printf '%s\\n' \"${{COMPREPLY[@]}}\"\n",
        quoted.join(" "),
        words.len() - 1
    );
    let mut shell = Command::new(bash);
    shell.args(["--norc", "-c", &script]).current_dir(folder);
    let output = output_of(shell, b"").succeeds();
    output.out().lines().filter(|line| !line.is_empty()).map(str::to_string).collect()
}

#[test]
fn bash_completes_commands_options_and_values() {
    let Some(bash) = program(&["bash"], "completion") else { return };
    let offered = |words: &[&str]| offered(bash, &[&["rudzaviks"], words].concat());
    assert_eq!(offered(&["re"]), ["reduce"]);
    let all = offered(&[""]);
    assert!(COMMANDS.iter().all(|command| all.iter().any(|word| word == command)), "{all:?}");
    assert_eq!(offered(&["--"]), ["--help", "--version"]);
    for command in COMMANDS {
        let mut expected = options(command);
        assert!(HELP.iter().all(|name| expected.iter().any(|option| option == name)));
        let mut options = offered(&[command, "-"]);
        options.sort();
        expected.sort();
        assert_eq!(options, expected, "{command}");
    }
    assert_eq!(offered(&["reduce", "--st"]), ["--stats", "--strict"]);
    assert_eq!(offered(&["reduce", "--color", "a"]), ["auto", "always"]);
    // bash takes --color=a for three words.
    assert_eq!(offered(&["reduce", "--color", "=", "n"]), ["never"]);
    assert_eq!(offered(&["reduce", "--color", "="]), ["auto", "always", "never"]);
    assert_eq!(offered(&["completion", ""]), ["bash", "zsh", "fish"]);
    assert_eq!(offered(&["help", "te"]), ["text"]);
    // bash names files where nothing is offered.
    for words in [&["reduce", ""][..], &["reduce", "vol"], &["assemble", "-o", ""]] {
        assert_eq!(offered(words), Vec::<String>::new(), "{words:?}");
    }
}

#[test]
fn zsh_and_fish_have_every_command_and_option() {
    let [zsh, fish] = ["zsh", "fish"].map(|shell| run(&["completion", shell], b"").succeeds());
    assert!(zsh.out().starts_with("#compdef rudzaviks\n"));
    for command in COMMANDS {
        let of_zsh =
            zsh.out().lines().find(|line| line.trim_start().starts_with(&format!("{command}) ")));
        let of_zsh = of_zsh.expect("a line for the command");
        let seen = format!("'__fish_seen_subcommand_from {command}'");
        let of_fish: Vec<&str> = fish.out().lines().filter(|line| line.contains(&seen)).collect();
        for option in options(command) {
            assert!(of_zsh.contains(&format!(" '{option}[")), "{command} {option}");
            let name = match option.strip_prefix("--") {
                Some(long) => format!(" -l {long} "),
                None => format!(" -s {} ", &option[1..]),
            };
            assert!(of_fish.iter().any(|line| line.contains(&name)), "{command} {option}");
        }
    }
    for (name, text) in [("zsh", zsh.out()), ("fish", fish.out())] {
        let Some(shell) = program(&[name], "its completion") else { continue };
        let mut check = Command::new(shell);
        check.arg("-n").args(if name == "zsh" { Some("/dev/stdin") } else { None });
        output_of(check, text.as_bytes()).succeeds();
    }
}

#[test]
fn the_manual_page_has_everything() {
    let page = run(&["man"], b"").succeeds();
    assert!(page.out().starts_with(".TH RUDZAVIKS 1 "));
    for section in
        ["NAME", "SYNOPSIS", "COMMANDS", "TEXT FORM", "EXIT STATUS", "ENVIRONMENT", "EXAMPLES"]
    {
        assert!(page.out().contains(&format!("\n.SH {section}\n")), "{section}");
    }
    for command in COMMANDS {
        let (_, rest) =
            page.out().split_once(&format!("\n.SS \"rudzaviks {command} ")).expect("its part");
        let part = rest.split("\n.S").next().expect("its text");
        for option in options(command).iter().filter(|option| !HELP.contains(&option.as_str())) {
            assert!(part.contains(&option.replace('-', "\\-")), "{command} {option}");
        }
    }
    let Some(groff) = program(&["groff"], "the manual page") else { return };
    let mut formatted = Command::new(groff);
    formatted.args(["-man", "-Tutf8", "-ww", "-P-cbou"]);
    let formatted = output_of(formatted, page.out().as_bytes()).succeeds();
    for line in
        ["   rudzaviks reduce [OPTIONS] FILE...", "       Fused          %0 := %1 * %2 + %3"]
    {
        assert!(formatted.out().contains(line), "{line:?} is not in {}", formatted.out());
    }
}
