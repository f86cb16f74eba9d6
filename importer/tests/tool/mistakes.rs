//! Mistakes in a text, and bytes that are none.

use std::fs;

use crate::support::{place, run, run_on, COMMANDS};

#[test]
fn a_mistake_is_shown_with_its_line_and_column() {
    let list = "settings count_regs=2\n%0 := Mem[0]\n  %1 := %0 Pluss %0 # sum\n";
    let shown = "    3 |   %1 := %0 Pluss %0 # sum\n      |            ^\n";
    for command in COMMANDS {
        let output = run_on(command, list);
        output.fails(2, &["standard input:3:12: expected one of Plus, ", "found `Pluss`\n", shown]);
    }
    let path = place("mistake.txt");
    fs::write(&path, "settings count_regs=2\n%0 = Mem[0]\n").expect("it is written");
    run(&["check", &path], b"").fails(2, &[&format!("{path}:2:4: expected `:=`, found `=`")]);
    run_on("check", "").fails(2, &["standard input:1:1: expected the settings first"]);
}

/// Every line's mistake is told, up to twenty.
#[test]
fn the_mistakes_of_all_lines_are_told() {
    let bad = |count: usize| {
        let lines: String = (0..count).map(|at| format!("nop\nno{at}\n")).collect();
        run_on("check", &format!("settings count_regs=1\n{lines}"))
    };
    for (count, told, more) in [
        (1, 1, ""),
        (20, 20, ""),
        (21, 20, "input: and 1 more line with"),
        (50, 20, "and 30 more lines"),
    ] {
        let failed = bad(count);
        failed.fails(2, &["standard input:3:1: expected an instruction, found `no0`\n", more]);
        let places = failed.err.matches(": expected an instruction, found").count();
        assert_eq!((places, failed.err.contains(" more line")), (told, !more.is_empty()));
    }
    // What is wrong with the settings hides no other line's mistake.
    let first =
        "input:1:10: expected `count_regs`, `args`, `complex`, `arm` or `compress`, found `x`\n";
    run_on("check", "settings x\nnop\nnoop\n").fails(2, &[first, "input:3:1: ", "found `noop`"]);
    let twice = run_on("check", "nop\nsettings count_regs=1\n");
    twice.fails(
        2,
        &["input:1:1: expected the settings first", "input:2:1: expected an instruction"],
    );
}

#[test]
fn a_text_without_a_list_is_told() {
    for (text, said) in [
        ("", "standard input:1:1: expected the settings first, "),
        ("", "found an empty text\n"),
        ("# a list\n\n# of nothing\n", "standard input:3:1: expected the settings first, "),
        ("# a list\n\n# of nothing\n", "found nothing but comments\n    3 | # of nothing\n"),
    ] {
        run_on("check", text).fails(2, &[said]);
    }
}

#[test]
fn the_settings_stand_in_any_order() {
    let orders = [
        "count_regs=2 args=1 complex",
        "complex args=1 count_regs=2",
        "args=1 complex count_regs=2",
    ];
    for settings in orders {
        let text = run_on("disassemble", &format!("settings {settings}\n")).succeeds();
        assert_eq!(text.out(), "settings count_regs=2 args=1 complex\n");
    }
    run_on("check", "settings args=1\n").fails(2, &["input:1:16: expected `count_regs=`"]);
    let twice = run_on("check", "settings args=1 count_regs=1 args=2\n");
    twice.fails(2, &["input:1:30: expected each setting once, found `args` again\n"]);
}

/// A mark before the text, as some editors put it, moves no column.
#[test]
fn a_mark_before_the_text_counts_for_no_column() {
    let failed = run_on("check", "\u{feff}settings count=1\n");
    failed.fails(2, &["input:1:10: ", "\n    1 | settings count=1\n      |          ^\n"]);
}

#[test]
fn a_long_line_is_not_shown_whole() {
    let long = "x".repeat(100_000);
    let list = format!("settings count_regs=1\n{long}\n%0 := Mem[0] {long}\n");
    let failed = run_on("check", &list);
    failed
        .fails(2, &["input:2:1: expected an instruction, found `xxx", "input:3:14: expected the"]);
    assert!(failed.err.lines().all(|line| line.chars().count() < 110), "{}", failed.err);
    assert_eq!(failed.err.matches('…').count(), 4, "each line, and what was found: {}", failed.err);
}

#[test]
fn bytes_that_are_no_text_are_told_apart() {
    let list = "settings count_regs=1\nnop # ü\n";
    let utf16: Vec<u16> = list.encode_utf16().collect();
    let little: Vec<u8> = utf16.iter().flat_map(|unit| unit.to_le_bytes()).collect();
    let big: Vec<u8> = utf16.iter().flat_map(|unit| unit.to_be_bytes()).collect();
    let marked = |mark: &[u8], bytes: &[u8]| [mark, bytes].concat();
    let texts = [marked(b"\xff\xfe", &little), marked(b"\xfe\xff", &big), little, big];
    let said =
        ["input looks like text in UTF-16 or UTF-32\n", "help: save the list as text in UTF-8\n"];
    for command in COMMANDS {
        for text in &texts {
            run(&[command, "-"], text).fails(2, &said);
        }
        let latin = b"settings count_regs=1\n# \xc3\xbc\nnop # \xfc\n";
        let said = "input:3:7: the byte 0xfc is not UTF-8, and this is no file of words either\n";
        run(&[command, "-"], latin).fails(2, &[said, "help: save the list as text in UTF-8\n"]);
        let zero = b"settings count_regs=1\nnop\0\nnoop\n";
        run(&[command, "-"], zero).fails(2, &["input:2:4: ", "found `\\u{0}`", "input:3:1: "]);
    }
}

/// How many bytes were expected, and from which count.
#[test]
fn a_file_of_another_length_is_explained() {
    let list = "settings count_regs=1\nLoad Args [Mem[1], Mem[2]]; real, true\nnop\n";
    let file = run_on("assemble", list).succeeds().out;
    let counts =
        "its counts of pairs and records, 2 at byte 20 and 2 at byte 40, ask for 108 bytes";
    let with = |at: usize, byte: u8| {
        let mut file = file.clone();
        file[at] = byte;
        file
    };
    let over = [with(20, 255), with(41, 2)].map(|mut file| {
        file[21] = if file[20] == 255 { 255 } else { 0 };
        file
    });
    let cases = [
        (file[..107].to_vec(), format!("{counts}, and it has 107, 1 too few\n")),
        ([&file[..], b"12"].concat(), format!("{counts}, and it has 110, 2 too many\n")),
        (
            file[..27].to_vec(),
            "it has 27 bytes, and a file has at least 28: five settings".to_string(),
        ),
        (
            file[..43].to_vec(),
            "its count of pairs, 2 at byte 20, asks for at least 44 bytes".to_string(),
        ),
        (over[0].clone(), "its count of pairs, 65535 at byte 20, is over".to_string()),
        (over[1].clone(), "its count of records, 514 at byte 40, ".to_string()),
    ];
    for (bytes, said) in &cases {
        for command in ["reduce", "check", "survey", "pressure"] {
            run(&[command, "-"], bytes).fails(1, &["input: refused by question 3: ", said]);
        }
    }
    for (bytes, said) in &cases[..5] {
        for command in ["assemble", "disassemble"] {
            let failed = run(&[command, "-"], bytes);
            let help =
                "\nhelp: copy it again, or write it from its text with `rudzaviks assemble`\n";
            failed.fails(2, &["input: this is no file of words\n", said, help]);
            assert!(!failed.err.contains("question"), "no question was put: {}", failed.err);
        }
    }
}

/// Some editors of long ago end lines so.
#[test]
fn carriage_returns_alone_are_told() {
    let failed = run_on("check", "settings count_regs=1\r%0 := Mem[0]\r");
    let help = "help: a carriage return alone ends no line; save the list with line feeds\n";
    failed.fails(2, &["standard input:1:23: ", help]);
    assert!(!run_on("check", "settings count_regs=1\r\nnoop\r\n").err.contains("help"));
}

/// Which of the pairs that it names.
#[test]
fn a_bad_pair_is_told() {
    let list = "settings count_regs=1\nLoad Args [Mem[1], Mem[2], Mem[3]]; real, true\n";
    let file = run_on("assemble", list).succeeds().out;
    let with = |at: usize, byte: u8| {
        let mut file = file.clone();
        file[at] = byte;
        file
    };
    let space =
        "word 2 is 3 and should be a count of pairs that are all of space 0 to 2, but pair 1 \
                 is of space 9\n";
    run(&["check", "-"], &with(24 + 8, 9)).fails(1, &["question 6 at record 0", space]);
    let count = "word 2 is 4 and should be a count of pairs that the table has from pair 0 on; it \
                 has 3 pairs\n";
    run(&["check", "-"], &with(52 + 8, 4)).fails(1, &["question 6 at record 0", count]);
}
