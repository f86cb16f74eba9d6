//! A list before and after.

use crate::support::{lines_fit, run, run_on, BRANCH, SAMPLE, TWO_PART};

#[test]
fn the_sample_is_shown_before_and_after() {
    let output = run(&["reduce", SAMPLE], b"").succeeds();
    lines_fit(output.out());
    for reason in ["does nothing", "is already in", "onto itself", "nothing kept reads"] {
        assert!(output.out().contains(reason), "{reason}");
    }
    let counts = "26 instructions before, 19 after; dropped: 1 nop, 3 loads, 1 move, 2 saves\n\
                  at most 3 of 4 registers needed at once\n";
    assert!(output.out().ends_with(counts), "{}", output.out());
}

/// That a sample is shown with these lines after the mark, by number, and these counts.
fn is_shown(sample: &str, lines: &[(u32, char, &str)], counts: &str) {
    let output = run(&["reduce", sample], b"").succeeds();
    lines_fit(output.out());
    for (number, mark, after) in lines {
        let mut shown = output.out().lines().map(str::trim_start);
        let line = shown.find(|line| line.starts_with(&format!("{number}  "))).expect("its line");
        assert!(line.ends_with(&format!(" {mark} {after}")), "{line}");
    }
    assert!(output.out().ends_with(&format!("{counts}\n")), "{}", output.out());
}

/// A load of two halves stays if one of them is at hand, and goes if both are.
#[test]
fn the_two_part_sample_is_shown_before_and_after() {
    let lines = [
        (14, '|', "(%1 + %0*im) := Mem[0]"),
        (16, '<', "dropped: nothing kept reads Stack[16] or Stack[17], at or above"),
        (17, '<', "dropped: Stack[16] is already in %2, and Stack[17] in %1"),
        (18, '|', "Mem[2] := (%2 + %1*im)"),
    ];
    let counts = "8 instructions before, 6 after; dropped: 1 load, 1 save\n\
                  at most 2 of 4 registers needed at once";
    is_shown(TWO_PART, &lines, counts);
}

/// What a try works out stays in registers; past the branch it is loaded again.
#[test]
fn the_sample_with_a_loop_is_shown_before_and_after() {
    let lines = [
        (19, '<', "dropped: nothing kept reads Stack[16], at or above the fixed mark"),
        (27, '<', "dropped: Mem[2] is already in %2"),
        (28, '<', "dropped: Stack[16] is already in %0"),
        (33, '|', "if %3 goto 7"),
        (37, ' ', "%1 := Mem[2]"),
    ];
    let counts = "22 instructions before, 19 after; dropped: 2 loads, 1 save\n\
                  at most 2 of 4 registers needed at once";
    is_shown(BRANCH, &lines, counts);
}

#[test]
fn long_instructions_are_broken() {
    let locations = ["Stack[4294967295]"; 12].join(", ");
    let list = format!(
        "settings count_regs=32 args=0 complex\n(%10 + %11*im) := Stack[4294967294]\n\
         (%12 + %13*im) := (%10 + %11*im) Divide (%10 + %11*im)\n\
         Load Args [{locations}]; complex, true\nStack[4294967294] := (%12 + %13*im)\n"
    );
    let output = run_on("reduce", &list).succeeds();
    lines_fit(output.out());
    let counts = "4 instructions before, 4 after; dropped: nothing\n\
                  at most 2 of 32 registers needed at once\n";
    assert!(output.out().contains(counts), "{}", output.out());
}

#[test]
fn counts_are_given_as_numbers() {
    let sample = run(&["reduce", "--stats", SAMPLE], b"").succeeds();
    let expected = "\
instructions before                  26
instructions after                   19
nops dropped                          1
loads dropped                         3
moves dropped                         1
saves dropped                         2
values written to general registers  19
locations read                        8
general registers                     4
most registers needed at once         3
instructions that no theorem covers   0
";
    assert_eq!(sample.out(), expected);
    let file = run(&["assemble", SAMPLE], b"").succeeds().out;
    assert_eq!(run(&["reduce", "-", "--stats"], &file).succeeds().out(), expected);
    let empty = run(&["reduce", "--stats", "-"], b"settings count_regs=64\n").succeeds();
    let numbers = empty.out().lines().map(|line| line.split_at(37).1);
    let expected = [" 0", " 0", " 0", " 0", " 0", " 0", " 0", " 0", "64", " 0", " 0"];
    assert_eq!(numbers.collect::<Vec<_>>(), expected);
    run(&["reduce", "--stats", "-"], b"settings count_regs=65\n").fails(1, &["question 1"]);
}

#[test]
fn a_list_too_long_for_a_file_is_reduced_all_the_same() {
    let list = format!("settings count_regs=1\n{}%0 := Mem[0]\n", "nop\n".repeat(512));
    let output = run_on("reduce", &list).succeeds();
    let counts = "\n513 instructions before, 1 after; dropped: 512 nops\n\
                  no value is needed past the instruction that writes it\n";
    assert!(output.out().ends_with(counts));
    run_on("check", &list).succeeds();
    let assembled = run_on("assemble", &list);
    assembled.fails(1, &["input: a file holds at most 512 instructions, and this list has 513"]);
    assert!(!assembled.err.contains("question"), "it puts none: {}", assembled.err);
}

#[test]
fn the_last_register_is_taken() {
    let list = "settings count_regs=64 args=0\n%63 := Mem[0]\n%63 := Neg(%63)\nMem[1] := %63\n";
    run_on("check", list).succeeds();
    let file = run_on("assemble", list).succeeds().out;
    assert_eq!(run(&["disassemble", "-"], &file).succeeds().out(), list);
    let plain = run(&["reduce", "--plain", "-"], list.as_bytes()).succeeds();
    let left = "%0 := Mem[0]\n%1 := Neg(%0)\nMem[1] := %1\n";
    assert_eq!(plain.out(), format!("settings count_regs=64 args=0\n{left}"));
    let shown = run_on("survey", list).succeeds();
    assert!(shown.out().ends_with("\n\n1 of 64 registers used: %63\nno labels\n"));
    let fewer = list.replace("=64", "=63");
    run_on("check", &fewer).fails(1, &["question 7", "the general registers are %0 to %62"]);
}

#[test]
fn changed_lines_may_be_shown_alone() {
    for sample in [SAMPLE, TWO_PART, BRANCH] {
        let all = run(&["reduce", sample], b"").succeeds();
        let changes = run(&["reduce", "--changes", sample], b"").succeeds();
        lines_fit(changes.out());
        let marked = |text: &str| {
            let lines = text.lines().filter(|line| line.contains(" | ") || line.contains(" < "));
            let squeezed = |line: &str| line.split_whitespace().collect::<Vec<_>>().join(" ");
            lines.map(squeezed).collect::<Vec<String>>()
        };
        assert_eq!(marked(changes.out()), marked(all.out()));
        let lists = changes.out().lines().skip(3).take_while(|line| !line.is_empty());
        assert!(lists.clone().count() > 0);
        for line in lists.filter(|line| !line.starts_with("       ")) {
            assert!(line.contains(" | ") || line.contains(" < "), "{line}");
        }
        let summary = |text: &str| text.rsplit_once("\n\n").expect("a summary").1.to_string();
        assert_eq!(summary(changes.out()), summary(all.out()));
    }
    let unchanged = run(&["reduce", "--changes", "-"], b"settings count_regs=1\nend\n").succeeds();
    let expected =
        "settings count_regs=1 args=0, fixed mark 16\n\nno line changed\n\n1 instruction before";
    assert!(unchanged.out().starts_with(expected), "{}", unchanged.out());
}
