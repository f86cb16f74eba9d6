//! Registers in use, and labels.

use crate::support::{lines_fit, run, run_on, BRANCH};

/// Two labels with one number, one that is absent, and a call, whose number is no label.
const LABELS: &str = "\
settings count_regs=4 args=0

%0 := Mem[0]
if %0 goto 12
(%1 + %3*im) := Mem[2]
9:
7:        # once
(%2 + %t*im) := Mem[4]
goto 12
9:
call 5; n = 1
";

#[test]
fn a_list_is_surveyed() {
    let shown = run_on("survey", LABELS).succeeds();
    let expected = "\
settings count_regs=4 args=0

3 of 4 registers used: %0 %1 %3
label 7: line 7
label 9: line 10, the last of 2
label 12: absent, though line 4 jumps to it
";
    assert_eq!(shown.out(), expected);
    let sample = run(&["survey", BRANCH], b"").succeeds();
    let expected = "\
settings count_regs=4 args=0

4 of 4 registers used: %0 %1 %2 %3
label 7: line 17
";
    assert_eq!(sample.out(), expected);
}

#[test]
fn a_file_is_surveyed_by_the_numbers_of_its_records() {
    let file = run_on("assemble", LABELS).succeeds().out;
    let shown = run(&["survey", "-"], &file).succeeds();
    let expected = "\
settings count_regs=4 args=0

3 of 4 registers used: %0 %1 %3
label 7: record 4
label 9: record 7, the last of 2
label 12: absent, though record 1 jumps to it
";
    assert_eq!(shown.out(), expected);
}

#[test]
fn a_survey_says_what_there_is_not() {
    for list in ["settings count_regs=4\n", "settings count_regs=4\n%t := Mem[0]\nend\n"] {
        let shown = run_on("survey", list).succeeds();
        let expected = "settings count_regs=4 args=0\n\nno registers used\nno labels\n";
        assert_eq!(shown.out(), expected);
    }
    let labels = run_on("survey", "settings count_regs=0\n4294967295:\ngoto 0\n").succeeds();
    let expected = "\
settings count_regs=0 args=0

no registers used
label 0: absent, though line 3 jumps to it
label 4294967295: line 2
";
    assert_eq!(labels.out(), expected);
}

#[test]
fn every_register_may_be_used() {
    let writes = (0..64).map(|number| format!("%{number} := Mem[0]\n")).collect::<String>();
    let list = format!("settings count_regs=64\n{writes}");
    let shown = run_on("survey", &list).succeeds();
    lines_fit(shown.out());
    let names = (0..64).map(|number| format!("%{number}")).collect::<Vec<_>>().join(" ");
    let in_one_line = shown.out().replace("\n  ", " ");
    assert!(in_one_line.contains(&format!("\n64 of 64 registers used: {names}\nno labels\n")));
    let compressed = run_on("survey", "settings count_regs=1 compress\n%0 := Mem[0]\n").succeeds();
    let expected = "\
settings count_regs=1 args=0 compress

all 64 registers used, since compress is set
no labels
";
    assert_eq!(compressed.out(), expected);
}

/// `check` refuses these by the questions that `survey` does not put.
#[test]
fn a_list_that_may_not_be_reduced_is_surveyed() {
    for (question, list) in [
        (2, "settings count_regs=1 args=65536\n%0 := Mem[0]\n"),
        (8, "settings count_regs=1\n(%0 + %0*im) := Mem[4294967295]\n"),
        (9, "settings count_regs=1\nMem[1] := %0\n%0 := Mem[0]\n"),
        (15, "settings count_regs=1\n%0 := Mem[0]\nif %t goto 7\nMem[1] := %0\n7:\n"),
        (16, "settings count_regs=1\n%0 := Mem[0]\ngoto 7\n"),
    ] {
        run_on("check", list).fails(1, &[&format!("refused by question {question}")]);
        let shown = run_on("survey", list).succeeds();
        assert!(shown.out().contains("\n\n1 of 1 register used: %0\n"), "{list}");
    }
}

#[test]
fn a_survey_explains_a_refusal_as_check_does() {
    let long = format!("settings count_regs=1\n{}", "7:\n".repeat(65_537));
    for list in [
        "settings count_regs=65\n7:\n",
        &long,
        "settings count_regs=2\n7:\n%0 := Mem[0]\nif not %2 goto 7\n",
        "settings count_regs=0 compress\n%0 := Mem[0]\n",
    ] {
        let [survey, check] = ["survey", "check"].map(|command| run_on(command, list));
        survey.fails(1, &["refused by question"]);
        assert_eq!(survey.err, check.err);
    }
}
