//! Lists that no theorem about runs covers.

use crate::support::{lines_fit, run, run_on, SAMPLE};

const CALL: &str = "\
settings count_regs=2 args=1

%0 := Mem[1]
Load Args [Mem[1], Param[0]]; real, true
call 7; n = 2
Save Args; n = 1; real, false
Mem[0] := %$
";

const NOTE: &str = "\
note: no theorem about runs covers lines 4, 5 and 6 (LoadArgs, Call, SaveArgs): that the shortened
  list computes the same is not proved
";

#[test]
fn it_is_said_of_a_list_with_a_call() {
    for view in [&[][..], &["--changes"]] {
        let shown = run(&[&["reduce", "-"], view].concat(), CALL.as_bytes()).succeeds();
        assert!(shown.out().ends_with(NOTE), "{}", shown.out());
        lines_fit(shown.out());
    }
    let checked = run_on("check", CALL).succeeds();
    let expected = "standard input: passes all eleven questions\nstandard input: note: no theorem";
    assert!(checked.out().starts_with(expected), "{}", checked.out());
    lines_fit(checked.out());
    let stats = run(&["reduce", "--stats", "-"], CALL.as_bytes()).succeeds();
    assert!(stats.out().ends_with("\ninstructions that no theorem covers  3\n"), "{}", stats.out());
}

/// A list alone on standard output stays alone.
#[test]
fn it_is_said_on_standard_error_where_the_list_stands_alone() {
    let plain = run(&["reduce", "--plain", "-"], CALL.as_bytes());
    assert_eq!(plain.status, 0);
    assert_eq!(plain.out(), CALL.replace("\n\n", "\n").replace("%1", "%0"));
    assert!(plain.err.starts_with("standard input: note: no theorem about runs covers lines 4, 5"));
    lines_fit(&plain.err);
    let again = run(&["reduce", "--words", "-"], CALL.as_bytes());
    assert_eq!((again.status, again.err), (0, plain.err));
}

#[test]
fn it_is_said_which_and_how_many() {
    let calls =
        |count: usize| format!("settings count_regs=1\n{}", "call 7; n = 0\n".repeat(count));
    for (count, which) in [
        (1, "covers line 2 (Call)"),
        (2, "covers lines 2 and 3 (Call)"),
        (5, "covers lines 2, 3, 4, 5 and 6 (Call)"),
        (6, "covers lines 2, 3, 4, 5, 6 and 1 more (Call)"),
        (100, "covers lines 2, 3, 4, 5, 6 and 95 more (Call)"),
    ] {
        let shown = run_on("check", &calls(count)).succeeds();
        assert!(shown.out().replace("\n  ", " ").contains(which), "{}", shown.out());
    }
    let file = run_on("assemble", &calls(2)).succeeds().out;
    let shown = run(&["check", "-"], &file).succeeds();
    assert!(shown.out().contains("covers records 0 and 1 (Call)"), "{}", shown.out());
}

#[test]
fn nothing_is_said_of_a_list_that_theorems_cover() {
    for command in ["reduce", "check"] {
        assert!(!run(&[command, SAMPLE], b"").succeeds().out().contains("theorem"));
        let strict = run(&[command, "--strict", SAMPLE], b"").succeeds();
        assert_eq!(strict.out(), run(&[command, SAMPLE], b"").succeeds().out());
    }
}

#[test]
fn strictly_such_a_list_is_refused() {
    let said = [
        "standard input:4: refused by --strict at record 1: no theorem about runs covers LoadArgs\n",
        "\n    4 | Load Args [Mem[1], Param[0]]; real, true\n",
        "\nthat the shortened list computes the same is not proved\n",
    ];
    for command in ["reduce", "check"] {
        run(&[command, "--strict", "-"], CALL.as_bytes()).fails(1, &said);
    }
    for view in ["--plain", "--words", "--stats"] {
        run(&["reduce", view, "--strict", "-"], CALL.as_bytes()).fails(1, &said);
    }
    let file = run_on("assemble", CALL).succeeds().out;
    let of_file = run(&["check", "--strict", "-"], &file);
    of_file.fails(1, &["input: refused by --strict at record 1", "\n    1 | Load Args"]);
    // A question comes first.
    let bad = CALL.replace("Mem[0] := %$", "Mem[0] := %1");
    run(&["check", "--strict", "-"], bad.as_bytes()).fails(1, &["refused by question 9"]);
}
