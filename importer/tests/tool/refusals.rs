//! Why a list is refused.

use crate::support::{run, run_on, PAST_BRANCH};

#[test]
fn a_refusal_is_explained_with_the_line() {
    let seven = "settings count_regs=2\n%0 := Mem[0]\n\n%1 := %0 Plus %2\n";
    let nine = "settings count_regs=2\n%0 := Mem[0]\n7:\nMem[1] := %0  # the sum\n";
    for command in ["reduce", "check", "survey", "pressure"] {
        run_on(command, seven).fails(
            1,
            &[
                "standard input:4:15: refused by question 7 at record 1: it names a general register",
                "\n    4 | %1 := %0 Plus %2\n      |               ^\n",
                "count_regs is 2: the general registers are %0 to %1",
                "\nhelp: use a register that there is, or set count_regs to more\n",
            ],
        );
    }
    for command in ["reduce", "check", "pressure"] {
        run_on(command, nine).fails(
            1,
            &[
                "standard input:4:11: refused by question 9 at record 2: it reads a general register",
                "\n    4 | Mem[1] := %0  # the sum\n      |           ^\n",
                "%0 was written at line 2, but the label at line 3 forgets it",
                "\nhelp: write it first; what is needed past a label or a call goes through a cell\n",
            ],
        );
    }
    run_on("check", "settings count_regs=2\n%0 := Neg(%1)\n")
        .fails(1, &["question 9 at record 0", "nothing before it writes %1"]);
    run_on("check", "settings count_regs=0\n%0 := Mem[0]\n")
        .fails(1, &["question 7", "there are no general registers"]);
}

#[test]
fn a_refused_branch_is_explained_with_the_line() {
    let told =
        "%0 was written at line 4, but not since the branch at line 5, past which no general \
                register is kept\n";
    for command in ["reduce", "check"] {
        run(&[command, PAST_BRANCH], b"").fails(
            1,
            &[
                "past_branch.txt:7:11: refused by question 15 at record 3: it reads a general register",
                "\n    7 | Mem[2] := %0\n      |           ^\n",
                told,
            ],
        );
    }
    let own = "settings count_regs=2\n%1 := Mem[0]\nif %1 goto 7\nnop\nif not %1 goto 7\n7:\n";
    let shown =
        "\n    5 | if not %1 goto 7\n      |        ^\n%1 was written at line 2, but not since";
    run_on("check", own).fails(1, &["question 15 at record 3", shown, "the branch at line 3"]);
    let lost = "settings count_regs=1\ngoto 7\n7:\nif %t goto 17 # 17\ngoto 8\n";
    let shown = "\n    4 | if %t goto 17 # 17\n      |            ^\nthe list has no label 17;";
    let at = "standard input:4:12: refused by question 16 at record 2: no label has the number";
    run_on("check", lost).fails(1, &[at, shown, "`survey` shows those that it has"]);
    let none = run_on("reduce", "settings count_regs=1\nend\ngoto 0\n");
    none.fails(1, &["input:3:6: refused by question 16 at record 1", "the list has no labels"]);
}

/// A file has records and no lines.
#[test]
fn a_refused_branch_of_a_file_is_explained_with_the_record() {
    let file = run(&["assemble", PAST_BRANCH], b"").succeeds().out;
    let shown = "\n    3 | Mem[2] := %0\n      |           ^\n%0 was written at record 0, but not";
    let refused = run(&["check", "-"], &file);
    refused.fails(1, &["input: refused by question 15 at record 3", shown, "at record 1, past"]);
}

#[test]
fn refusals_of_every_other_question_are_explained() {
    let help = "\nhelp: set count_regs to the machine's registers, which are at most 64\n";
    run_on("check", "settings count_regs=65\n").fails(1, &["question 1", "count_regs is 65", help]);
    run_on("check", "settings count_regs=1 args=65536\n")
        .fails(1, &["question 2", "args is 65536"]);
    let last = "settings count_regs=2\n(%0 + %1*im) := Mem[4294967295]\n";
    run_on("check", last)
        .fails(1, &["standard input:2:21: refused by question 8", "needs this cell"]);
    let long = format!("settings count_regs=1\n{}", "nop\n".repeat(65_537));
    run_on("check", &long).fails(1, &["question 3", "65537 instructions, and 0 locations"]);
    let file = run_on("assemble", "settings count_regs=1\n%0 := Mem[0]\n").succeeds().out;
    let damaged = |word: usize, value: u32| {
        let mut file = file.clone();
        let at = file.len() - 32 + 4 * word;
        file[at..at + 4].copy_from_slice(&value.to_le_bytes());
        file
    };
    for command in ["reduce", "check", "survey", "pressure"] {
        let kind = [
            "refused by question 5 at record 0",
            "    0 | 21 0 1 0 0 0 0 0",
            "word 0 is 21",
            "help: ",
        ];
        run(&[command, "-"], &damaged(0, 21)).fails(1, &kind);
        let field = ["refused by question 6 at record 0", "word 2 is 3 and should be a space"];
        run(&[command, "-"], &damaged(2, 3)).fails(1, &field);
        let short = ["refused by question 3", "ask for 60 bytes, and it has 59, 1 too few"];
        run(&[command, "-"], &file[..59]).fails(1, &short);
    }
}

/// However the register is written, and whatever the comment says.
#[test]
fn the_column_is_that_of_what_is_at_fault() {
    for (line, column) in [
        ("if %1 goto 7 # x := %1", 4),
        ("%0 := %01 Plus %00", 7),
        ("Mem[1]:=%1", 9),
        ("%0 := Mem[1] ? %0 : %1 # %1", 16),
    ] {
        let failed = run_on("check", &format!("settings count_regs=2\n{line}\n7:\n"));
        failed.fails(1, &[&format!("standard input:2:{column}: refused by question 9")]);
    }
    let call = "settings count_regs=1\n%0 := Mem[0]\ncall 7; n = 0\nMem[0] := %0\n";
    run_on("check", call).fails(1, &["but the call at line 3 forgets it\n"]);
    run_on("check", "settings count_regs=1\n%1 := Mem[0]\n")
        .fails(1, &["input:2:1: ", "count_regs is 1: the one general register is %0\n"]);
}
