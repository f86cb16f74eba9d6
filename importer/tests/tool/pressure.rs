//! How full the registers get.

use crate::support::{lines_fit, run, run_on, BRANCH, SAMPLE, TWO_PART};

#[test]
fn pressure_is_shown_line_by_line() {
    let shown = run(&["pressure", TWO_PART], b"").succeeds();
    let expected = "\
settings count_regs=4 args=0 complex

line  instruction                 registers needed past it
  11  %0 := Mem[0]                1 #
  12  %0 := %0 Minus Param[0]     1 #
  13  Mem[0] := %0                0
  14  (%0 + %1*im) := Mem[0]      2 ##
  15  %1 := Neg(%1)               2 ##
  16  Stack[16] := (%1 + %0*im) < 0
  17  (%2 + %3*im) := Stack[16] < 2 ##
  18  Mem[2] := (%2 + %3*im)      0

8 instructions, 2 dropped (<)
at most 2 of 4 registers needed at once, first at line 14
";
    assert_eq!(shown.out(), expected);
    for sample in [SAMPLE, BRANCH] {
        lines_fit(run(&["pressure", sample], b"").succeeds().out());
    }
    let file = run(&["assemble", TWO_PART], b"").succeeds().out;
    let of_file = run(&["pressure", "-"], &file).succeeds();
    assert!(of_file.out().contains("\nrecord  instruction  "), "{}", of_file.out());
    assert!(of_file.out().ends_with(" needed at once, first at record 3\n"));
}

#[test]
fn pressure_may_be_none() {
    let none = "no value is needed past the instruction that writes it\n";
    let empty = run_on("pressure", "settings count_regs=4\n").succeeds();
    assert!(empty.out().ends_with(&format!("\n\nno instructions\n{none}")), "{}", empty.out());
    let unread = run_on("pressure", "settings count_regs=1\n%0 := Mem[0]\n").succeeds();
    let expected = "\
settings count_regs=1 args=0

line  instruction    registers needed past it
   2  %0 := Mem[0]   0

1 instruction, none dropped
";
    assert_eq!(unread.out(), format!("{expected}{none}"));
    let named = run_on("pressure", "settings count_regs=0\nnop\n%t := Mem[0]\n").succeeds();
    assert!(named.out().ends_with(&format!("\n2 instructions, 1 dropped (<)\n{none}")));
    let reduced = run_on("reduce", "settings count_regs=1\n%0 := Mem[0]\n").succeeds();
    let counts = "\n1 instruction before, 1 after; dropped: nothing\n";
    assert!(reduced.out().ends_with(&format!("{counts}{none}")), "{}", reduced.out());
}

#[test]
fn one_register_of_one_may_be_needed() {
    let list = "settings count_regs=1\n%0 := Mem[0]\nMem[1] := %0\n";
    let said = "\nat most 1 of 1 register needed at once";
    let shown = run_on("pressure", list).succeeds();
    assert!(shown.out().ends_with(&format!("{said}, first at line 2\n")), "{}", shown.out());
    assert!(run_on("reduce", list).succeeds().out().ends_with(&format!("{said}\n")));
}

/// The widest bar leaves room for the longest instructions, which are broken.
#[test]
fn every_register_may_be_needed() {
    let loads = (0..64).map(|number| format!("%{number} := Mem[{number}]\n"));
    let saves = (0..64).map(|number| format!("Mem[4294967231] := %{number}\n"));
    let long = "(%0 + %63*im) := (%61 + %62*im) Divide (%60 + %59*im)\n".to_string();
    let list: String = loads.chain(saves).chain([long]).collect();
    let shown = run_on("pressure", &format!("settings count_regs=64\n{list}")).succeeds();
    lines_fit(shown.out());
    let fullest = format!("  65  {:24}   64 {}\n", "%63 := Mem[63]", "#".repeat(64));
    assert!(shown.out().contains(&fullest), "{}", shown.out());
    assert!(shown.out().ends_with("at most 64 of 64 registers needed at once, first at line 65\n"));
    let locations = ["Stack[4294967295]"; 12].join(", ");
    let list = format!("settings count_regs=1\nLoad Args [{locations}]; real, false\n");
    lines_fit(run_on("pressure", &list).succeeds().out());
}
