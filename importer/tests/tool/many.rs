//! Several lists at once.

use std::fs;
use std::os::unix::fs::{symlink, PermissionsExt};
use std::path::Path;
use std::process::{Command, Stdio};

use crate::support::{
    folder, lines_fit, output_of, run, run_in, samples, text_in, RunOutput, BRANCH, COMMANDS,
    SAMPLE, TOOL, TWO_PART,
};

const ALL: [&str; 4] = ["volume.txt", "past_branch.txt", "two_part.txt", "branch.txt"];

#[test]
fn each_is_shown_under_its_name_and_then_the_total() {
    let folder = samples();
    for command in ["reduce", "pressure", "survey"] {
        let three = ["volume.txt", "two_part.txt", "branch.txt"];
        let shown = run_in(&folder, &[&[command], &three[..]].concat(), b"").succeeds();
        let each = three.map(|name| {
            let alone = run_in(&folder, &[command, name], b"").succeeds();
            format!("==> {name} <==\n{}\n", alone.out())
        });
        let total = shown.out().strip_prefix(&each.concat()).expect("each as it is alone");
        assert!(total.starts_with("total: 3 lists\n"), "{total}");
        lines_fit(shown.out());
    }
    let shown = run(&["reduce", SAMPLE, TWO_PART, BRANCH], b"").succeeds();
    let total = "\ntotal: 3 lists\n\
                 56 instructions before, 44 after; dropped: 1 nop, 6 loads, 1 move, 4 saves\n\
                 at most 3 registers needed at once in one list\n";
    assert!(shown.out().ends_with(total), "{}", shown.out());
}

#[test]
fn numbers_are_added_and_registers_are_not() {
    let shown = run(&["reduce", "--stats", SAMPLE, TWO_PART, SAMPLE], b"").succeeds();
    let total = "\
total: 3 lists
instructions before                    60
instructions after                     44
nops dropped                            2
loads dropped                           7
moves dropped                           2
saves dropped                           5
values written to general registers    45
locations read                         19
general registers                       4
most registers needed at once           3
instructions that no theorem covers     0
";
    let squeezed = |text: &str| text.split_whitespace().collect::<Vec<_>>().join(" ");
    let (_, shown) = shown.out().rsplit_once("\n\n").expect("the total comes last");
    assert_eq!(squeezed(shown), squeezed(total));
}

/// What fails is said on standard error, and the others are shown all the same.
#[test]
fn the_highest_status_counts() {
    let folder = samples();
    fs::write(folder.join("mistake.txt"), "settings count_regs=1\nnoop\n").expect("it is written");
    let words = [&["check"], &ALL[..], &["mistake.txt", "none.txt"]].concat();
    let checked = run_in(&folder, &words, b"");
    let passes = |name: &str| format!("{name}: passes all eleven questions\n");
    let passing = ["volume.txt", "two_part.txt", "branch.txt"].map(passes).concat();
    let total = "total: 6 lists, 1 refused, 2 failed\n";
    assert_eq!((checked.status, checked.out()), (2, format!("{passing}{total}").as_str()));
    let mut said = checked.err.lines().filter(|line| line.contains("txt"));
    for start in
        ["past_branch.txt:7:11: refused", "mistake.txt:2:1: expected", "rudzaviks: can't read"]
    {
        assert!(said.next().expect("a failure").starts_with(start), "{start}: {}", checked.err);
    }
    let refused = run_in(&folder, &[&["check"], &ALL[..]].concat(), b"");
    assert_eq!(refused.status, 1);
    assert!(refused.out().ends_with("total: 4 lists, 1 refused\n"), "{}", refused.out());
}

/// The order is that of the names, whatever is done first.
#[test]
fn so_many_at_a_time_give_the_same() {
    let folder = samples();
    let long = format!("settings count_regs=2\n{}", "%0 := Mem[1]\nMem[2] := %0\n".repeat(20_000));
    fs::write(folder.join("long.txt"), long).expect("it is written");
    let mut names = vec!["long.txt"];
    names.extend(ALL.iter().cycle().take(40));
    for command in COMMANDS.into_iter().take(4) {
        let given = |jobs: &[&str]| {
            let output = run_in(&folder, &[&[command], jobs, &names[..]].concat(), b"");
            (output.status, output.out, output.err)
        };
        let one = given(&["--jobs=1"]);
        assert!(one == given(&["-j3"]) && one == given(&[]) && one == given(&["-j", "99"]));
    }
}

#[test]
fn lists_go_into_a_folder() {
    let folder = samples();
    fs::create_dir(folder.join("out")).expect("a folder");
    let three = ["volume.txt", "two_part.txt", "branch.txt"];
    for (words, extension) in [
        (&["reduce"][..], "txt"),
        (&["reduce", "--words"], "words"),
        (&["assemble"], "words"),
        (&["disassemble"], "txt"),
    ] {
        let all = [words, &["-o", "out"], &three[..]].concat();
        let written = run_in(&folder, &all, b"").succeeds();
        assert!(written.out().starts_with("total: 3 lists\n"), "{}", written.out());
        for name in three {
            let alone: &[&str] = if words == ["reduce"] { &["--plain"] } else { &[] };
            let alone = run_in(&folder, &[words, alone, &[name]].concat(), b"").succeeds();
            let place = folder.join("out").join(name).with_extension(extension);
            assert_eq!(fs::read(&place).expect("it was written"), alone.out, "{words:?} {name}");
            fs::remove_file(place).expect("it is there");
        }
    }
    run_in(&folder, &[&["pressure", "--svg", "out"], &three[..]].concat(), b"").succeeds();
    for name in ["out/volume.svg", "out/two_part.svg", "out/branch.svg"] {
        assert!(text_in(&folder, name).starts_with("<svg "), "{name}");
    }
    run_in(&folder, &["reduce", "volume.txt", "-o", "out"], b"").succeeds();
    assert!(text_in(&folder, "out/volume.txt").starts_with("settings "));
}

#[test]
fn no_list_is_lost() {
    let folder = samples();
    let before = ALL.map(|name| text_in(&folder, name));
    fs::create_dir(folder.join("out")).expect("a folder");
    fs::copy(folder.join("volume.txt"), folder.join("out/volume.txt")).expect("a copy");
    let fails = |words: &[&str], said: &str| run_in(&folder, words, b"").fails(2, &[said]);
    fails(
        &["reduce", "-o", ".", "volume.txt"],
        "./volume.txt is one of the lists: it would be lost",
    );
    fails(
        &["disassemble", "-o", ".", "branch.txt", "volume.txt"],
        "./branch.txt is one of the lists",
    );
    let both = "volume.txt and out/volume.txt would both go to out/volume.words";
    fails(&["assemble", "-o", "out", "volume.txt", "out/volume.txt"], both);
    fails(
        &["assemble", "-o", "none", "volume.txt", "branch.txt"],
        "none is no folder, and several",
    );
    fails(&["assemble", "-o", "out", ".."], ".. has no name to write it under");
    fails(&["assemble", "-o", "none/", "volume.txt"], "none/ is no folder");
    fails(
        &["assemble", "volume.txt", "branch.txt"],
        "several lists need a folder to go to: -o OUT",
    );
    assert_eq!(ALL.map(|name| text_in(&folder, name)), before);
    let entries = fs::read_dir(folder.join("out")).expect("a folder").count();
    assert_eq!(entries, 1, "nothing was written");
}

/// Nothing is written of a list that is refused.
#[test]
fn a_refused_list_leaves_no_file() {
    let folder = samples();
    let refused = run_in(&folder, &["reduce", "-o", "out.txt", "past_branch.txt"], b"");
    refused.fails(1, &["question 15"]);
    let call = b"settings count_regs=1\ncall 7; n = 0\n";
    run_in(&folder, &["reduce", "--strict", "-o", "out.txt", "-"], call).fails(1, &["--strict"]);
    assert!(!folder.join("out.txt").exists());
}

#[test]
fn standard_input_is_read_once() {
    run(&["check", "-", "-"], b"").fails(2, &["- is named twice"]);
    let list = fs::read(TWO_PART).expect("the sample is there");
    let shown = run(&["check", SAMPLE, "-"], &list).succeeds();
    assert!(shown
        .out()
        .contains("\nstandard input: passes all eleven questions\ntotal: 2 lists\n"));
    let folder = samples();
    run_in(&folder, &["assemble", "-o", ".", "-"], &list).succeeds();
    assert!(folder.join("stdin.words").is_file());
}

/// By whatever name, and whatever is written.
#[test]
fn no_list_is_written_over() {
    let folder = samples();
    symlink("volume.txt", folder.join("link.txt")).expect("a link");
    fs::hard_link(folder.join("volume.txt"), folder.join("other.txt")).expect("a second name");
    let before = text_in(&folder, "volume.txt");
    for words in [&["reduce", "-o"][..], &["assemble", "-o"], &["pressure", "--svg"]] {
        for place in ["volume.txt", "link.txt", "other.txt"] {
            let said = format!("{place} is one of the lists: it would be lost");
            run_in(&folder, &[words, &[place, "volume.txt"]].concat(), b"").fails(2, &[&said]);
        }
    }
    assert_eq!(text_in(&folder, "volume.txt"), before);
}

/// What was there stays where there is no room for what is to be there.
#[test]
fn a_file_is_written_whole_or_not_at_all() {
    let folder = samples();
    let old = text_in(&folder, "two_part.txt");
    let long = format!("settings count_regs=1\n{}", "%0 := Mem[1]\nMem[1] := %0\n".repeat(5_000));
    fs::write(folder.join("long.txt"), long).expect("it is written");
    let limited = |out: &str| {
        let mut shell = Command::new("sh");
        let line =
            format!("ulimit -f 16; trap '' XFSZ; exec '{TOOL}' disassemble -o {out} long.txt");
        shell.args(["-c", &line]).current_dir(&folder);
        output_of(shell, b"")
    };
    limited("two_part.txt").fails(2, &["rudzaviks: can't write two_part.txt: "]);
    limited("new.txt").fails(2, &["rudzaviks: can't write new.txt: "]);
    assert_eq!(text_in(&folder, "two_part.txt"), old);
    let mut names: Vec<_> = fs::read_dir(&folder).expect("a folder").flatten().collect();
    names.retain(|entry| !ALL.iter().any(|name| entry.file_name() == *name));
    assert_eq!(names.len(), 1, "nothing is left beside long.txt: {names:?}");
}

/// A file keeps its rights, and a link leads where it led.
#[test]
fn what_is_replaced_stays_what_it_was() {
    let folder = samples();
    symlink("branch.txt", folder.join("link.txt")).expect("a link");
    let rights = |name: &str| fs::metadata(folder.join(name)).expect("it is there").permissions();
    let mut own = rights("branch.txt");
    own.set_mode(0o640);
    fs::set_permissions(folder.join("branch.txt"), own.clone()).expect("other rights");
    run_in(&folder, &["disassemble", "-o", "link.txt", "volume.txt"], b"").succeeds();
    assert_eq!(rights("branch.txt").mode() & 0o777, 0o640);
    assert!(fs::symlink_metadata(folder.join("link.txt")).expect("a link").is_symlink());
    let written = run_in(&folder, &["disassemble", "volume.txt"], b"").succeeds();
    assert_eq!(text_in(&folder, "branch.txt"), written.out());
    // The longest name that a file may have.
    let longest = "x".repeat(255);
    run_in(&folder, &["disassemble", "-o", &longest, "volume.txt"], b"").succeeds();
    assert_eq!(text_in(&folder, &longest), written.out());
}

/// The tool with such a limit, on a list so many times.
fn limited(limit: &str, words: &str, list: &str, times: usize) -> RunOutput {
    let folder = folder();
    fs::write(folder.join("list.txt"), list).expect("it is written");
    let mut shell = Command::new("sh");
    let lists = " list.txt".repeat(times);
    shell.args(["-c", &format!("ulimit {limit}; exec '{TOOL}' {words}{lists}")]);
    output_of(shell_in(shell, &folder), b"")
}

fn shell_in(mut shell: Command, folder: &Path) -> Command {
    shell.current_dir(folder);
    shell
}

/// Where threads are not to be had, those that there are do the work.
#[test]
fn few_threads_do_it_too() {
    let list = "settings count_regs=1\n";
    let passes = "list.txt: passes all eleven questions\n".repeat(60);
    for limit in ["-v 200000", "-v 60000"] {
        let checked = limited(limit, "check --jobs 60", list, 60).succeeds();
        assert_eq!(checked.out(), format!("{passes}total: 60 lists\n"), "{limit}");
    }
}

/// The longest list needs more stack than some give to a program.
#[test]
fn a_small_stack_is_enough() {
    let list = format!("settings count_regs=1\n{}", "nop\n".repeat(65_536));
    limited("-s 512", "check", &list, 1).succeeds();
    limited("-s 512", "check --jobs 1", &list, 2).succeeds();
}

/// What a run leaves of many lists in a folder, and its status, where nobody reads what it shows.
fn unread(words: &[&str]) -> (Option<i32>, usize) {
    let folder = samples();
    fs::create_dir(folder.join("out")).expect("a folder");
    let lists: Vec<String> = (0..500).map(|at| format!("{at}.txt")).collect();
    for list in &lists {
        fs::copy(folder.join("volume.txt"), folder.join(list)).expect("a copy");
    }
    let mut tool = Command::new(TOOL);
    tool.args(words).args(["past_branch.txt", "volume.txt"]).args(&lists).arg("none.txt");
    tool.current_dir(&folder);
    let mut child = tool.stdout(Stdio::piped()).stderr(Stdio::null()).spawn().expect("it starts");
    drop(child.stdout.take());
    let status = child.wait().expect("it ends").code();
    (status, fs::read_dir(folder.join("out")).expect("a folder").count())
}

/// Where nobody reads any more, no more is shown; but files are written all the same.
#[test]
fn a_reader_that_has_gone_ends_what_is_shown() {
    // (the last list can't be read, which a run tells by 2 that comes to it)
    assert_eq!(unread(&["reduce", "--stats", "-j1"]), (Some(1), 0));
    assert_eq!(unread(&["reduce", "--stats", "-j1", "-o", "out"]), (Some(2), 501));
    assert_eq!(unread(&["pressure", "--svg", "out"]), (Some(2), 501));
}

/// Standard output under another name is written to as it is, with what was there.
#[test]
fn standard_output_by_its_name_is_no_file_to_replace() {
    let folder = samples();
    let line = format!("echo first >out; '{TOOL}' reduce -o /dev/stdout two_part.txt >>out");
    let mut shell = Command::new("sh");
    shell.args(["-c", &line]).current_dir(&folder);
    output_of(shell, b"").succeeds();
    let plain = run_in(&folder, &["reduce", "--plain", "two_part.txt"], b"").succeeds();
    assert_eq!(text_in(&folder, "out"), format!("first\n{}", plain.out()));
}

/// The list on standard input is a file too.
#[test]
fn a_list_on_standard_input_is_not_written_over() {
    let folder = samples();
    let before = text_in(&folder, "volume.txt");
    for words in ["reduce -o volume.txt -", "pressure --svg volume.txt -"] {
        let mut shell = Command::new("sh");
        shell.args(["-c", &format!("'{TOOL}' {words} <volume.txt")]).current_dir(&folder);
        output_of(shell, b"").fails(2, &["volume.txt is one of the lists: it would be lost"]);
    }
    assert_eq!(text_in(&folder, "volume.txt"), before);
}

/// A link to a file that is not there has it made; one to itself has no end.
#[test]
fn links_to_nothing_are_followed() {
    let folder = samples();
    symlink("new.txt", folder.join("link.txt")).expect("a link");
    symlink("loop.txt", folder.join("loop.txt")).expect("a link");
    run_in(&folder, &["disassemble", "-o", "link.txt", "volume.txt"], b"").succeeds();
    assert!(text_in(&folder, "new.txt").starts_with("settings "));
    let words = ["disassemble", "-o", "loop.txt", "volume.txt"];
    run_in(&folder, &words, b"").fails(2, &["can't write loop.txt: "]);
    for link in ["link.txt", "loop.txt"] {
        assert!(fs::symlink_metadata(folder.join(link)).expect("a link").is_symlink(), "{link}");
    }
    fs::create_dir(folder.join("out")).expect("a folder");
    fs::write(folder.join("out/branch.txt"), "").expect("it is written");
    symlink("branch.txt", folder.join("out/volume.txt")).expect("a link");
    let both = ["disassemble", "-o", "out", "volume.txt", "branch.txt"];
    run_in(&folder, &both, b"").fails(2, &["volume.txt and branch.txt would both go to"]);
}
