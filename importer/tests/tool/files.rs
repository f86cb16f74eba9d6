//! Lists as texts and as files of words.

use std::fs;

use rudzaviks::record::Records;
use rudzaviks::{file, text};

use crate::support::{lines_fit, place, run, run_on, COMMANDS, SAMPLE};

#[test]
fn a_list_goes_to_a_file_and_back() {
    let source = fs::read_to_string(SAMPLE).expect("the sample is there");
    let parsed = text::parse(&source).expect("the sample is a list");
    let file = run(&["assemble", SAMPLE], b"").succeeds().out;
    let records = Records::new(&parsed.list);
    assert_eq!(file::read(&file), Ok((records, parsed.settings)));
    let back = run(&["disassemble", "-"], &file).succeeds();
    assert_eq!(back.out(), text::print(&parsed.list, &parsed.settings));
    let named = place("volume.words");
    run(&["assemble", SAMPLE, "-o", &named], b"").succeeds();
    assert_eq!(fs::read(&named).expect("it was written"), file);
    let text = place("volume.text");
    run(&["disassemble", "-o", &text, &named], b"").succeeds();
    assert_eq!(fs::read_to_string(&text).expect("it was written"), back.out());
}

#[test]
fn a_file_is_reduced_as_its_text_is() {
    let file = run(&["assemble", SAMPLE], b"").succeeds().out;
    let plain = run(&["reduce", "--plain", SAMPLE], b"").succeeds();
    let of_file = run(&["reduce", "--plain", "-"], &file).succeeds();
    assert_eq!(plain.out(), of_file.out());
    assert_eq!(text::parse(plain.out()).expect("a list").list.len(), 19);
    let checked = run_on("check", plain.out()).succeeds();
    assert_eq!(checked.out(), "standard input: passes all eleven questions\n");
    let shown = run(&["reduce", "-"], &file).succeeds();
    assert!(shown.out().contains("\nrecord  before"), "{}", shown.out());
    lines_fit(shown.out());
}

/// A record that is no instruction is shown by its words, and the others as ever.
#[test]
fn records_that_are_none_are_written_as_words() {
    let list = "settings count_regs=2\n%0 := Mem[1]\nnop\n%1 := %0 Plus %0\n";
    let mut file = run_on("assemble", list).succeeds().out;
    file[28 + 32] = 21;
    let text = run(&["disassemble", "-"], &file);
    let remark = "# record 1 is no instruction: word 0 is 21 and should be a kind, 0 to 20";
    let expected = format!(
        "settings count_regs=2 args=0\n%0 := Mem[1]\n21 0 0 0 0 0 0 0  {remark}\n%1 := %0 Plus %0\n"
    );
    assert_eq!((text.status, text.out()), (1, expected.as_str()));
    let note = "note: 1 record is no instruction, the first at record 1; written as words\n";
    assert_eq!(text.err, format!("standard input: {note}"));
    // It must not be mistaken for a list without the record.
    for command in COMMANDS {
        run_on(command, text.out()).fails(2, &["standard input:3:4: expected `:`, found `0`"]);
    }
    // So it is where the file is copied.
    let copied = run(&["assemble", "-"], &file);
    assert_eq!((copied.status, &copied.out, &copied.err), (1, &file, &text.err));
    file[28] = 22;
    let note = "note: 2 records are no instructions, the first at record 0; written as words\n";
    assert!(run(&["disassemble", "-"], &file).err.ends_with(note));
}

/// The records of a file are shown even where they are more than a file may hold.
#[test]
fn a_file_that_is_too_long_is_written_as_text() {
    let count: u32 = 600;
    let mut file = run_on("assemble", "settings count_regs=1\n").succeeds().out;
    file[24..28].copy_from_slice(&count.to_le_bytes());
    file.resize(28 + 32 * count as usize, 0);
    let text = run(&["disassemble", "-"], &file);
    let expected = format!("settings count_regs=1 args=0\n{}", "nop\n".repeat(600));
    assert_eq!((text.status, text.out()), (1, expected.as_str()));
    let note =
        "note: its count of records, 600 at byte 24, is over 512, the most that a file holds\n";
    assert_eq!(text.err, format!("standard input: {note}"));
    let over = "its count of records, 600 at byte 24, is over 512, the most that a file holds\n";
    run(&["check", "-"], &file).fails(1, &["refused by question 3", over]);
    run_on("check", text.out()).succeeds();
}

#[test]
fn a_list_too_long_for_a_file_is_none() {
    let nops = |count: usize| format!("settings count_regs=1\n{}", "nop\n".repeat(count));
    run_on("assemble", &nops(512)).succeeds();
    let said = "standard input: a file holds at most 512 instructions, and this list has 513\n";
    run_on("assemble", &nops(513)).fails(1, &[said]);
    let locations: Vec<String> = (0..513).map(|index| format!("Mem[{index}]")).collect();
    let args = format!("settings count_regs=1\nLoad Args [{}]; real, true\n", locations.join(", "));
    let said = "a file holds at most 512 locations of LoadArgs (pairs), and this list has 513\n";
    run_on("assemble", &args).fails(1, &[said]);
    run(&["reduce", "--words", "-"], args.as_bytes()).fails(1, &[said]);
    // (a list that is short enough once it is shortened)
    let short = run(&["reduce", "--words", "-"], nops(513).as_bytes()).succeeds();
    assert_eq!(
        run(&["disassemble", "-"], &short.out).succeeds().out(),
        "settings count_regs=1 args=0\n"
    );
}

#[test]
fn a_shortened_list_is_written_as_text_or_words() {
    let [text, words] = ["shortened.txt", "shortened.words"].map(place);
    assert_eq!(run(&["reduce", SAMPLE, "-o", &text], b"").succeeds().out(), "");
    let plain = run(&["reduce", "--plain", SAMPLE], b"").succeeds();
    assert_eq!(fs::read_to_string(&text).expect("it was written"), plain.out());
    let stats = run(&["reduce", "--words", "--output", &words, SAMPLE], b"").succeeds();
    assert_eq!(stats.out(), "");
    let back = run(&["disassemble", &words], b"").succeeds();
    assert_eq!(back.out(), plain.out());
    assert_eq!(
        run(&["reduce", "--words", SAMPLE], b"").succeeds().out,
        fs::read(&words).expect("words")
    );
    // What is asked for besides is shown.
    fs::remove_file(&text).expect("it is there");
    for view in ["--stats", "--changes"] {
        let shown = run(&["reduce", view, SAMPLE, "-o", &text], b"").succeeds();
        assert_eq!(shown.out(), run(&["reduce", view, SAMPLE], b"").succeeds().out());
        assert_eq!(fs::read_to_string(&text).expect("it was written"), plain.out());
        fs::remove_file(&text).expect("it is there");
    }
}
