//! The stored files for the programs that print, and what they print.

use std::path::Path;

use harness::answers::passing;
use harness::cases::{cases, printed, stored};
use harness::file::{LONGEST, MOST};
use harness::questions::Refusal;
use harness::roles::KINDS;

/// As the program's description has it.
const CASE_B: &str = "\
9 0 5 0 0 0 0 0
6 0 1 3 0 0 0 0
dropped 0 1 0 1
";

/// What the program prints for the worked examples.
const WORKED_EXAMPLES: [&str; 10] = [
    "dropped 0 0 0 0\n",
    CASE_B,
    "9 0 5 0 0 0 0 0\n6 0 1 3 0 0 0 0\n6 0 0 15 0 0 0 0\ndropped 0 1 0 0\n",
    "5 0 1 0 0 0 0 0\n3 0 1 0 0 0 0 0\n6 1 1 1 0 0 0 0\ndropped 0 1 0 0\n",
    "9 0 1 0 0 0 0 0\n6 0 1 0 0 0 0 0\ndropped 0 0 1 0\n",
    "9 0 0 0 0 0 0 0\n6 0 0 20 0 0 0 0\n9 0 1 0 0 0 0 0\n6 0 1 1 0 0 0 0\n5 0 0 20 0 0 0 0\n\
     6 0 1 0 0 0 0 0\ndropped 0 0 0 0\n",
    "refused 9 at 2\n",
    "refused 7 at 0\n",
    "refused 1 at 0\n",
    "refused 9 at 0\n",
];

fn bytes_of(place: &str) -> Vec<u8> {
    let found = stored().into_iter().find(|(stored, _)| *stored == place);
    found.expect("a stored file of that name").1
}

#[test]
fn the_worked_examples_come_first() {
    for (file, text) in cases().iter().zip(WORKED_EXAMPLES) {
        assert_eq!(printed(file), text);
    }
    assert_eq!(bytes_of("reduce/stdin"), cases()[1]);
    assert_eq!(bytes_of("reduce/stdout"), CASE_B.as_bytes());
}

/// Reads both files of `cases` by their form.
#[test]
fn the_files_hold_the_cases() {
    let (input, text) = (bytes_of("cases/stdin"), bytes_of("cases/stdout"));
    let (mut rest, mut lines) = (&input[..], &text[..]);
    let word = |rest: &mut &[u8]| {
        let word = rest.split_off(..4).expect("a word");
        u32::from_le_bytes(word.try_into().expect("four bytes")) as usize
    };
    assert_eq!(word(&mut rest), cases().len());
    for (at, case) in cases().iter().enumerate() {
        let length = word(&mut rest);
        assert_eq!(rest.split_off(..length).expect("a file"), case);
        let expected = format!("case {}\n{}", at + 1, printed(case));
        assert_eq!(lines.split_off(..expected.len()), Some(expected.as_bytes()));
    }
    assert!(rest.is_empty() && lines.is_empty());
    assert!(input.len() < 220_000, "{} bytes", input.len());
}

#[test]
fn every_sort_of_case_is_there() {
    let refusals: Vec<Refusal> =
        cases().iter().filter_map(|file| passing(file, usize::MAX).err()).collect();
    for number in [1, 2, 3, 5, 6, 7, 8, 9, 15, 16] {
        assert!(refusals.iter().filter(|no| no.0 == number).count() >= 2, "{number}");
    }
    assert!(refusals.contains(&(5, MOST - 1)) && refusals.contains(&(16, MOST - 1)));
    let lists: Vec<_> = cases().iter().filter_map(|file| passing(file, usize::MAX).ok()).collect();
    for kind in 0..KINDS as u32 {
        assert!(lists.iter().any(|list| list.words.chunks(8).any(|r| r[0] == kind)), "{kind}");
    }
    assert!(lists.iter().any(|list| list.records() == MOST && list.table.len() == 2 * MOST));
    assert!(lists.iter().any(|list| list.words.chunks(8).any(|r| r[0] == 10 && r[2] > 4)));
    for count_regs in [33, 63, 64] {
        assert!(lists.iter().any(|list| list.settings.count_regs == count_regs), "{count_regs}");
    }
    assert!(cases().iter().all(|file| file.len() <= LONGEST));
}

/// The programs read and print these very bytes.
#[test]
fn the_stored_files_are_these() {
    let crates = Path::new(env!("CARGO_MANIFEST_DIR")).join("../../crates");
    for (place, bytes) in stored() {
        let stored = std::fs::read(crates.join(place)).expect(place);
        let crates = crates.display();
        assert!(stored == bytes, "make it anew: cargo run -p harness --bin cases -- {crates}");
    }
}
