//! The file of stored answers.

use std::collections::BTreeSet;

use harness::answers::{self, ABSENT};
use harness::file::words;
use harness::lists::USED_REGS;
use harness::record::WORDS;
use harness::vectors::{
    cases, file, Case, Operation, MOST_LENT, MOST_PAIRS, MOST_PARTS, MOST_RECORDS,
};

#[test]
fn the_cases_fit_the_replay() {
    for case in cases() {
        assert!(case.list.words.len() <= MOST_RECORDS * WORDS);
        assert!(case.list.table.len() <= MOST_PAIRS * 2);
        match case.operation {
            Operation::Registers | Operation::Place(_) => {}
            Operation::Optimize(lengths) => {
                assert!(lengths.iter().zip(MOST_LENT).all(|(length, most)| *length <= most));
            }
            Operation::Survey { parts_len, .. } => assert!(parts_len <= MOST_PARTS),
        }
    }
    assert!(file().len() <= 560_000, "{} bytes", file().len());
}

/// The operation's number in the file.
fn number(operation: &Operation) -> u32 {
    match operation {
        Operation::Registers => 1,
        Operation::Place(_) => 2,
        Operation::Optimize(_) => 3,
        Operation::Survey { .. } => 4,
    }
}

/// The number of the question that an answer names, 0 for none.
fn question(answer: u64) -> u32 {
    (answer >> 32) as u32 & 0xff_ffff
}

#[test]
fn every_sort_of_answer_is_there() {
    let answers: Vec<(u32, u64)> =
        cases().iter().map(|case| (number(&case.operation), case.answer())).collect();
    let times = |operation: u32, wanted: &dyn Fn(u64) -> bool| {
        answers.iter().filter(|(number, answer)| *number == operation && wanted(*answer)).count()
    };
    let numbered = |number: u32| move |answer: u64| question(answer) == number;
    for number in [0, 1, 3, 5, 6, 7] {
        let [used, placed] = [1, 2].map(|operation| times(operation, &numbered(number)));
        assert!(used >= 4 && placed >= 4, "{number}: {used} and {placed}");
        assert!(times(4, &numbered(number)) >= 2, "{number}: {answers:?}");
    }
    for number in (0..=9).chain([15, 16]) {
        assert!(times(3, &numbered(number)) >= 2, "{number}");
    }
    assert!([15, 16].iter().all(|number| times(3, &numbered(*number)) >= 20));
    assert!(times(1, &|answer| answer >> 56 == 64) >= 10);
    for (operation, least) in [(2, 10), (4, 8)] {
        assert!(times(operation, &|answer| answer == u64::from(ABSENT)) >= least, "{operation}");
        assert!(times(operation, &|answer| answer < 512) >= least, "{operation}");
    }
    assert!(times(3, &numbered(0)) >= 120);
}

/// Operations 1 and 2 have lists of at most 32 registers, or refused ones.
#[test]
fn wide_lists_are_reduced_and_surveyed() {
    let mut times = [0u32; 5];
    for case in cases() {
        let wide = case.list.settings.count_regs > USED_REGS && question(case.answer()) == 0;
        times[number(&case.operation) as usize] += u32::from(wide);
    }
    assert_eq!(times[1..3], [0, 0]);
    assert!(times[3] >= 14 && times[4] >= 14, "{times:?}");
}

/// Of the surveyed lists: every length of the parts, and every question with some that are long
/// enough; with too short ones those up to the fourth.
#[test]
fn parts_of_every_length_are_there() {
    let mut met = [[0u32; 10]; MOST_PARTS + 1];
    let mut compressed = 0;
    for case in cases() {
        if let Operation::Survey { parts_len, .. } = case.operation {
            met[parts_len][question(case.answer()) as usize] += 1;
            compressed += u32::from(case.list.settings.compress && question(case.answer()) == 0);
        }
    }
    let (short, enough) = met.split_at(4);
    let numbers = |met: &[[u32; 10]]| -> Vec<usize> {
        (0..10).filter(|number| met.iter().any(|times| times[*number] > 0)).collect()
    };
    assert_eq!(numbers(short), [1, 3, 4], "{met:?}");
    assert_eq!(numbers(enough), [0, 1, 3, 5, 6, 7], "{met:?}");
    assert!(short.iter().all(|times| times[4] > 0), "{met:?}");
    assert!(enough.iter().all(|times| times[0] > 0), "{met:?}");
    assert!(compressed >= 4, "{compressed}");
}

/// Counts with just the room that is asked, a word less, and more; and lists that fill no register,
/// some, and all of many.
#[test]
fn counts_of_every_length_are_there() {
    let (mut lengths, mut fullest) = (BTreeSet::new(), BTreeSet::new());
    for case in cases() {
        let Operation::Optimize(of_case) = case.operation else { continue };
        let answer = answers::optimize(&case.list, of_case);
        lengths.insert((of_case[4], answer.lent[4].len()));
        fullest.extend(answer.lent[4].get(7).copied());
        assert!(of_case[4] > 7 || answer.word == 4 << 32);
    }
    assert_eq!(Vec::from_iter(lengths), [(7, 0), (8, 0), (8, 8), (9, 0), (11, 0), (11, 8)]);
    assert_eq!(Vec::from_iter(fullest), [0, 1, 2, 3, 4, 33, 48, 63, 64]);
}

/// Reads the file by its format, word by word.
struct Reader {
    words: std::vec::IntoIter<u32>,
}

impl Reader {
    fn word(&mut self) -> u32 {
        self.words.next().expect("a word")
    }

    /// A length and as many words.
    fn part(&mut self) -> Vec<u32> {
        let length = self.word() as usize;
        self.words.by_ref().take(length).collect()
    }

    fn holds(&mut self, case: &Case) {
        assert_eq!(self.word(), number(&case.operation));
        let settings = [(); 5].map(|()| self.word());
        assert_eq!(settings, case.list.settings.words(case.flag));
        let label = match case.operation {
            Operation::Place(label) | Operation::Survey { label, .. } => label,
            _ => 0,
        };
        assert_eq!(self.word(), label);
        assert_eq!(self.part(), case.list.table);
        assert_eq!(self.part(), case.list.words);
        let low = u64::from(self.word());
        assert_eq!(u64::from(self.word()) << 32 | low, case.answer());
        self.holds_lent(case);
    }

    fn holds_lent(&mut self, case: &Case) {
        match case.operation {
            Operation::Registers | Operation::Place(_) => {}
            Operation::Optimize(lengths) => {
                assert_eq!([(); 5].map(|()| self.word() as usize), lengths);
                let prefixes = [(); 5].map(|()| self.part());
                assert_eq!(prefixes, answers::optimize(&case.list, lengths).lent);
            }
            Operation::Survey { label, parts_len } => {
                assert_eq!(self.word() as usize, parts_len);
                let answer = answers::Survey::of(&case.list).answer(label, parts_len);
                assert_eq!(self.part(), answer.lent);
            }
        }
    }
}

#[test]
fn the_file_holds_the_cases() {
    let words = words(&file()).expect("whole words");
    let mut reader = Reader { words: words.into_iter() };
    let cases = cases();
    assert_eq!(reader.word() as usize, cases.len());
    cases.iter().for_each(|case| reader.holds(case));
    assert_eq!(reader.words.len(), 0);
}

/// The program that replays the answers reads this very file.
#[test]
fn the_stored_file_is_this_one() {
    let path = concat!(env!("CARGO_MANIFEST_DIR"), "/../../crates/vectors/stdin");
    let stored = std::fs::read(path).expect("crates/vectors/stdin");
    assert!(stored == file(), "make it anew: cargo run -p harness --bin vectors -- {path}");
}
