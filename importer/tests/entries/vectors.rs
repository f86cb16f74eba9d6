//! The stored answers, replayed through the C entries.

use crate::optimize::support::called;
use harness::answers;
use harness::lent::{with_prefixes, PARTS};
use harness::vectors::{cases, filled, Case, Operation, FILL};
use rudzaviks::ffi::survey_word;

/// The answer of `survey`, and what the parts then are.
fn surveyed(case: &Case, label: u32, parts_len: usize) -> (u64, Vec<u32>) {
    let [count_regs, .., compress] = case.list.settings.words(case.flag);
    let mut parts = vec![FILL; parts_len];
    let (words, table) = (&case.list.words, &case.list.table);
    (survey_word(words, table, count_regs, compress, label, &mut parts), parts)
}

/// A refusal; or else what is made of the parts.
fn made(case: &Case, label: u32, of_parts: impl Fn(&[u32]) -> u64) -> u64 {
    match surveyed(case, label, PARTS) {
        (word, parts) if word >> 32 == 0 => of_parts(&parts),
        (refused, parts) => {
            assert_eq!(parts, [FILL; PARTS], "{:?}", case.list);
            refused
        }
    }
}

fn got(case: &Case) -> u64 {
    match case.operation {
        Operation::Registers => made(case, 0, |parts| {
            let above = if case.list.settings.compress { u32::MAX } else { 0 };
            assert_eq!(parts[1], above, "{:?}", case.list);
            u64::from(parts[2]) << 56 | u64::from(parts[0])
        }),
        Operation::Place(label) => made(case, label, |parts| u64::from(parts[3])),
        Operation::Optimize(lengths) => {
            let lent = filled(lengths);
            let (word, left) = called(&case.list, case.flag, &lent);
            let prefixes = answers::optimize(&case.list, lengths).lent;
            assert_eq!(left, with_prefixes(&lent, prefixes), "{:?}", case.list);
            word
        }
        Operation::Survey { label, parts_len } => {
            let (word, left) = surveyed(case, label, parts_len);
            let mut parts = answers::Survey::of(&case.list).answer(label, parts_len).lent;
            parts.resize(parts_len, FILL);
            assert_eq!(left, parts, "{:?}", case.list);
            word
        }
    }
}

#[test]
fn the_stored_answers_hold() {
    for case in cases() {
        assert_eq!(got(&case), case.answer(), "{:?} {:?}", case.operation, case.list);
    }
}
