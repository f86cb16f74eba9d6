//! Comparing the C entry with what is expected.

use std::hint::black_box;

use crate::support::shown;
use harness::answers;
use harness::lent::{lengths, with_prefixes, with_room, Lent};
use harness::lists::List;
use harness::random::Random;
use harness::settings::set_flag;
use harness::tally::By;
use rudzaviks::ffi::{self, optimize_word, Answer, Counts};

const NAMES: [&str; 5] = ["out", "colours", "ends", "set", "counts"];

/// Is on each side of every lent slice.
const GUARD: [u32; 4] = [3_141_592_653; 4];

/// The entry's answer, and what the slices then hold; `flag` is the word of one that is set.
pub fn called(list: &List, flag: u32, lent: &Lent) -> (u64, Lent) {
    let mut guarded = lent.each_ref().map(|slice| [&GUARD, &slice[..], &GUARD].concat());
    let [out, colours, ends, set, counts] = guarded.each_mut().map(|slice| {
        let end = slice.len() - GUARD.len();
        &mut slice[GUARD.len()..end]
    });
    let mut lent = ffi::Lent { out, colours, ends, set, counts };
    let word = optimize_word(&list.words, &list.table, list.settings.words(flag), &mut lent);
    let left = guarded.map(|slice| {
        let inner = slice.strip_prefix(&GUARD).and_then(|slice| slice.strip_suffix(&GUARD));
        inner.expect("the words beside a slice as they were").to_vec()
    });
    (word, left)
}

/// What was answered, and what the slices then hold, is what is expected. Whose answer that is.
pub fn compare(list: &List, lent: &Lent, (word, left): &(u64, Lent)) -> By {
    let expected = answers::optimize(list, lengths(lent));
    assert_eq!(*word, expected.word, "{}", shown(list));
    let expected_left = with_prefixes(lent, expected.lent);
    for ((name, left), expected) in NAMES.iter().zip(left).zip(&expected_left) {
        if let Some(at) = (0..expected.len()).find(|at| left[*at] != expected[*at]) {
            panic!("{name} at {at}: {} for {}: {}", left[at], expected[at], shown(list));
        }
    }
    expected.by
}

/// The entry answers and leaves what is expected, and leaves the list and the table as they were.
fn compared(random: &mut Random, list: &List, lent: &Lent) -> (Answer, By) {
    let mut read = list.clone();
    let answered = called(&read, set_flag(random), lent);
    let by = compare(list, lent, &answered);
    assert!(black_box(&mut read) == list, "a lent word was changed: {}", shown(list));
    (Answer::from_words(answered.0, &answered.1[4]), by)
}

/// The entry's answer, where all is as expected.
pub fn agree(random: &mut Random, list: &List, lent: &Lent) -> Answer {
    compared(random, list, lent).0
}

/// The same with slices that have room, and by whose answer it was compared.
pub fn compared_with_room(random: &mut Random, list: &List) -> (Answer, By) {
    let lent = with_room(random, list);
    compared(random, list, &lent)
}

/// `agree` with slices that have room.
pub fn agree_with_room(random: &mut Random, list: &List) -> Answer {
    compared_with_room(random, list).0
}

/// `compared_with_room` on a list that passes.
pub fn passes(random: &mut Random, list: &List) -> (Counts, By) {
    match compared_with_room(random, list) {
        (Answer::Reduced(counts), by) => (counts, by),
        (Answer::Refused(refusal), _) => panic!("{refusal:?}: {}", shown(list)),
    }
}
