//! Comparing the C entry with what is expected.

use std::array::from_fn;
use std::hint::black_box;

use crate::support::shown;
use harness::answers::Survey;
use harness::lent::PARTS;
use harness::lists::List;
use harness::questions::refusal_beside;
use rudzaviks::ffi::survey_word;

/// How many words are lent at most, and how many more are on each side of them.
pub const MOST: usize = PARTS + 8;
const GUARD: usize = 4;

/// Each length that is too short, just enough, and more.
const LENGTHS: [usize; 6] = [0, 1, 2, 3, PARTS, MOST];

/// Words of which those from GUARD on, as many as a test says, are lent.
type Words = [u32; GUARD + MOST + GUARD];

/// No two words are equal, and none is a number of registers or a place.
fn filled() -> Words {
    from_fn(|at| 2_779_096_485 - at as u32)
}

/// The number of the question that refuses the list, 0 for none.
pub fn question(list: &List) -> usize {
    let no = refusal_beside(list.settings.count_regs, &list.words, &list.table, true);
    no.map_or(0, |(number, _)| number as usize)
}

/// Labels to ask a list for: its first and last, and some that it may lack.
pub fn labels(list: &List) -> Vec<u32> {
    let all = list.labels();
    let mut labels = vec![0, 5, u32::MAX];
    labels.extend(all.first());
    labels.extend(all.last());
    labels.sort_unstable();
    labels.dedup();
    labels
}

/// The words of a list's flag `compress`.
fn flags(list: &List) -> &'static [u32] {
    match list.settings.compress {
        true => &[1, 2, 1 << 31, u32::MAX],
        false => &[0],
    }
}

/// The entry's answer with parts of this length, and what these and the words around them then are.
fn called(list: &List, compress: u32, label: u32, len: usize) -> (u64, Words) {
    let mut words = filled();
    let parts = &mut words[GUARD..GUARD + len];
    let count_regs = list.settings.count_regs;
    (survey_word(&list.words, &list.table, count_regs, compress, label, parts), words)
}

/// What is expected of `called`.
fn expected(survey: &Survey, label: u32, len: usize) -> (u64, Words) {
    let answer = survey.answer(label, len);
    let mut words = filled();
    words[GUARD..GUARD + answer.lent.len()].copy_from_slice(&answer.lent);
    (answer.word, words)
}

/// The entry answers and leaves what is expected for each of the labels, with parts of each of the
/// lengths, and leaves the list and the table as they were.
pub fn agree_with(list: &List, labels: &[u32], lengths: &[usize]) {
    assert!(!labels.is_empty() && !lengths.is_empty(), "nothing is compared");
    let survey = Survey::of(list);
    let mut lent = list.clone();
    let each_length = |label| lengths.iter().map(move |len| (label, len));
    for (label, len) in labels.iter().flat_map(each_length) {
        let expected = expected(&survey, *label, *len);
        for compress in flags(list) {
            let called = called(&lent, *compress, *label, *len);
            let asked = || format!("label {label}, {len} words, compress {compress}");
            assert_eq!(called, expected, "{}: {}", asked(), shown(list));
        }
    }
    assert!(black_box(&mut lent) == list, "a lent word was changed: {}", shown(list));
}

/// `agree_with` parts that are too short, just long enough, and longer.
pub fn agree(list: &List, labels: &[u32]) {
    agree_with(list, labels, &LENGTHS);
}
