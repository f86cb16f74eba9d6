//! What lies around the lent words is neither read nor written.

use std::hint::black_box;

use crate::arbitrary::arbitrary_list;
use harness::answers::Survey;
use harness::lent::PARTS;
use harness::lists::{any_list, List};
use harness::random::Random;
use harness::record::{Record, WORDS};
use rudzaviks::ffi::survey_word;

const LABEL: u32 = 1;

/// Lies on each side, twice: most would change the answer if they were read.
const AROUND: [Record; 6] = [
    [0; WORDS],
    [3; WORDS],
    [15; WORDS],
    [u32::MAX; WORDS],
    [15, LABEL, 0, 0, 0, 0, 0, 0],
    [9, 0, 0, 0, 0, 0, 0, 0],
];

const SIDE: usize = 2 * WORDS;

const FILL: u32 = 2_779_096_485;

/// The part of the words that is lent.
fn lent(words: &mut [u32]) -> &mut [u32] {
    let end = words.len() - SIDE;
    &mut words[SIDE..end]
}

/// The entry answers and leaves what is expected, and nothing else is changed.
fn agree_between(list: &List, survey: &Survey, around: &Record, parts_len: usize) {
    let side = &around.repeat(2);
    let parts = &vec![FILL; parts_len];
    let mut all = [&list.words, &list.table, parts].map(|lent| [&side[..], lent, side].concat());
    let answer = survey.answer(LABEL, parts_len);
    let mut expected = all.clone();
    expected[2][SIDE..SIDE + answer.lent.len()].copy_from_slice(&answer.lent);
    let [words, table, parts] = all.each_mut().map(|words| lent(words));
    let compress = u32::from(list.settings.compress);
    let word = survey_word(words, table, list.settings.count_regs, compress, LABEL, parts);
    assert_eq!(word, answer.word, "{list:?} in {around:?}");
    assert_eq!(*black_box(&mut all), expected, "{list:?} in {around:?}");
}

/// Whether the answer would be another one if the record after the list were read.
fn is_telling(list: &List, survey: &Survey, around: &Record) -> bool {
    let words = [&list.words[..], around].concat();
    let beyond = Survey::of(&List { words, ..list.clone() });
    beyond.answer(LABEL, PARTS) != survey.answer(LABEL, PARTS)
}

#[test]
fn words_around_have_no_effect() {
    let mut random = Random::new(303);
    let mut telling = [0u32; AROUND.len()];
    for turn in 0..40_000 {
        let list = match turn % 2 {
            0 => arbitrary_list(&mut random),
            _ => any_list(&mut random, 8),
        };
        let survey = Survey::of(&list);
        for (around, telling) in AROUND.iter().zip(&mut telling) {
            let lengths = [0, PARTS - 1, PARTS, PARTS + 3];
            lengths.iter().for_each(|len| agree_between(&list, &survey, around, *len));
            *telling += u32::from(is_telling(&list, &survey, around));
        }
    }
    // a Nop more would change no answer
    assert!(telling[1..].iter().all(|times| *times > 4_000), "{telling:?}");
}
