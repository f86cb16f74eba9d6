//! Many labels with few numbers: the place is the last one's.

use super::support::agree;
use harness::damage::damaged;
use harness::how_many;
use harness::kinds::label;
use harness::limits::MOST_RECORDS;
use harness::lists::{drawn_labelled, List};
use harness::random::Random;
use harness::record::WORDS;
use harness::settings::Settings;
use rudzaviks::ffi::{survey, Place};

/// The numbers that the lists use, and one that they don't.
const ASKED: [u32; 6] = [0, 1, 2, u32::MAX - 1, u32::MAX, 3];

/// The indexes of the Labels with the number, by the records alone.
fn places(list: &List, label: u32) -> Vec<u32> {
    let records = (0..list.records() as u32).zip(list.words.chunks_exact(WORDS));
    records.filter(|(_, record)| record[..2] == [15, label]).map(|(index, _)| index).collect()
}

/// Whether a Call or a Branch names it.
fn is_named(list: &List, label: u32) -> bool {
    let mut records = list.words.chunks_exact(WORDS);
    records.any(|record| matches!(record[0], 12 | 16) && record[1] == label)
}

/// The last of the places is the one that is given.
fn last_is_given(list: &List, label: u32, places: &[u32]) {
    let (words, table, settings) = (&list.words, &list.table, &list.settings);
    let surveyed = survey(words, table, settings.count_regs, settings.compress, label);
    let place = places.last().map_or(Place::Absent, |index| Place::At(*index));
    assert_eq!(surveyed.expect("a list that passes").place, place, "label {label}: {list:?}");
}

#[test]
fn the_last_of_many_labels() {
    let mut random = Random::new(401);
    let lists = how_many(500_000);
    let (mut absent, mut once, mut repeated, mut named) = (0, 0, 0, 0);
    for _ in 0..lists {
        let list = drawn_labelled(&mut random, 24);
        agree(&list, &ASKED);
        for label in ASKED {
            let places = places(&list, label);
            last_is_given(&list, label, &places);
            match places.len() {
                0 => absent += 1,
                1 => once += 1,
                _ => repeated += 1,
            }
            named += u64::from(places.is_empty() && is_named(&list, label));
        }
        agree(&damaged(&mut random, &list), &ASKED);
    }
    assert!(repeated > lists, "{repeated}");
    assert!(absent > lists && once > lists / 5, "{absent} {once}");
    assert!(named > lists / 20, "{named}");
}

/// Label records alone, as many as there may be, with these numbers in turn.
fn labels_in_turn(numbers: &[u32]) -> List {
    let records = (0..MOST_RECORDS).flat_map(|at| label(numbers[at % numbers.len()]));
    List { settings: Settings::default(), table: Vec::new(), words: records.collect() }
}

#[test]
fn as_many_labels_as_may_be() {
    for numbers in [&[7][..], &[0, 1], &[u32::MAX, 0, u32::MAX - 1], &[1, 2, 3, 4, 5]] {
        let list = labels_in_turn(numbers);
        agree(&list, numbers);
        agree(&list, &[9]);
        for number in numbers {
            let places = places(&list, *number);
            assert!(places.len() >= MOST_RECORDS / numbers.len());
            last_is_given(&list, *number, &places);
        }
    }
}
