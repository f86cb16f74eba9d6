//! The form of a file and of an output.

use harness::answers::{passing, reduce, refused, Answer};
use harness::damage::damaged;
use harness::file::{
    bytes, decode, encode, output, record_count, records, room, words, LONGEST, MOST,
};
use harness::kinds::{load_const, save, MEM};
use harness::lists::{any_list, List};
use harness::random::Random;
use harness::record::WORDS;
use harness::settings::{set_flag, Settings};
use harness::tally::By;
use harness::worked_examples;

/// Case B as a file, written out.
fn b() -> Vec<u8> {
    let settings = [1, 0, 0, 0, 0];
    let first = [9, 0, 5, 0, 0, 0, 0, 0, 6, 0, 1, 3, 0, 0, 0, 0];
    let second = [5, 0, 1, 3, 0, 0, 0, 0, 6, 0, 0, 16, 0, 0, 0, 0];
    bytes(&[&settings[..], &[0, 4], &first, &second].concat())
}

#[test]
fn case_b_written_out() {
    assert_eq!(words(&[1, 2, 3, 4, 255, 0, 0, 0]), Some(vec![67_305_985, 255]));
    assert_eq!(words(&[1, 2, 3]), None);
    assert_eq!(encode(&worked_examples::cases()[1].list, 1), b());
    let left = [load_const(0, 5), save(0, MEM, 3)].concat();
    let out = bytes(&[&[2], &left[..]].concat());
    assert_eq!(output(&left), out);
    assert_eq!(records(&[&out[..], &[1; 50]].concat()), Some(left));
    assert_eq!(records(&out[..out.len() - 1]), None);
    assert_eq!(reduce(&b(), 132), Answer { word: 2, lent: out, by: By::Original });
    let too_short = Answer { word: refused((4, 0)), lent: vec![], by: By::Question };
    assert_eq!(reduce(&b(), 131), too_short);
}

#[test]
fn a_file_gives_its_list_back() {
    let mut random = Random::new(51);
    for _ in 0..20_000 {
        let list = any_list(&mut random, 80);
        let flag = set_flag(&mut random);
        let file = encode(&list, flag);
        assert_eq!(words(&file).expect("whole words")[..5], list.settings.words(flag));
        assert_eq!(file.len(), record_count(&list) + room(&list));
        assert_eq!(decode(&file).as_ref(), Some(&list));
        assert_eq!(passing(&file, room(&list)), Ok(list));
    }
}

/// A list or table whose last entry is not whole makes a file too long, so no damage is lost.
#[test]
fn a_damaged_list_is_not_mended() {
    let mut random = Random::new(52);
    for _ in 0..20_000 {
        let list = any_list(&mut random, 20);
        let copy = damaged(&mut random, &list);
        let whole = copy.words.len().is_multiple_of(WORDS) && copy.table.len().is_multiple_of(2);
        assert_eq!(decode(&encode(&copy, 1)), whole.then_some(copy));
    }
}

#[test]
fn limits_are_where_they_are() {
    let file = |pairs: usize, records: usize| {
        let (table, words) = (vec![0; 2 * pairs], vec![0; WORDS * records]);
        encode(&List { settings: Settings::default(), table, words }, 1)
    };
    let fits = |file: &[u8]| decode(file).is_some();
    assert!(fits(&file(MOST, MOST)) && fits(&file(0, 0)));
    assert!(!fits(&file(MOST + 1, 0)) && !fits(&file(0, MOST + 1)));
    assert_eq!(file(MOST, MOST).len(), LONGEST);
    for whole in [file(0, 0), file(1, 0), file(0, 1), file(2, 3)] {
        assert!((0..whole.len()).all(|end| !fits(&whole[..end])));
        let longer = |more: usize| [&whole[..], &vec![0; more]].concat();
        assert!((1..=40).all(|more| !fits(&longer(more))));
    }
}
