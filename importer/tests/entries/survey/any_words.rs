//! Arbitrary words: the C entry answers, and answers what is expected.

use super::support::{agree, question};
use crate::arbitrary::arbitrary_list;
use harness::how_many;
use harness::lists::List;
use harness::random::Random;
use harness::settings::Settings;

#[test]
fn any_words_are_answered() {
    let mut random = Random::new(301);
    let lists = how_many(500_000);
    let mut times = [0u64; 10];
    for _ in 0..lists {
        let list = arbitrary_list(&mut random);
        agree(&list, &[0, 1]);
        times[question(&list)] += 1;
    }
    for number in [0, 1, 3, 5, 6, 7] {
        assert!(times[number] > lists / 200, "{times:?}");
    }
}

#[test]
fn raw_words_are_answered() {
    let mut random = Random::new(302);
    for _ in 0..how_many(500_000) / 10 {
        let (words, table) = (random.index(600), random.index(60));
        let settings = Settings { count_regs: random.between(0, 80), ..Settings::default() };
        let table = (0..table).map(|_| random.word()).collect();
        let words = (0..words).map(|_| random.word()).collect();
        agree(&List { settings, table, words }, &[random.word()]);
    }
}
