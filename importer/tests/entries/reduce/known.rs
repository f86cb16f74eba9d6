//! Lists that were chosen by hand.

use super::support::{agree, agree_with_room, called, passes, Called};
use harness::answers::refused;
use harness::file::{encode, records, room, LONGEST, MOST};
use harness::kinds::{load_args, save, RET, STACK};
use harness::lists::List;
use harness::random::Random;
use harness::settings::Settings;
use harness::worked_examples::Expected;
use harness::{cases, limits, stored_lists, worked_examples};

#[test]
fn the_worked_examples() {
    let mut random = Random::new(901);
    for case in worked_examples::cases() {
        let file = encode(&case.list, 1);
        for longer in [0, 1, 70] {
            let Called { word, out, .. } = called(&mut random, &file, room(&case.list) + longer);
            match &case.expected {
                Expected::Left(left) => {
                    assert_eq!(word as usize, left.len(), "case {}", case.name);
                    assert_eq!(records(&out), Some(left.concat()), "case {}", case.name);
                }
                Expected::Refused(number, index) => {
                    assert_eq!(word, refused((*number, *index)), "case {}", case.name);
                }
            }
        }
    }
}

#[test]
fn the_stored_lists() {
    let mut random = Random::new(902);
    for named in stored_lists::lists() {
        passes(&mut random, &named.list);
    }
}

/// Those of more than 512 records or pairs are no files.
#[test]
fn lists_at_the_limits() {
    let mut random = Random::new(903);
    for (name, list) in limits::lists() {
        let word = agree_with_room(&mut random, &list);
        let fits = list.records() <= MOST && list.table.len() <= 2 * MOST;
        assert_eq!(word == refused((3, 0)), !fits, "{name}");
    }
    passes(&mut random, &limits::whole_table(MOST));
}

#[test]
fn the_stored_files() {
    let mut random = Random::new(904);
    for file in cases::cases() {
        agree(&mut random, &file, LONGEST);
    }
}

/// Saves to the cells of a table that has as many pairs as may be, of which one LoadArgs names
/// some, often the first or the last: a Save stays just where its cell's pair is named.
#[test]
fn a_save_stays_where_its_pair_is_named() {
    let mut random = Random::new(905);
    let settings = Settings::default();
    let cell = |pair: usize| settings.fixed_mark() + pair as u32;
    for _ in 0..500 {
        let any = random.index(MOST + 1);
        let (start, end) = random.pick(&[(0, any), (any, MOST), (any / 2, any), (0, MOST)]);
        let table = (0..MOST).flat_map(|pair| [STACK, cell(pair)]).collect();
        let saved: Vec<usize> = (1..MOST).map(|_| random.index(MOST)).collect();
        let saves = saved.iter().map(|pair| save(RET, STACK, cell(*pair)));
        let named = load_args(start as u32, (end - start) as u32, 0, 0);
        let words = saves.chain([named]).flatten().collect();
        let mut list = List { settings, table, words };
        let stay = saved.iter().filter(|pair| (start..end).contains(*pair)).count();
        assert_eq!(passes(&mut random, &list).0, stay + 1);
        // a pair of no space is asked for only where it is named
        let bad = random.pick(&[0, start, end.max(1) - 1, MOST - 1]).min(MOST - 1);
        list.table[2 * bad] = 3;
        let word = agree_with_room(&mut random, &list);
        assert_eq!(word == refused((6, MOST - 1)), (start..end).contains(&bad));
    }
}
