//! What the amended copy of the original leaves, beside the unchanged one.

use harness::how_many;
use harness::kinds::*;
use harness::lists::{any_list, list, two_part_list, List, Profile};
use harness::random::Random;
use harness::record::{Record, WORDS};
use harness::run::{both, Both};
use harness::settings::Settings;
use harness::tally::{By, Tally};

/// The amended rules keep loads and saves, and so drop no more of them than the unchanged ones.
fn drops_no_more(list: &List, Both { original, amended }: &Both) {
    let ([nops, loads, moves, saves], dropped) = (original.dropped, amended.dropped);
    assert_eq!([nops, moves], [dropped[0], dropped[2]], "{list:?}");
    assert!(dropped[1] <= loads && dropped[3] <= saves, "{list:?}");
}

fn compared(generate: impl Fn(&mut Random) -> List) -> Tally {
    let mut random = Random::new(51);
    let mut tally = Tally::default();
    for _ in 0..how_many(100_000) {
        let list = generate(&mut random);
        let both = both(&list);
        drops_no_more(&list, &both);
        tally.add(both.by());
    }
    tally
}

#[test]
fn some_lists_leave_the_oracle_runs() {
    compared(|random| any_list(random, 80)).print("any lists, by the copies alone");
    compared(|random| two_part_list(random, 20)).print("two-part lists, by the copies alone");
}

/// `both` holds this of every list; here are many that have much to drop.
#[test]
fn no_list_without_two_part_loads_and_saves_leaves_them() {
    let without = |random: &mut Random| {
        let mut profile = Profile::two_part(random, 40);
        profile.weights[7..9].fill(0);
        list(random, &profile)
    };
    let tally = compared(without);
    assert_eq!((tally.of(By::Original), tally.of(By::Amended)), (how_many(100_000), 0));
}

/// The records that only the amended copy leaves, of a list over so many registers.
fn left_more(count_regs: u32, records: &[Record]) -> Vec<Record> {
    let settings = Settings { count_regs, ..Settings::default() };
    let Both { original, amended } =
        both(&List { settings, table: Vec::new(), words: records.concat() });
    let mut original = original.words.chunks_exact(WORDS).peekable();
    let more =
        amended.words.chunks_exact(WORDS).filter(|record| original.next_if_eq(record).is_none());
    let more = more.map(|record| record.try_into().expect("a record")).collect();
    assert_eq!(original.next(), None, "the amended copy leaves all that the unchanged one does");
    more
}

#[test]
fn a_two_part_load_goes_only_if_both_halves_are_found() {
    let both = [load(0, MEM, 0), load(1, MEM, 1), load_complex(0, 1, MEM, 0)];
    assert_eq!(left_more(2, &both), [[0; WORDS]; 0]);
    let x = [load(0, MEM, 0), load_complex(0, 1, MEM, 0)];
    assert_eq!(left_more(2, &x), [x[1]]);
    let named_y = [load(0, MEM, 0), load(1, MEM, 1), load_complex(0, RET, MEM, 0)];
    assert_eq!(left_more(2, &named_y), [named_y[2]]);
    // the unchanged copy leaves these too
    let y = [load(0, MEM, 1), load_complex(1, 0, MEM, 0)];
    assert_eq!(left_more(2, &y), [[0; WORDS]; 0]);
    // x's colour is the one that held y's half
    let taken = [load(0, MEM, 1), load_complex(0, 0, MEM, 0)];
    assert_eq!(left_more(1, &taken), [[0; WORDS]; 0]);
}

#[test]
fn a_two_part_save_stays_if_either_half_is_read() {
    let saved = [load_const(0, 0), save_complex(0, RET, STACK, 17)];
    let after = |more: &[Record]| [&saved, more].concat();
    for half in [17, 18] {
        assert_eq!(left_more(2, &after(&[load(LEFT, STACK, half)])), [saved[1]]);
    }
    assert_eq!(left_more(2, &saved), [[0; WORDS]; 0]);
    let both = [load(LEFT, STACK, 17), load(LEFT, STACK, 18)];
    assert_eq!(left_more(2, &after(&both)), [[0; WORDS]; 0]);
}
