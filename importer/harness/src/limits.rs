//! Passing lists at the limits.

use crate::lists::{list, List, Profile};
use crate::random::Random;
use crate::record::{Record, WORDS};
use crate::roles::{role, Role, KINDS};
use crate::settings::Settings;

pub const MOST_RECORDS: usize = 65_536;
pub const MOST_PAIRS: usize = 32_768;
pub const MOST_REGS: u32 = 64;

/// Lists that are long, or lie at an end of some range, each with its name.
pub fn lists() -> Vec<(&'static str, List)> {
    let mut random = Random::new(7);
    let wide = Settings { count_regs: MOST_REGS, ..Settings::default() };
    let far = Settings { args: 65_535, complex: true, ..wide };
    let long = Profile { settings: wide, records: MOST_RECORDS, ..Profile::plain(0) };
    let both = Profile { pairs: MOST_PAIRS, ..long.clone() };
    let ends = Profile { settings: far, extreme: 100, ..Profile::plain(500) };
    let none = Profile { settings: Settings::default(), ..Profile::plain(500) };
    vec![
        ("no records", list(&mut random, &Profile::plain(0))),
        ("as many records as may be", list(&mut random, &long)),
        ("as many records and pairs as may be", list(&mut random, &both)),
        ("as many scalar straight-line records", list(&mut random, &long.scalar())),
        ("every index, constant and label at an end", list(&mut random, &ends)),
        ("the largest fixed mark", list(&mut random, &Profile { extreme: 0, ..ends })),
        ("no registers", list(&mut random, &none)),
        ("every field as large as it may be", largest_fields(wide)),
        ("the whole of the largest table", whole_table(MOST_PAIRS)),
    ]
}

/// One record of each kind, every field as large as it may be: first with Gen registers, each
/// written before it is read, then with named ones.
pub fn largest_fields(settings: Settings) -> List {
    let table = vec![2, u32::MAX, 0, u32::MAX];
    let mut words = Vec::new();
    for register in [settings.count_regs - 1, 259] {
        for kind in 0..KINDS as u32 {
            words.extend([9, register, u32::MAX, 0, 0, 0, 0, 0]);
            words.extend(largest_record(kind, register));
        }
    }
    List { settings, table, words }
}

fn largest_record(kind: u32, register: u32) -> Record {
    let mut record = [0; WORDS];
    record[0] = kind;
    for (word, value) in record.iter_mut().enumerate().skip(1) {
        *value = match role(kind, word) {
            Role::Op(ops) => ops - 1,
            Role::Source | Role::Destination => register,
            Role::Space | Role::Count => 2,
            Role::Index | Role::Label | Role::Any => u32::MAX,
            Role::PartnerIndex => u32::MAX - 1,
            Role::Flag => 1,
            Role::Byte => 255,
            Role::First | Role::Unused => 0,
        };
    }
    record
}

/// LoadArgs records that name all of the pairs, the last one, and none.
pub fn whole_table(pairs: usize) -> List {
    let pairs = pairs as u32;
    let table = (0..pairs).flat_map(|pair| [pair % 3, pair]).collect();
    let spans = [(0, pairs), (pairs, 0), (pairs - 1, 1), (0, 0)];
    let words = spans.iter().flat_map(|(first, count)| [10, *first, *count, 1, 0, 0, 0, 0]);
    List { settings: Settings::default(), table, words: words.collect() }
}
