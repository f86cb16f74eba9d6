//! The text form: every instruction comes back from its text, which is close to the original's.

use crate::support::{each_list, instructions, settings};
use harness::how_many;
use harness::lists::any_list;
use harness::random::Random;
use harness::record::{decode_list, WORDS};
use harness::roles::{role, Role, KINDS};
use rudzaviks::record::Records;
use rudzaviks::text::{Mistakes, ParseError};
use rudzaviks::{text, Instruction, Settings};

/// What a record's words of a role may be, the ends of their range among them.
fn values(role: Role) -> Vec<u32> {
    match role {
        Role::Op(ops) => (0..ops).collect(),
        Role::Source | Role::Destination => vec![63, 255, 256, 257, 258, 259],
        Role::Space => vec![0, 1, 2],
        Role::Index | Role::PartnerIndex | Role::Label | Role::Any => vec![0, 7, u32::MAX],
        Role::First => vec![0, 1],
        Role::Count => vec![0, 1, 2],
        Role::Flag => vec![0, 1],
        Role::Byte => vec![0, 255],
        Role::Unused => vec![0],
    }
}

/// All records of a kind with such words.
fn records_of(kind: u32) -> Vec<[u32; WORDS]> {
    let mut records = vec![[0; WORDS]];
    records[0][0] = kind;
    for word in 1..WORDS {
        let with = |record: &[u32; WORDS], value: u32| {
            let mut record = *record;
            record[word] = value;
            record
        };
        let values = values(role(kind, word));
        records = records
            .iter()
            .flat_map(|record| values.iter().map(move |value| with(record, *value)))
            .collect();
    }
    records
}

#[test]
fn every_kind_comes_back_from_its_text() {
    let table = vec![0, 5, 1, u32::MAX, 2, 0];
    for kind in 0..KINDS as u32 {
        let list = records_of(kind).concat();
        let list = Records { list, table: table.clone() }.instructions().expect("fields in range");
        for ins in &list {
            let text = ins.to_string();
            assert_eq!(text.parse().as_ref(), Ok(ins), "{text}");
        }
    }
}

#[test]
fn every_setting_comes_back_from_its_text() {
    for number in [0, 1, 64, u32::MAX] {
        for flags in 0..8 {
            let [complex, arm, compress] = [1, 2, 4].map(|bit| flags & bit != 0);
            let settings =
                Settings { count_regs: number, args: number / 2, complex, arm, compress };
            let parsed = text::parse(&text::print(&[], &settings)).unwrap();
            assert_eq!((parsed.settings, parsed.list.len()), (settings, 0));
        }
    }
}

#[test]
fn lists_come_back_from_their_text() {
    each_list(71, how_many(20_000), 300, |list| {
        let (code, settings) = (instructions(list), settings(list));
        let parsed = text::parse(&text::print(&code, &settings)).unwrap();
        assert_eq!((&parsed.list, parsed.settings), (&code, settings));
        assert!(parsed.lines.iter().copied().eq(2..code.len() + 2));
    });
}

/// The original's text but for labels in quotes, the remarks, and a call's missing number.
fn original(ins: &oracle::Instruction) -> String {
    let text = format!("{ins:?}").replace('"', "");
    let text = text.split(" # ").next().expect("a part before the remark");
    match ins {
        oracle::Instruction::Call { num_args, .. } => format!("{text}; n = {num_args}"),
        _ => text.to_string(),
    }
}

#[test]
fn the_text_is_the_originals() {
    each_list(72, how_many(20_000), 300, |list| {
        let originals = decode_list(&list.words, &list.table).expect("a list that passes");
        for (ins, other) in instructions(list).iter().zip(&originals) {
            assert_eq!(ins.to_string(), original(other));
        }
    });
}

/// A text with some characters changed, left out or put in.
fn mistyped(random: &mut Random, text: &str) -> String {
    let mut typed: Vec<char> = text.chars().collect();
    for _ in 0..random.between(1, 3) {
        let at = random.index(typed.len());
        let other = random.pick(&['%', ':', '=', '(', ']', ' ', '\n', '#', '9', 'M', 'ü', '-']);
        match random.below(3) {
            0 => typed[at] = other,
            1 => typed.insert(at, other),
            _ => drop(typed.remove(at)),
        }
    }
    typed.into_iter().collect()
}

/// That a mistake is at a place of the text, and that what it found stands there.
fn has_its_place(error: &ParseError, text: &str) {
    let line = text.lines().nth(error.line - 1).expect("a line of the text");
    assert!((1..=line.chars().count() + 1).contains(&error.column), "{error}: {line}");
    let quoted = error.found.trim_end_matches(" again").strip_prefix('`');
    if let Some(found) = quoted.and_then(|found| found.strip_suffix('`')) {
        let rest: String = line.chars().skip(error.column - 1).collect();
        let is_there = text::printable(&rest).starts_with(found.trim_end_matches('…'));
        assert!(is_there, "{error}: {line}");
    }
}

/// Texts of random lists, mistyped so that they have mistakes, and these.
fn each_mistyped(seed: u64, mut check: impl FnMut(&str, &Mistakes)) {
    let mut random = Random::new(seed);
    let lists = how_many(20_000);
    let mut with_mistakes = 0;
    for _ in 0..lists {
        let list = any_list(&mut random, 24);
        let text = text::print(&instructions(&list), &settings(&list));
        let typed = mistyped(&mut random, &text);
        match text::parse_all(&typed, usize::MAX) {
            Ok(parsed) => assert_eq!(text::parse(&typed), Ok(parsed)),
            Err(mistakes) => {
                with_mistakes += 1;
                check(&typed, &mistakes);
            }
        }
    }
    assert!(with_mistakes > lists / 2, "{with_mistakes}");
}

#[test]
fn mistakes_have_places_in_the_text() {
    let mut in_two_lines = 0;
    each_mistyped(73, |text, mistakes| {
        mistakes.told.iter().for_each(|error| has_its_place(error, text));
        in_two_lines += u64::from(mistakes.count > 1);
    });
    assert!(in_two_lines > how_many(20_000) / 20, "{in_two_lines}");
}

/// The places of the mistakes that the lines have by themselves.
fn places_by_line(text: &str) -> Vec<(usize, usize)> {
    let mut first = true;
    let place = |(at, line): (usize, &str)| {
        if line.split('#').next().is_none_or(|before| before.trim().is_empty()) {
            return None;
        }
        let error = if std::mem::take(&mut first) {
            text::parse(line).err()?
        } else {
            line.parse::<Instruction>().err()?
        };
        Some((at + 1, error.column))
    };
    text.lines().enumerate().filter_map(place).collect()
}

#[test]
fn a_line_has_the_same_mistake_among_others() {
    each_mistyped(74, |text, mistakes| {
        let told: Vec<_> = mistakes.told.iter().map(|error| (error.line, error.column)).collect();
        let by_line = places_by_line(text);
        if by_line.is_empty() {
            assert_eq!(mistakes.told[0].found, "nothing but comments", "{text}");
        } else {
            assert_eq!(told, by_line, "{text}");
        }
    });
}

#[test]
fn both_ways_to_read_a_text_agree() {
    each_mistyped(75, |text, all| {
        assert_eq!(text::parse(text).as_ref(), Err(&all.told[0]));
        assert_eq!(all.count, all.told.len());
        for most in 0..=3 {
            let some = text::parse_all(text, most).expect_err("mistakes");
            assert_eq!((some.count, &some.told[..]), (all.count, &all.told[..most.min(all.count)]));
        }
    });
    each_list(76, how_many(20_000), 100, |list| {
        let text = text::print(&instructions(list), &settings(list));
        let parsed = text::parse(&text).expect("a good text");
        assert_eq!(text::parse_all(&text, 0), Ok(parsed));
    });
}

/// If the time went with the square of the length, this would take minutes.
#[test]
fn a_line_of_megabytes_is_read() {
    let count = 500_000;
    let locations = vec!["Mem[3]"; count].join(", ");
    let line = format!("Load Args [{locations}]; real, true");
    let Ok(Instruction::LoadArgs { locs, .. }) = line.parse() else { panic!("LoadArgs") };
    assert_eq!(locs.len(), count);
    let open = format!("Load Args [{locations}; real, true").parse::<Instruction>().unwrap_err();
    assert_eq!((open.column, open.found.as_str()), (11 + locations.len() + 1, "`;`"));
    let word = "x".repeat(locations.len()).parse::<Instruction>().unwrap_err();
    assert_eq!((word.column, word.found), (1, format!("`{}…`", "x".repeat(40))));
}

/// The lines of the description that show a kind: its name, and its text.
#[test]
fn the_description_shows_every_kind() {
    let (kinds, _) = text::FORM.split_once("\nThe operations").expect("they come after the kinds");
    let shown = kinds.lines().filter_map(|line| line.split_once("  "));
    let shown = shown.filter(|(name, _)| name.starts_with(char::is_alphabetic));
    let mut kinds = Vec::new();
    for (name, texts) in shown {
        for text in texts.split("  or  ").map(str::trim) {
            let ins: Instruction = text.parse().expect(text);
            assert_eq!(ins.to_string(), text);
            assert!(format!("{ins:?}").starts_with(name), "{name} is no {ins:?}");
            kinds.push(Records::new(&[ins]).list[0]);
        }
    }
    kinds.dedup();
    assert!(kinds.into_iter().eq(0..KINDS as u32));
}

#[test]
fn text_may_be_spread_out() {
    let tight: Instruction = "(%0+%1*im):=(%2+%3*im)Plus(%4+%5*im)".parse().unwrap();
    let wide: Instruction =
        "  ( %0 + %1 * im )  :=\t( %2 + %3 * im ) Plus ( %4 + %5 * im ) # x".parse().unwrap();
    assert_eq!(tight, wide);
    assert_eq!(tight.to_string(), "(%0 + %1*im) := (%2 + %3*im) Plus (%4 + %5*im)");
}
