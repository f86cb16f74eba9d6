//! How full the registers got, beside the number that the original's colours give. With all other
//! words `passes` compares it; here it is also seen that the lists have what could go wrong.

use super::support::passes;
use crate::support::shown;
use harness::fullest::{each_choice, fullest, has_source, Choice};
use harness::how_many;
use harness::kinds::{label, load_const, nop, save_args};
use harness::limits::{self, MOST_REGS};
use harness::lists::{
    all_live_list, any_branch_list, any_list, branch_list, two_part_list, wide_list, List,
};
use harness::questions::refusal;
use harness::random::Random;
use harness::record::WORDS;
use harness::roles::KINDS;
use harness::run;
use harness::short::{Alphabet, Cells};

/// Other numbers that could be taken for the count.
const OTHERS: [&str; 8] = [
    "as before the choice",
    "with lives equal to the index",
    "of the last choice",
    "without y of two-part loads",
    "without found loads",
    "of statics for colours",
    "by the last end for the largest",
    "with no reset by Branch",
];

/// Which records are Loads that are found, and so dropped. A mark behind each record, which changes
/// no choice, shows whether it was.
fn found_loads(list: &List, colours: &[u32]) -> Vec<bool> {
    let mark = save_args(0, 0, 0);
    let marked = list.words.chunks_exact(WORDS).flat_map(|record| [record, &mark].concat());
    let marked = run::original(&List { words: marked.collect(), ..list.clone() });
    assert!(marked.statics.iter().map(|(colour, _)| colour).eq(colours), "{}", shown(list));
    let mut left = marked.words.chunks_exact(WORDS);
    let mut is_left = |kind: u32| {
        let next = left.next().expect("a record or its mark");
        let is_left = kind == mark[0] || next[0] != mark[0];
        is_left && left.next().expect("a mark") == mark
    };
    list.words.chunks_exact(WORDS).map(|record| !is_left(record[0]) && record[0] == 5).collect()
}

/// The list with a Nop for each Branch. No other reset is seen in a number: a value from before it is
/// not read past it.
fn without_branch(list: &List) -> List {
    let mut list = list.clone();
    for record in list.words.chunks_exact_mut(WORDS).filter(|record| record[0] == 16) {
        record.copy_from_slice(&nop());
    }
    list
}

/// The numbers that a choice could give, but for that with no reset. `given` has the ends of the
/// statics that each colour was given since the last reset.
fn of_choice(list: &List, choice: &Choice, given: &[Vec<u32>], found: &[bool]) -> [u32; 7] {
    let count = |lives: &[u32], least: u32| lives.iter().filter(|life| **life >= least).count();
    let (at, past) = (choice.at as usize, choice.at + 1);
    let number = |is_counted: bool| if is_counted { count(choice.after, past) } else { 0 };
    let is_y = choice.word == 2 && list.record(at)[0] == 7;
    let last: Vec<u32> = given.iter().filter_map(|ends| ends.last().copied()).collect();
    let numbers = [
        count(choice.before, past),
        count(choice.after, choice.at),
        number(true),
        number(!is_y),
        number(!found[at]),
        count(&given.concat(), past),
        count(&last, past),
    ];
    numbers.map(|number| number as u32)
}

/// What the count would be in each of these ways.
fn others(list: &List) -> [u32; 8] {
    let statics = run::original(list).statics;
    let colours: Vec<u32> = statics.iter().map(|(colour, _)| *colour).collect();
    let found = found_loads(list, &colours);
    let mut given = vec![Vec::new(); list.settings.count_regs as usize];
    let (mut most, mut statics) = ([0; 7], statics.iter());
    each_choice(list, &colours, |choice| {
        for (ends, _) in given.iter_mut().zip(choice.before).filter(|(_, life)| **life == 0) {
            ends.clear();
        }
        let (colour, end) = statics.next().expect("a static for each choice");
        given[*colour as usize].push(*end);
        let numbers = of_choice(list, &choice, &given, &found);
        most.iter_mut().zip(numbers).for_each(|(most, number)| *most = number.max(*most));
        most[2] = numbers[2];
    });
    let with_no_reset = fullest(&without_branch(list), &colours);
    [&most[..], &[with_no_reset]].concat().try_into().expect("eight numbers")
}

/// What was met in lists that pass.
#[derive(Default)]
struct Met {
    lists: u64,
    full: u64,
    none: u64,
    others: [u64; 8],
}

impl Met {
    /// Compares the list's count, which is at most the number of registers, and 0 exactly if no
    /// record reads one.
    fn add(&mut self, random: &mut Random, list: &List) {
        let got = passes(random, list).0.fullest;
        let most = list.settings.count_regs;
        assert!(got <= most, "{got}: {}", shown(list));
        let is_read = list.words.chunks_exact(WORDS).any(has_source);
        assert_eq!(got > 0, is_read, "{}", shown(list));
        self.lists += 1;
        self.full += u64::from(got == most && most > 0);
        self.none += u64::from(got == 0);
        let differs = others(list).map(|other| u64::from(other != got));
        self.others.iter_mut().zip(differs).for_each(|(times, differs)| *times += differs);
    }

    /// Prints the numbers of lists. More than one of 2,000 have each of these other numbers.
    fn print(&self, what: &str, met: &[&str]) {
        let Met { lists, full, none, others } = self;
        println!("fullest, {what}: {lists} lists, {full} full, {none} with none");
        for (name, times) in OTHERS.iter().zip(others) {
            println!("fullest, {what}: {times} lists have another number {name}");
            assert!(*times > lists / 2_000 || !met.contains(name), "{what}: {times} {name}");
        }
    }
}

/// So many random lists of up to 40 records.
fn each_of(
    what: &str,
    seed: u64,
    lists: u64,
    generate: fn(&mut Random, u32) -> List,
    met_others: &[&str],
) -> Met {
    let (mut random, mut met) = (Random::new(seed), Met::default());
    for _ in 0..lists {
        let list = generate(&mut random, 40);
        met.add(&mut random, &list);
    }
    met.print(what, met_others);
    met
}

#[test]
fn lists_of_all_kinds() {
    let lists = how_many(60_000);
    let met = each_of("any lists", 541, lists, any_list, &OTHERS);
    assert!(met.full > lists / 20 && met.none > lists / 20);
}

#[test]
fn lists_with_branches() {
    let lists = how_many(60_000) / 2;
    each_of("lists with branches", 542, lists, branch_list, &OTHERS);
    each_of("lists with branches of all kinds", 543, lists, any_branch_list, &OTHERS);
}

#[test]
fn two_part_lists() {
    let lists = how_many(40_000);
    let met = each_of("two-part lists", 544, lists, two_part_list, &OTHERS[..7]);
    assert!(met.full > lists / 20 && met.none > lists / 50);
}

#[test]
fn wide_lists() {
    each_of("wide lists", 545, how_many(20_000), wide_list, &OTHERS);
}

/// Every number of registers, all of them live at once.
#[test]
fn every_number_of_registers() {
    let (mut random, mut met) = (Random::new(546), Met::default());
    for _ in 0..how_many(100_000) / 2_000 {
        for count_regs in 1..=MOST_REGS {
            for most in [0, 40] {
                let list = all_live_list(&mut random, count_regs, most);
                met.add(&mut random, &list);
            }
        }
    }
    met.print("all registers live", &OTHERS[..3]);
    assert!(met.full > met.lists / 2);
}

/// Every list of so many of the records that passes, alone, and after both registers are written.
fn every_list(what: &str, kinds: &[u32], len: u32, met_others: &[&str]) -> Met {
    let (mut random, mut met) = (Random::new(547), Met::default());
    let alphabet = Alphabet::new(kinds, Cells(16, 2));
    for first in [&[][..], &[load_const(0, 0), load_const(1, 1)]] {
        for mut list in alphabet.lists(first, len) {
            list.words.extend(label(0));
            if refusal(&list.settings, &list.words, &list.table, true).is_none() {
                met.add(&mut random, &list);
            }
        }
    }
    met.print(what, met_others);
    met
}

#[test]
fn every_list_of_two_records() {
    let kinds: Vec<u32> = (0..KINDS as u32).collect();
    let met = every_list("every list of two records", &kinds, 2, &OTHERS[..4]);
    assert!(met.full > 20_000 && met.none > 900);
}

/// Mov, Load, Save, LoadComplex and Branch.
#[test]
fn every_list_of_four_records() {
    let met = every_list("every list of four records", &[4, 5, 6, 7, 16], 4, &OTHERS[..7]);
    assert!(met.full > 30_000 && met.none > 50_000);
    // a Branch between a write and a read, past another write
    assert!(met.others[7] > 50);
}

#[test]
fn lists_at_the_limits() {
    let (mut random, mut met) = (Random::new(548), Met::default());
    for (_, list) in limits::lists() {
        met.add(&mut random, &list);
    }
    assert!(met.none > 0 && met.none < met.lists);
}
