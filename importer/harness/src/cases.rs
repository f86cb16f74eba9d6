//! Files for two programs that print what becomes of a file, and what they are to print.
//!
//! The program `reduce` reads one file. The program `cases` reads many: how many there are, then
//! each one's length in bytes and its bytes, the numbers being 32-bit words, little-endian. Before
//! what the former prints for a file it prints `case` and the file's place, from 1 on. All that is
//! printed is the amended copy's or the questions', none is the verified code's.

use crate::damage::{damaged_branches, Fault, OF_RECORD};
use crate::file::{encode, record_count, with_word, MOST, PAIR_COUNT};
use crate::kinds::branch;
use crate::limits::MOST_REGS;
use crate::lists::{all_live_list, any_branch_list, drawn, drawn_narrow, List, Profile, USED_REGS};
use crate::mended::mended;
use crate::random::Random;
use crate::record::WORDS;
use crate::roles::KINDS;
use crate::settings::{set_flag, Settings};
use crate::{answers, branch_cases, limits, run, stored_lists, worked_examples};

const NARROW: Settings =
    Settings { count_regs: USED_REGS, args: 0, complex: false, arm: false, compress: false };

/// What `reduce` prints for a file: a record per line and what was dropped, or the refusal.
pub fn printed(file: &[u8]) -> String {
    match answers::passing(file, usize::MAX) {
        Ok(list) => {
            let left = run::reduced(&list);
            let records = left.words.chunks_exact(WORDS).map(|record| spaced(record) + "\n");
            records.collect::<String>() + "dropped " + &spaced(&left.dropped) + "\n"
        }
        Err((number, index)) => format!("refused {number} at {index}\n"),
    }
}

fn spaced(numbers: &[u32]) -> String {
    let numbers: Vec<String> = numbers.iter().map(u32::to_string).collect();
    numbers.join(" ")
}

/// The files, always the same ones.
pub fn cases() -> Vec<Vec<u8>> {
    let mut random = Random::new(2029);
    let mut files: Vec<Vec<u8>> =
        worked_examples::cases().iter().map(|case| encode(&case.list, 1)).collect();
    add_bad_forms(&mut random, &mut files);
    add_bad_lists(&mut random, &mut files);
    let longest = add_longer(&mut random, &mut files);
    add_branches(&mut random, &mut files, longest);
    files
}

/// Files that are none, each refused with 3.
fn add_bad_forms(random: &mut Random, files: &mut Vec<Vec<u8>>) {
    let list = drawn(random, &Profile::plain(3));
    let good = encode(&list, 1);
    files.push(Vec::new());
    files.push(good[..good.len() - 1].to_vec());
    files.push([&good[..], &[0]].concat());
    for at in [PAIR_COUNT, record_count(&list)] {
        files.extend([MOST as u32 + 1, u32::MAX].map(|count| with_word(&good, at, count)));
    }
    // as long as they say, but one entry over the limit
    let words = vec![0; (MOST + 1) * WORDS];
    files.push(encode(&List { table: Vec::new(), words, ..list.clone() }, 1));
    let table = vec![0; (MOST + 1) * 2];
    files.push(encode(&List { table, ..list.clone() }, 1));
    // ahead of question 1
    let settings = Settings { count_regs: MOST_REGS + 1, ..list.settings };
    let high = encode(&List { settings, ..list }, 1);
    files.push(high[..high.len() - 1].to_vec());
}

/// Lists with each fault that a file can hold.
fn add_bad_lists(random: &mut Random, files: &mut Vec<Vec<u8>>) {
    for fault in [Fault::CountRegs, Fault::Args].into_iter().chain(OF_RECORD) {
        for start in [0, 10] {
            let mut list = drawn(random, &Profile { settings: NARROW, ..Profile::plain(40) });
            let fits = |at: &usize| fault.put(random, &mut list, *at);
            (start..40).find(fits).expect("a record that the fault fits");
            files.push(encode(&list, 1));
        }
    }
}

/// Lists that pass questions 1 to 9: known ones, random ones, and the longest with the largest table;
/// then that one with a last record of no kind, three more known ones, and four with many registers
/// live. Gives the longest one back.
fn add_longer(random: &mut Random, files: &mut Vec<Vec<u8>>) -> List {
    let mut lists: Vec<List> = stored_lists::stored().into();
    lists.push(limits::largest_fields(Settings { count_regs: MOST_REGS, ..NARROW }));
    for _ in 0..12 {
        lists.push(drawn_narrow(random, 40));
    }
    for complex in [false, true] {
        let settings = Settings { count_regs: 5, args: 3, complex, ..NARROW };
        lists.push(drawn(random, &Profile { settings, pairs: 40, ..Profile::plain(80) }));
    }
    // many moves, loads and saves over many locations, so that many of them are dropped
    let mut weights = [1; KINDS];
    weights[4..=8].fill(20);
    let profile = Profile { pairs: MOST, cells: 60, weights, ..Profile::plain(MOST) };
    let longest = drawn(random, &profile);
    lists.push(longest.clone());
    let mut no_kind = longest.clone();
    no_kind.record_mut(MOST - 1)[0] = 21;
    lists.push(no_kind);
    lists.extend(stored_lists::two_part().map(|named| named.list));
    files.extend(lists.iter().map(|list| encode(list, set_flag(random))));
    let mut live = [33, 63, 64].map(|count_regs| all_live_list(random, count_regs, 4)).to_vec();
    live.push(stored_lists::every_colour_holds(MOST_REGS));
    files.extend(live.iter().map(|list| encode(list, set_flag(random))));
    longest
}

/// Lists with branches: known ones, random ones with a damaged copy, and the longest one so that it
/// passes; then that one with a last record of no kind, and one that branches to no Label.
fn add_branches(random: &mut Random, files: &mut Vec<Vec<u8>>, longest: List) {
    let mut lists = vec![stored_lists::branches().list];
    lists.extend(branch_cases::cases().into_iter().map(|case| case.list));
    for _ in 0..12 {
        let list = any_branch_list(random, 24);
        lists.push(damaged_branches(random, &list));
        lists.push(list);
    }
    let longest = mended(longest);
    let ends = [longest.record(MOST - 1), &[21, 0, 0, 0, 0, 0, 0, 0], &branch(65_535)];
    for last in ends {
        let mut list = longest.clone();
        list.record_mut(MOST - 1).copy_from_slice(last);
        lists.push(list);
    }
    files.extend(lists.iter().map(|list| encode(list, set_flag(random))));
}

/// Each stored file's place among the crates, and its bytes.
pub fn stored() -> [(&'static str, Vec<u8>); 4] {
    let one = encode(&worked_examples::cases()[1].list, 1);
    let many = cases();
    [
        ("reduce/stdout", printed(&one).into_bytes()),
        ("reduce/stdin", one),
        ("cases/stdout", printed_all(&many).into_bytes()),
        ("cases/stdin", joined(&many)),
    ]
}

/// What `cases` reads.
fn joined(files: &[Vec<u8>]) -> Vec<u8> {
    let number = |number: usize| (number as u32).to_le_bytes();
    let mut bytes = number(files.len()).to_vec();
    for file in files {
        bytes.extend(number(file.len()));
        bytes.extend(file);
    }
    bytes
}

/// What `cases` prints.
fn printed_all(files: &[Vec<u8>]) -> String {
    let case = |(at, file): (usize, &Vec<u8>)| format!("case {}\n{}", at + 1, printed(file));
    files.iter().enumerate().map(case).collect()
}
