//! What the stored lists have between them, and the theorem that is made of them.

use harness::kinds::{load, nop, LEFT, RET, RIGHT, STACK, TEMP};
use harness::lists::List;
use harness::questions::refusal;
use harness::record::{Record, WORDS};
use harness::reduced::Reduced;
use harness::roles::{role, Role, KINDS};
use harness::run::{both, optimize, reduced};
use harness::stored_lists::{every_colour_holds, lists, overwritten, stored, twelve, Named};
use harness::tally::By;
use harness::theorem::text;

/// All records of the stored lists.
fn records() -> Vec<Vec<u32>> {
    let words = lists().into_iter().flat_map(|named| named.list.words);
    words.collect::<Vec<_>>().chunks_exact(WORDS).map(<[u32]>::to_vec).collect()
}

fn has(wanted: impl Fn(&[u32]) -> bool) -> bool {
    records().iter().any(|record| wanted(record))
}

fn list_of(name: &str) -> List {
    let found = lists().into_iter().find(|named| named.name == name);
    found.expect("a list of that name").list
}

/// The list with other records in place of one.
fn replaced(list: &List, at: usize, records: &[Record]) -> List {
    let mut list = list.clone();
    list.words.splice(at * WORDS..(at + 1) * WORDS, records.concat());
    list
}

/// How many nops, loads, moves and saves are dropped.
fn dropped(list: &List) -> [u32; 4] {
    reduced(list).dropped
}

fn times(words: &[u32], kind: u32) -> usize {
    words.chunks_exact(WORDS).filter(|record| record[0] == kind).count()
}

#[test]
fn fifteen_lists_that_pass() {
    assert_eq!(lists().len(), 15);
    for Named { name, list, .. } in lists() {
        assert_eq!(refusal(&list.settings, &list.words, &list.table, true), None, "{name}");
        let most = if name == "thirty-two" { 20 } else { 10 };
        assert!((4..=most).contains(&list.records()), "{name}");
    }
}

/// Among the stored answers one list is as it was before question 15 refused it.
#[test]
fn a_stored_list_is_refused() {
    let others = twelve().into_iter().zip(stored()).filter(|(named, list)| named.list != *list);
    let others: Vec<(&str, List)> = others.map(|(named, list)| (named.name, list)).collect();
    assert_eq!(others, [("branches", overwritten())]);
    let List { settings, words, table } = overwritten();
    assert_eq!(refusal(&settings, &words, &table, true), Some((15, 4)));
}

#[test]
fn every_kind_and_register() {
    for kind in 0..KINDS as u32 {
        assert!(has(|record| record[0] == kind), "kind {kind}");
    }
    for wanted in [Role::Source, Role::Destination] {
        for register in [0, 1, 2, 3, 31, RET, TEMP, LEFT, RIGHT] {
            let is = |record: &[u32], word| role(record[0], word) == wanted;
            let names = |r: &[u32]| (1..WORDS).any(|word| is(r, word) && r[word] == register);
            assert!(has(names), "{wanted:?} {register}");
        }
    }
    assert!(has(|record| record[..2] == [2, 19]), "the last UniOp");
    assert!(has(|record| record[..2] == [3, 14]), "the last BinOp");
}

#[test]
fn every_colour_is_there() {
    assert_eq!(every_colour_holds(32), list_of("thirty-two"));
    for count_regs in [32, 64] {
        let list = every_colour_holds(count_regs);
        assert_eq!(refusal(&list.settings, &list.words, &list.table, true), None);
        let Reduced { statics, dropped, .. } = reduced(&list);
        let is_met = |colour| statics.iter().any(|colour_end| colour_end.0 == colour);
        assert!((0..count_regs).all(is_met), "{statics:?}");
        assert_eq!(dropped, [0, 1, 0, 0], "the load of what the last colour holds");
    }
}

#[test]
fn every_setting() {
    let any = |wanted: &dyn Fn(&List) -> bool| lists().iter().any(|named| wanted(&named.list));
    assert!(any(&|list| list.settings.fixed_mark() == 16));
    assert!(any(&|list| list.settings.fixed_mark() == 19));
    assert!(any(&|list| list.settings.complex && list.settings.fixed_mark() == 22));
    assert!(any(&|list| list.settings.arm && times(&list.words, 3) > 0));
    assert!(any(&|list| list.settings.compress));
    assert!(any(&|list| !list.table.is_empty()));
}

#[test]
fn every_drop() {
    for drop in 0..4 {
        assert!(lists().iter().any(|named| dropped(&named.list)[drop] > 0), "drop {drop}");
    }
    let mark = list_of("complex-mark");
    let after = optimize(&mark);
    assert_eq!((times(&mark.words, 7), times(&after, 7)), (3, 2), "LoadComplex");
    assert_eq!((times(&mark.words, 8), times(&after, 8)), (4, 3), "SaveComplex");
    for kept in [4, 5, 6] {
        assert!(lists().iter().any(|named| times(&optimize(&named.list), kept) > 0));
    }
}

/// Without the record more loads are dropped: it made the locations unknown.
#[test]
fn a_reset_by_each_of_four() {
    for kind in [12, 15, 16, 17] {
        let resets = |list: &List, at: usize| {
            let without = replaced(list, at, &[nop()]);
            list.record(at)[0] == kind && dropped(&without)[1] > dropped(list)[1]
        };
        let any =
            lists().iter().any(|Named { list, .. }| (0..list.records()).any(|at| resets(list, at)));
        assert!(any, "kind {kind}");
    }
}

/// Whether a colour holds each half of a LoadComplex as it comes: a Load of the half, put before
/// it, is dropped and changes nothing else.
fn halves_held_at(list: &List, at: usize) -> [bool; 2] {
    let record: Record = list.record(at).try_into().expect("a record");
    let [_, x, y, space, index, ..] = record;
    let free = if x < 64 { x } else { y };
    let before = |half: u32| replaced(list, at, &[load(free, space, index + half), record]);
    [0, 1].map(|half| optimize(&before(half)) == optimize(list))
}

/// The same of each LoadComplex in the list.
fn halves_held(list: &List) -> Vec<[bool; 2]> {
    let loads = (0..list.records()).filter(|at| list.record(*at)[0] == 7);
    loads.map(|at| halves_held_at(list, at)).collect()
}

/// Every LoadComplex stays: none has both halves held, but for one with a named half.
#[test]
fn a_half_is_not_found() {
    let list = list_of("complex-loads");
    let expected = [[false, false], [true, false], [true, true], [true, true], [true, false]];
    assert_eq!(halves_held(&list), expected);
    assert_eq!(times(&optimize(&list), 7), 5);
}

/// Two go: those with both halves held, and no named one.
#[test]
fn each_half_is_found() {
    let list = list_of("found-halves");
    let both = [true, true];
    assert_eq!(halves_held(&list), [[true, false], both, both, both, [false, true], both]);
    let left = optimize(&list);
    let loads = left.chunks_exact(WORDS).filter(|record| record[0] == 7);
    let halves: Vec<_> = loads.map(|record| [record[1], record[2], record[4]]).collect();
    assert_eq!(halves, [[0, 1, 16], [RET, 1, 16], [0, LEFT, 16], [2, 0, 15]]);
    assert_eq!(times(&left, 6), 1, "the Save to a half that is found, but read by what is put out");
}

/// Both two-part loads stay, each with one half found, and the Saves to these halves stay for them.
#[test]
fn a_found_half_joins() {
    let list = list_of("joining-halves");
    assert_eq!(halves_held(&list), [[true, false], [false, true]]);
    let Reduced { words, members, dropped, .. } = reduced(&list);
    assert_eq!(dropped, [0; 4]);
    assert_eq!(words.len(), list.words.len());
    assert!(members.iter().map(|(_, index)| *index).eq([16, 17, 20, 21]));
}

#[test]
fn each_half_is_read() {
    let Reduced { words, members, .. } = reduced(&list_of("read-halves"));
    let saves = words.chunks_exact(WORDS).filter(|record| record[0] == 8);
    assert!(saves.map(|record| record[4]).eq([15, 18, 20]));
    let read = members.iter().filter(|(space, _)| *space == STACK);
    assert!(read.map(|(_, index)| *index).eq([18, 21]));
}

#[test]
fn some_lists_are_left_otherwise_by_the_original() {
    let parted = lists().into_iter().filter(|named| both(&named.list).by() == By::Amended);
    let names: Vec<_> = parted.map(|named| named.name).collect();
    let expected = [
        "complex-mark",
        "complex-loads",
        "same-register",
        "found-halves",
        "joining-halves",
        "read-halves",
    ];
    assert_eq!(names, expected);
}

#[test]
fn x_and_y_the_same_register() {
    assert!(has(|record| record[0] == 7 && record[1] == record[2]), "LoadComplex");
    assert!(has(|record| record[0] == 8 && record[1] == record[2]), "SaveComplex");
    assert!(has(|record| record[0] == 20 && record[2] == record[3]), "ComplexBi");
}

/// With one space for each run of spaces and line ends.
fn in_one_line(text: &str) -> String {
    text.split_whitespace().collect::<Vec<_>>().join(" ")
}

/// The right sides of the theorem are what the amended copy says today; where lines break is the file's own affair.
#[test]
fn the_stored_theorem_is_this_one() {
    let path = concat!(env!("CARGO_MANIFEST_DIR"), "/../../crates/passes/specs/StoredLists.antt");
    let stored = std::fs::read_to_string(path).expect("crates/passes/specs/StoredLists.antt");
    let text = in_one_line(&text(&lists()));
    assert!(
        in_one_line(&stored).contains(&text),
        "print it anew: cargo run -p harness --bin lists"
    );
}
