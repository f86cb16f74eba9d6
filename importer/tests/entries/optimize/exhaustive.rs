//! Every short list over two registers and two or three cells.

use super::support::compared_with_room;
use harness::kinds::{label, load_const};
use harness::random::Random;
use harness::record::Record;
use harness::roles::KINDS;
use harness::short::{Alphabet, Cells};
use harness::tally::{By, Tally};
use rudzaviks::ffi::{Answer, Refusal};

/// Every list of so many of the records, after the given first ones. One that branches to no Label
/// comes again with the Label behind it.
fn agree_on_every_list(tally: &mut Tally, first: &[Record], alphabet: &Alphabet, len: u32) {
    let mut random = Random::new(u64::from(len));
    for mut list in alphabet.lists(first, len) {
        let (answer, by) = compared_with_room(&mut random, &list);
        tally.add(by);
        if matches!(answer, Answer::Refused(Refusal { number: 16, .. })) {
            list.words.extend(label(0));
            tally.add(compared_with_room(&mut random, &list).1);
        }
    }
}

/// Alone, where a Gen that is read first is refused, and after both registers are written.
fn alone_and_after(tally: &mut Tally, alphabet: &Alphabet, len: u32) {
    agree_on_every_list(tally, &[], alphabet, len);
    agree_on_every_list(tally, &[load_const(0, 0), load_const(1, 1)], alphabet, len);
}

#[test]
fn every_list_of_two_records() {
    let kinds: Vec<u32> = (0..KINDS as u32).collect();
    let mut tally = Tally::default();
    for (cell, len) in [(15, 0), (15, 1), (16, 1), (15, 2), (16, 2)] {
        alone_and_after(&mut tally, &Alphabet::new(&kinds, Cells(cell, 3)), len);
    }
    tally.print("every list of up to two records");
}

/// All kinds, but for Fused and ComplexBi.
fn every_list_of_three_records(cell: u32) {
    let kinds = [0, 1, 2, 3, 4, 5, 6, 7, 8, 9, 10, 11, 12, 14, 15, 16, 17, 18, 19];
    let mut tally = Tally::default();
    alone_and_after(&mut tally, &Alphabet::new(&kinds, Cells(cell, 2)), 3);
    tally.print(&format!("every list of three records, from cell {cell} on"));
}

#[test]
fn every_list_of_three_records_below_and_at_the_mark() {
    every_list_of_three_records(15);
}

#[test]
fn every_list_of_three_records_from_the_mark_on() {
    every_list_of_three_records(16);
}

/// Mov, loads and saves, LoadConst, and ComplexBi on a value and itself.
#[test]
fn every_list_of_three_records_with_complex_bi() {
    let mut tally = Tally::default();
    for cell in [15, 16] {
        let mut alphabet = Alphabet::new(&[4, 5, 6, 7, 8, 9, 20], Cells(cell, 3));
        alphabet.records.retain(|r| r[0] != 20 || r[4..6] == r[6..8]);
        alone_and_after(&mut tally, &alphabet, 3);
    }
    tally.print("every list of three records with ComplexBi");
}

/// Mov, Load, Save and LoadConst: no such list leaves the oracle runs.
#[test]
fn every_list_of_five_scalar_records() {
    let mut tally = Tally::default();
    agree_on_every_list(&mut tally, &[], &Alphabet::new(&[4, 5, 6, 9], Cells(16, 2)), 5);
    assert!(tally.of(By::Original) > 0 && tally.of(By::Amended) == 0);
}

/// Load, Save, LoadComplex, SaveComplex and LoadConst.
fn every_list_of_loads_and_saves(cell: u32) {
    let mut tally = Tally::default();
    for len in 3..=4 {
        alone_and_after(&mut tally, &Alphabet::new(&[5, 6, 7, 8, 9], Cells(cell, 3)), len);
    }
    tally.print(&format!("every list of three or four loads and saves, from cell {cell} on"));
}

#[test]
fn every_list_of_loads_and_saves_below_and_at_the_mark() {
    every_list_of_loads_and_saves(15);
}

#[test]
fn every_list_of_loads_and_saves_from_the_mark_on() {
    every_list_of_loads_and_saves(16);
}
