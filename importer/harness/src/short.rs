//! Short lists, all of them, over two registers and a few Stack cells.

use crate::kinds::STACK;
use crate::lists::List;
use crate::record::{Record, WORDS};
use crate::roles::{role, Role};
use crate::settings::Settings;

/// So many Stack cells from the given one on.
#[derive(Clone, Copy)]
pub struct Cells(pub u32, pub u32);

/// What may stand at a word, and at the next one where a location or a span begins. A two-part
/// location is one of the first two cells, a LoadArgs names either of two pairs; the rest is 0.
fn choices(kind: u32, word: usize, Cells(first, count): Cells) -> Vec<Vec<u32>> {
    let count = if matches!(kind, 7 | 8) { 2 } else { count };
    match role(kind, word) {
        Role::Source | Role::Destination => vec![vec![0], vec![1]],
        Role::Space => (first..first + count).map(|cell| vec![STACK, cell]).collect(),
        Role::First => vec![vec![0, 1], vec![1, 1]],
        _ => vec![vec![]],
    }
}

fn records_of(kind: u32, cells: Cells) -> Vec<Record> {
    let with = |mut record: Record, word: usize, choice: &[u32]| {
        record[word..word + choice.len()].copy_from_slice(choice);
        record
    };
    let mut records = vec![with([0; WORDS], 0, &[kind])];
    for word in 1..WORDS {
        let choices = choices(kind, word, cells);
        let each = |record: Record| choices.iter().map(move |choice| with(record, word, choice));
        records = records.into_iter().flat_map(each).collect();
    }
    records
}

/// The records that short lists are made of, over Gen 0 and 1 and the cells.
pub struct Alphabet {
    pub records: Vec<Record>,
    cells: Cells,
}

impl Alphabet {
    /// Every record of the kinds.
    pub fn new(kinds: &[u32], cells: Cells) -> Alphabet {
        let records = kinds.iter().flat_map(|kind| records_of(*kind, cells)).collect();
        Alphabet { records, cells }
    }

    /// Every list of so many of the records, after the given first ones, with a table of the first
    /// two cells. Not all of them pass.
    pub fn lists<'a>(&'a self, first: &'a [Record], len: u32) -> impl Iterator<Item = List> + 'a {
        let settings = Settings { count_regs: 2, ..Settings::default() };
        let Alphabet { records, cells: Cells(cell, _) } = self;
        (0..records.len().pow(len)).map(move |code| {
            let choice = |at| records[code / records.len().pow(at) % records.len()];
            let words = first.iter().copied().chain((0..len).map(choice)).flatten();
            List { settings, table: vec![STACK, *cell, STACK, cell + 1], words: words.collect() }
        })
    }
}
