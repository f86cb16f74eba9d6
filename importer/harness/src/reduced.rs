//! What is left of a list, from what a copy of the original leaves.

use std::collections::HashSet;

use crate::fullest::fullest;
use crate::lent::Lent;
use crate::lists::List;
use crate::record::WORDS;

/// Dropped nops, loads, moves and saves. No record changes its kind, so a drop is a record of
/// these kinds that is missing.
const DROPS: [&[u32]; 4] = [&[0], &[5, 7], &[4], &[6, 8]];

#[derive(Clone, Debug, PartialEq, Eq)]
pub struct Reduced {
    /// The reduced list.
    pub words: Vec<u32>,
    /// The statics' colours and ends, in order.
    pub statics: Vec<(u32, u32)>,
    /// The read set's members in joining order, a space and an index each.
    pub members: Vec<(u32, u32)>,
    /// Nops, loads, moves and saves.
    pub dropped: [u32; 4],
    /// How full the registers got.
    pub fullest: u32,
}

impl Reduced {
    pub fn new(list: &List, words: Vec<u32>, statics: Vec<(u32, u32)>) -> Reduced {
        let members = members(&words, &list.table);
        let dropped = DROPS.map(|kinds| times(&list.words, kinds) - times(&words, kinds));
        let colours: Vec<u32> = statics.iter().map(|(colour, _)| *colour).collect();
        let fullest = fullest(list, &colours);
        Reduced { words, statics, members, dropped, fullest }
    }

    /// Records, statics, members, what was dropped, and how full the registers got.
    pub fn counts(&self) -> [u32; 8] {
        let [nops, loads, moves, saves] = self.dropped;
        let records = self.words.len() / WORDS;
        let [records, statics, members] =
            [records, self.statics.len(), self.members.len()].map(|count| count as u32);
        [records, statics, members, nops, loads, moves, saves, self.fullest]
    }

    /// The words that the lent slices start with.
    pub fn lent(&self) -> Lent {
        [
            self.words.clone(),
            self.statics.iter().map(|(colour, _)| *colour).collect(),
            self.statics.iter().map(|(_, end)| *end).collect(),
            self.members.iter().flat_map(|(space, index)| [*space, *index]).collect(),
            self.counts().to_vec(),
        ]
    }
}

fn times(words: &[u32], kinds: &[u32]) -> u32 {
    words.chunks_exact(WORDS).filter(|record| kinds.contains(&record[0])).count() as u32
}

/// What the records that are left read, each location once. A record that reads joins the read set
/// just when it is put out, and once put out it is never dropped.
fn members(words: &[u32], table: &[u32]) -> Vec<(u32, u32)> {
    let mut seen = HashSet::new();
    let read = words.chunks_exact(WORDS).flat_map(|record| read_by(record, table));
    read.filter(|location| seen.insert(*location)).collect()
}

fn read_by(r: &[u32], table: &[u32]) -> Vec<(u32, u32)> {
    match r[0] {
        5 => vec![(r[2], r[3])],
        7 => vec![(r[3], r[4]), (r[3], r[4] + 1)],
        10 => {
            let [first, count] = [r[1], r[2]].map(|pairs| 2 * pairs as usize);
            table[first..first + count].chunks_exact(2).map(|pair| (pair[0], pair[1])).collect()
        }
        14 | 18 => vec![(r[4], r[5])],
        _ => Vec::new(),
    }
}
