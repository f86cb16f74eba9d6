//! The sorts of branches that lists have, and how many lists have each.

use std::collections::HashMap;

use crate::lists::List;
use crate::mended::target;
use crate::record::WORDS;

const NAMES: [&str; 9] = [
    "a branch",
    "a forward branch",
    "a backward branch",
    "several branches into one label",
    "several Labels of a number that a branch has",
    "a branch to 0",
    "a branch to 65,535",
    "a branch to 65,536",
    "a branch to 4,294,967,295",
];

/// How many lists have each sort.
#[derive(Default)]
pub struct Sorts([u64; 9]);

impl Sorts {
    /// Adds a list that passes.
    pub fn add(&mut self, list: &List) {
        for (times, has) in self.0.iter_mut().zip(sorts(list)) {
            *times += u64::from(has);
        }
    }

    /// Prints the numbers. All of so many lists have a branch, and one in twenty has each sort.
    pub fn print(&self, what: &str, lists: u64) {
        assert_eq!(self.0[0], lists, "{what}");
        for (times, name) in self.0.iter().zip(NAMES) {
            println!("{what}: {times} lists with {name}");
            assert!(*times >= lists / 20, "{what}: {times} lists with {name}");
        }
    }
}

fn sorts(list: &List) -> [bool; 9] {
    let records = || list.words.chunks_exact(WORDS).enumerate();
    let labels = records().filter(|(_, r)| r[0] == 15).map(|(at, r)| (r[1], at));
    let places: HashMap<u32, usize> = labels.collect();
    let branches: Vec<(usize, u32)> =
        records().filter_map(|(at, r)| Some((at, r[target(r[0])?]))).collect();
    let any =
        |wanted: &dyn Fn(usize, u32) -> bool| branches.iter().any(|(at, to)| wanted(*at, *to));
    let is_repeated = |to: u32| list.labels().iter().filter(|label| **label == to).count() > 1;
    [
        !branches.is_empty(),
        any(&|at, to| at < places[&to]),
        any(&|at, to| at > places[&to]),
        any(&|at, to| any(&|other, same| other > at && same == to)),
        any(&|_, to| is_repeated(to)),
        any(&|_, to| to == 0),
        any(&|_, to| to == 65_535),
        any(&|_, to| to == 65_536),
        any(&|_, to| to == u32::MAX),
    ]
}
