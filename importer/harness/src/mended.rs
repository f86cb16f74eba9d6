//! Lists that pass questions 15 and 16, from lists that pass those before them. Nothing is drawn.

use std::collections::HashSet;

use crate::lists::{fresh_after, nth, statics_after, List};
use crate::roles::{words_with, Role};

/// The list, changed only where question 15 or 16 asks for it. One that passes stays as it is.
pub fn mended(list: List) -> List {
    with_fresh_sources(with_targets(list))
}

/// A branch whose number no Label has goes to one of the Labels, by its own index; where there is
/// none, it becomes a Nop.
pub fn with_targets(mut list: List) -> List {
    let labels = list.labels();
    let known: HashSet<u32> = labels.iter().copied().collect();
    for at in 0..list.records() {
        let record = list.record_mut(at);
        let Some(word) = target(record[0]) else { continue };
        if labels.is_empty() {
            record.fill(0);
        } else if !known.contains(&record[word]) {
            record[word] = labels[at % labels.len()];
        }
    }
    list
}

/// The word where a Branch or BranchIf has its number.
pub fn target(kind: u32) -> Option<usize> {
    match kind {
        16 => Some(1),
        17 => Some(2),
        _ => None,
    }
}

/// A source that was written before a BranchIf and not since becomes one that was; where there is
/// none, a named register. Which one, its own number tells.
pub fn with_fresh_sources(mut list: List) -> List {
    let (mut held, mut fresh) = (0u64, 0u64);
    for at in 0..list.records() {
        let record = list.record_mut(at);
        for word in words_with(record[0], |role| role == Role::Source) {
            let register = record[word];
            if register < 64 && (held & !fresh) >> register & 1 == 1 {
                record[word] = match fresh.count_ones() {
                    0 => 256 + register % 4,
                    choices => nth(fresh, register % choices),
                };
            }
        }
        held = statics_after(record, held);
        fresh = fresh_after(record, fresh);
    }
    list
}
