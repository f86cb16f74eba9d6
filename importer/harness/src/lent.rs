//! The slices that are lent to be written.

use crate::lists::List;
use crate::random::Random;

/// Output, colours, ends, set and counts.
pub type Lent = [Vec<u32>; 5];

/// The fewest words that question 4 asks of the slice that is lent to `survey`.
pub const PARTS: usize = 4;

/// The fewest words that question 4 asks of each.
pub fn room(list: &List) -> [usize; 5] {
    let (words, records) = (list.words.len(), list.records());
    [words, 2 * records, 2 * records, 4 * records + list.table.len(), 8]
}

/// Question 4, by the slices' lengths.
pub fn has_room(list: &List, lengths: [usize; 5]) -> bool {
    room(list).iter().zip(lengths).all(|(asked, length)| *asked <= length)
}

pub fn lengths(lent: &Lent) -> [usize; 5] {
    lent.each_ref().map(Vec::len)
}

/// Slices of the given lengths. No two words near each other are equal, so that one which is put in
/// a wrong place is seen.
pub fn filled(random: &mut Random, lengths: [usize; 5]) -> Lent {
    lengths.map(|length| {
        let (first, step) = (random.word(), random.word() | 1);
        (0..length as u32).map(|at| first.wrapping_add(at.wrapping_mul(step))).collect()
    })
}

/// Slices with room for the list: each as long as is asked, or a little longer.
pub fn with_room(random: &mut Random, list: &List) -> Lent {
    let longer = random.percent(50);
    let lengths = room(list).map(|asked| if longer { asked + random.index(20) } else { asked });
    filled(random, lengths)
}

/// The slices as they were, but each starting with the given words.
pub fn with_prefixes(before: &Lent, mut words: Lent) -> Lent {
    for (slice, words) in before.iter().zip(&mut words) {
        words.extend(&slice[words.len()..]);
    }
    words
}
