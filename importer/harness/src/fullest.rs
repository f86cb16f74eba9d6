//! How full the registers got, in plain Rust: a second statement beside the verified code, from the
//! list and the colours that the original chose for its statics. It shares nothing with that.

use crate::lists::List;
use crate::record::WORDS;
use crate::roles::{words_with, Role};

/// The choice of a colour for one written general register.
pub struct Choice<'a> {
    /// The record's index.
    pub at: u32,
    /// Which of the record's words names the register.
    pub word: usize,
    /// Each colour's life before the choice, and once it is made.
    pub before: &'a [u32],
    pub after: &'a [u32],
}

impl Choice<'_> {
    /// How many colours are in use past the record, once the choice is made.
    pub fn number(&self) -> u32 {
        self.after.iter().filter(|life| **life > self.at).count() as u32
    }
}

/// The words of a record that have the wanted role and name a general register.
fn gens(record: &[u32], wanted: Role) -> impl Iterator<Item = usize> + '_ {
    words_with(record[0], |role| role == wanted).into_iter().filter(|word| record[*word] < 256)
}

/// Whether a record reads a general register.
pub fn has_source(record: &[u32]) -> bool {
    gens(record, Role::Source).next().is_some()
}

/// The ends by their definition: each written Gen register makes a static, which ends at its last
/// read before the register is written again or forgotten, or else at its writing.
pub fn ends(list: &List) -> Vec<u32> {
    let mut ends = Vec::new();
    let mut current = [None; 256];
    for (at, record) in list.words.chunks_exact(WORDS).enumerate() {
        for word in gens(record, Role::Source) {
            let number: usize = current[record[word] as usize].expect("a static");
            ends[number] = at as u32;
        }
        for word in gens(record, Role::Destination) {
            current[record[word] as usize] = Some(ends.len());
            ends.push(at as u32);
        }
        if record[0] == 12 || record[0] == 15 {
            current = [None; 256];
        }
    }
    ends
}

/// Shows each choice, in order: found or not, x's and then y's. A Label, Call, Branch or BranchIf
/// sets every life to 0.
pub fn each_choice(list: &List, colours: &[u32], mut see: impl FnMut(Choice)) {
    let mut statics = colours.iter().zip(ends(list));
    let mut lives = vec![0; list.settings.count_regs as usize];
    let mut before = lives.clone();
    for (at, record) in list.words.chunks_exact(WORDS).enumerate() {
        for word in gens(record, Role::Destination) {
            let (colour, end) = statics.next().expect("a colour for each choice");
            before.copy_from_slice(&lives);
            let life = &mut lives[*colour as usize];
            *life = end.max(*life);
            see(Choice { at: at as u32, word, before: &before, after: &lives });
        }
        if matches!(record[0], 12 | 15..=17) {
            lives.fill(0);
        }
    }
}

/// The largest number of all choices, 0 for none.
pub fn fullest(list: &List, colours: &[u32]) -> u32 {
    let mut most = 0;
    each_choice(list, colours, |choice| most = most.max(choice.number()));
    most
}
