//! Comparing the C entry with what is expected.

use std::hint::black_box;
use std::ops::Range;

use crate::support::shown;
use harness::answers::{self, refused};
use harness::file;
use harness::lists::List;
use harness::random::Random;
use harness::settings::set_flag;
use harness::tally::By;
use rudzaviks::ffi::reduce_word;

/// How many bytes, or up to seven more, are on each side of the lent ones.
const GUARD: usize = 16;

/// Lent bytes, at an address of any alignment, and others around them.
#[derive(Clone, PartialEq, Eq)]
struct Guarded {
    all: Vec<u8>,
    lent: Range<usize>,
}

impl Guarded {
    /// Adjacent bytes differ, so that one which is put in a wrong place is seen.
    fn filled(random: &mut Random, len: usize) -> Guarded {
        let start = GUARD + random.index(8);
        let (first, step) = (random.word() as u8, random.word() as u8 | 1);
        let byte = |at: usize| first.wrapping_add((at as u8).wrapping_mul(step));
        Guarded { all: (0..start + len + GUARD).map(byte).collect(), lent: start..start + len }
    }

    fn around(random: &mut Random, bytes: &[u8]) -> Guarded {
        Guarded::filled(random, bytes.len()).with_prefix(bytes)
    }

    /// The same, but with these bytes where the lent ones start.
    fn with_prefix(mut self, bytes: &[u8]) -> Guarded {
        self.lent_mut()[..bytes.len()].copy_from_slice(bytes);
        self
    }

    fn lent_mut(&mut self) -> &mut [u8] {
        &mut self.all[self.lent.clone()]
    }

    /// Where the first byte is that differs, counted from the first lent one, and the two.
    fn difference(&self, other: &Guarded) -> Option<(isize, [u8; 2])> {
        let at = (0..self.all.len()).find(|at| self.all[*at] != other.all[*at])?;
        Some((at as isize - self.lent.start as isize, [self.all[at], other.all[at]]))
    }
}

/// What the entry answered, what the output then holds, and by whose answer they were compared.
pub struct Called {
    pub word: u64,
    pub out: Vec<u8>,
    by: By,
}

/// The entry answers and leaves what is expected, and leaves the file as it was.
pub fn called(random: &mut Random, file: &[u8], out_len: usize) -> Called {
    let mut read = Guarded::around(random, file);
    let mut out = Guarded::filled(random, out_len);
    let before = (read.clone(), out.clone());
    let word = reduce_word(read.lent_mut(), out.lent_mut());
    let answers::Answer { word: expected, lent, by } = answers::reduce(file, out_len);
    assert_eq!(word, expected, "{out_len} bytes for {}", shown_file(file));
    let expected = before.1.with_prefix(&lent);
    if out != expected {
        let difference = out.difference(&expected).expect("one of the bytes");
        panic!("{difference:?} of {out_len} bytes for {}", shown_file(file));
    }
    assert!(*black_box(&mut read) == before.0, "the file was changed: {}", shown_file(file));
    Called { word, out: out.lent_mut().to_vec(), by }
}

/// The answered word, where all is as expected.
pub fn agree(random: &mut Random, file: &[u8], out_len: usize) -> u64 {
    called(random, file, out_len).word
}

/// `called` on the list's file, with an output as long as is asked or a little longer.
fn called_with_room(random: &mut Random, list: &List) -> Called {
    let longer = if random.percent(50) { 0 } else { random.index(80) };
    let file = file::encode(list, set_flag(random));
    called(random, &file, file::room(list) + longer)
}

/// The answered word, where all is as expected.
pub fn agree_with_room(random: &mut Random, list: &List) -> u64 {
    called_with_room(random, list).word
}

/// `called_with_room` on a list that passes: how many records are left, and by whose answer.
pub fn passes(random: &mut Random, list: &List) -> (usize, By) {
    let Called { word, by, .. } = called_with_room(random, list);
    assert!(word <= list.records() as u64, "refused: {}", shown(list));
    (word as usize, by)
}

/// The file is refused with the number, by its form or as a whole.
pub fn refuses(random: &mut Random, file: &[u8], out_len: usize, number: u32) {
    let word = agree(random, file, out_len);
    assert_eq!(word, refused((number, 0)), "{out_len} bytes for {}", shown_file(file));
}

fn shown_file(file: &[u8]) -> String {
    match file::decode(file) {
        Some(list) => shown(&list),
        None => format!("no file: {:?}, {} bytes", &file[..file.len().min(200)], file.len()),
    }
}
