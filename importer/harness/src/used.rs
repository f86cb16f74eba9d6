//! The mask of used registers, in plain Rust.
//!
//! The original's mask has 32 bits, so that for lists of more registers this is the only statement
//! beside the verified code. It shares nothing with that.

use oracle::{Mir, Reg};

use crate::lists::List;
use crate::record::WORDS;
use crate::roles::{words_with, Role};

/// Register r has bit r: all 64 with `compress`, else those that the records count.
pub fn mask(list: &List) -> u64 {
    if list.settings.compress {
        return u64::MAX;
    }
    list.words.chunks_exact(WORDS).fold(0, |mask, record| mask | counted(record))
}

/// A record counts its destinations, and a BranchIf its condition; but none unless all are Gen.
fn counted(record: &[u32]) -> u64 {
    let wanted = if record[0] == 17 { Role::Source } else { Role::Destination };
    let words = words_with(record[0], |role| role == wanted);
    if words.iter().any(|word| record[*word] > 255) {
        return 0;
    }
    words.iter().fold(0, |mask, word| mask | 1 << record[*word])
}

/// The mask of the original's list of used registers, which names each of them once. It can tell of
/// lists of at most USED_REGS registers.
pub fn by_original(mir: &Mir) -> u32 {
    let used = mir.used_registers();
    let mask: u32 = used.iter().fold(0, |mask, reg| match reg {
        Reg::Gen(number) => mask | 1 << number,
        _ => panic!("{reg:?} is no Gen register"),
    });
    assert_eq!(mask.count_ones() as usize, used.len(), "{used:?}");
    mask
}
