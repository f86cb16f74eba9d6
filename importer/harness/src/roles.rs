//! What each word of a record is for, as the generators of lists use it.

#[derive(Clone, Copy, Debug, PartialEq, Eq)]
pub enum Role {
    /// An operation, below the number.
    Op(u32),
    Source,
    Destination,
    Space,
    Index,
    /// An index whose partner, the next one, must exist.
    PartnerIndex,
    First,
    Count,
    Flag,
    /// A number up to 255.
    Byte,
    Label,
    /// A constant's index or a number of arguments: any word.
    Any,
    Unused,
}

use Role::*;

/// How many kinds there are.
pub const KINDS: usize = 21;

/// Scalar straight-line kinds.
pub const SCALAR: [u32; 12] = [0, 1, 2, 3, 4, 5, 6, 9, 13, 14, 18, 19];

/// Straight kinds: those, and the three two-part ones.
pub const STRAIGHT: [u32; 15] = [0, 1, 2, 3, 4, 5, 6, 7, 8, 9, 13, 14, 18, 19, 20];

/// Straight kinds and those of jumps: all but LoadArgs, SaveArgs and Call.
pub const JUMPING: [u32; 18] = [0, 1, 2, 3, 4, 5, 6, 7, 8, 9, 13, 14, 15, 16, 17, 18, 19, 20];

/// The roles of words 1 to 7 as far as the kind uses them.
const USED: [&[Role]; KINDS] = [
    &[],
    &[],
    &[Op(20), Destination, Source],
    &[Op(15), Destination, Source, Source],
    &[Destination, Source],
    &[Destination, Space, Index],
    &[Source, Space, Index],
    &[Destination, Destination, Space, PartnerIndex],
    &[Source, Source, Space, PartnerIndex],
    &[Destination, Any],
    &[First, Count, Flag, Flag],
    &[Byte, Flag, Flag],
    &[Label, Any],
    &[Op(4), Destination, Source, Source, Source],
    &[Destination, Source, Source, Space, Index],
    &[Label],
    &[Label],
    &[Source, Label, Flag],
    &[Op(4), Destination, Source, Space, Index],
    &[Op(4), Destination, Source, Any],
    &[Op(4), Destination, Destination, Source, Source, Source, Source],
];

/// The role of a word, from 1 to 7, in a record of a known kind.
pub fn role(kind: u32, word: usize) -> Role {
    USED[kind as usize].get(word - 1).copied().unwrap_or(Unused)
}

/// The words, from 1 to 7, that have a role of the wanted sort.
pub fn words_with(kind: u32, wanted: impl Fn(Role) -> bool) -> Vec<usize> {
    (1..8).filter(|word| wanted(role(kind, *word))).collect()
}
