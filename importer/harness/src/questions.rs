//! The questions that a list must pass, in plain Rust, kind by kind.
//!
//! This is a second statement of them: it shares nothing with the verified code.

use std::collections::HashSet;

use crate::limits::MOST_REGS;
use crate::settings::Settings;

/// The number of the question that was answered no, and the record's index.
pub type Refusal = (u32, usize);

/// The last question's number. Those of 10 to 14 are not in use.
pub const LAST: usize = 16;

const LAST_INDEX: u32 = 4_294_967_295;

/// A mark on each Gen register.
type Marks = [bool; MOST_REGS as usize];
const NONE: Marks = [false; MOST_REGS as usize];
const ALL: Marks = [true; MOST_REGS as usize];

/// What the records before one have made of the Gen registers.
struct Registers {
    /// Whether each has a static.
    has_static: Marks,
    /// Whether a BranchIf came since it was written.
    stale: Marks,
}

/// The eleven questions before reducing: 1 to 9, 15 and 16. `room` is the answer to the fourth, on
/// the lent buffers.
pub fn refusal(settings: &Settings, list: &[u32], table: &[u32], room: bool) -> Option<Refusal> {
    if settings.count_regs > MOST_REGS {
        return Some((1, 0));
    }
    if settings.args > 65_535 {
        return Some((2, 0));
    }
    if !sizes_fit(list, table) {
        return Some((3, 0));
    }
    if !room {
        return Some((4, 0));
    }
    let mut registers = Registers { has_static: NONE, stale: NONE };
    for (index, record) in list.chunks_exact(8).enumerate() {
        let number =
            first_no(record, table, settings.count_regs).or_else(|| later_no(record, &registers));
        if let Some(number) = number {
            return Some((number, index));
        }
        rename(record, &mut registers);
    }
    branch_to_none(list).map(|index| (16, index))
}

/// The questions of the operation beside the passes: 1 and 3 to 7. `room` is the answer to the
/// fourth, on the lent parts.
pub fn refusal_beside(count_regs: u32, list: &[u32], table: &[u32], room: bool) -> Option<Refusal> {
    if count_regs > MOST_REGS {
        return Some((1, 0));
    }
    if !sizes_fit(list, table) {
        return Some((3, 0));
    }
    if !room {
        return Some((4, 0));
    }
    for (index, record) in list.chunks_exact(8).enumerate() {
        if let Some(number) = first_no(record, table, count_regs) {
            return Some((number, index));
        }
    }
    None
}

fn sizes_fit(list: &[u32], table: &[u32]) -> bool {
    let list_fits = list.len().is_multiple_of(8) && list.len() <= 524_288;
    list_fits && table.len().is_multiple_of(2) && table.len() <= 65_536
}

/// Questions 5 to 7 on one record.
fn first_no(record: &[u32], table: &[u32], count_regs: u32) -> Option<u32> {
    if record[0] > 20 {
        return Some(5);
    }
    if !fields_fit(record, table) {
        return Some(6);
    }
    let gen_fits = |register: &u32| *register > 255 || *register < count_regs;
    if !sources(record).iter().all(gen_fits) || !destinations(record).iter().all(gen_fits) {
        return Some(7);
    }
    None
}

/// Questions 8, 9 and 15 on one record.
fn later_no(record: &[u32], Registers { has_static, stale }: &Registers) -> Option<u32> {
    if (record[0] == 7 || record[0] == 8) && record[4] == LAST_INDEX {
        return Some(8);
    }
    let named = |register: &u32| *register > 255 || has_static[*register as usize];
    if !sources(record).iter().all(named) {
        return Some(9);
    }
    if sources(record).iter().any(|register| *register <= 255 && stale[*register as usize]) {
        return Some(15);
    }
    None
}

/// A written Gen register has a static from then on; Label and Call forget them all, and a BranchIf
/// makes them all stale until they are written again.
fn rename(record: &[u32], registers: &mut Registers) {
    match record[0] {
        12 | 15 => registers.has_static = NONE,
        17 => registers.stale = ALL,
        _ => {}
    }
    for register in destinations(record) {
        if *register <= 255 {
            registers.has_static[*register as usize] = true;
            registers.stale[*register as usize] = false;
        }
    }
}

/// Question 16: the first Branch or BranchIf whose number no Label has.
fn branch_to_none(list: &[u32]) -> Option<usize> {
    let labels = list.chunks_exact(8).filter(|r| r[0] == 15).map(|r| r[1]);
    let labels: HashSet<u32> = labels.collect();
    list.chunks_exact(8).position(|r| match r[0] {
        16 => !labels.contains(&r[1]),
        17 => !labels.contains(&r[2]),
        _ => false,
    })
}

/// Question 6.
fn fields_fit(r: &[u32], table: &[u32]) -> bool {
    match r[0] {
        0 | 1 => unused(&r[1..]),
        2 => r[1] < 20 && regs(&r[2..4]) && unused(&r[4..]),
        3 => r[1] < 15 && regs(&r[2..5]) && unused(&r[5..]),
        4 => regs(&r[1..3]) && unused(&r[3..]),
        5 | 6 => regs(&r[1..2]) && space(r[2]) && unused(&r[4..]),
        7 | 8 => regs(&r[1..3]) && space(r[3]) && unused(&r[5..]),
        9 => regs(&r[1..2]) && unused(&r[3..]),
        10 => pairs(r[1], r[2], table) && flag(r[3]) && flag(r[4]) && unused(&r[5..]),
        11 => r[1] < 256 && flag(r[2]) && flag(r[3]) && unused(&r[4..]),
        12 => unused(&r[3..]),
        13 => r[1] < 4 && regs(&r[2..6]) && unused(&r[6..]),
        14 => regs(&r[1..4]) && space(r[4]) && unused(&r[6..]),
        15 | 16 => unused(&r[2..]),
        17 => regs(&r[1..2]) && flag(r[3]) && unused(&r[4..]),
        18 => r[1] < 4 && regs(&r[2..4]) && space(r[4]) && unused(&r[6..]),
        19 => r[1] < 4 && regs(&r[2..4]) && unused(&r[5..]),
        20 => r[1] < 4 && regs(&r[2..8]),
        _ => false,
    }
}

fn unused(words: &[u32]) -> bool {
    words.iter().all(|word| *word == 0)
}

fn regs(words: &[u32]) -> bool {
    words.iter().all(|word| *word <= 259)
}

fn space(word: u32) -> bool {
    word <= 2
}

fn flag(word: u32) -> bool {
    word <= 1
}

fn pairs(first: u32, count: u32, table: &[u32]) -> bool {
    let pairs = table.len() as u64 / 2;
    if u64::from(first) + u64::from(count) > pairs {
        return false;
    }
    let (first, count) = (first as usize, count as usize);
    (first..first + count).all(|pair| space(table[2 * pair]))
}

/// The registers that a record of a known kind reads.
fn sources(r: &[u32]) -> &[u32] {
    match r[0] {
        2 => &r[3..4],
        3 => &r[3..5],
        4 => &r[2..3],
        6 => &r[1..2],
        8 => &r[1..3],
        13 => &r[3..6],
        14 => &r[2..4],
        17 => &r[1..2],
        18 => &r[3..4],
        19 => &r[3..4],
        20 => &r[4..8],
        _ => &[],
    }
}

/// The registers that a record of a known kind writes.
fn destinations(r: &[u32]) -> &[u32] {
    match r[0] {
        2 => &r[2..3],
        3 => &r[2..3],
        4 => &r[1..2],
        5 => &r[1..2],
        7 => &r[1..3],
        9 => &r[1..2],
        13 => &r[2..3],
        14 => &r[1..2],
        18 => &r[2..3],
        19 => &r[2..3],
        20 => &r[2..4],
        _ => &[],
    }
}
