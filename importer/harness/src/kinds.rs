//! Records by the names of their kinds, for lists that are written by hand. A register is a Gen's
//! number or one of the four names.

use crate::record::{Record, WORDS};

pub const STACK: u32 = 0;
pub const MEM: u32 = 1;
pub const PARAM: u32 = 2;

pub const RET: u32 = 256;
pub const TEMP: u32 = 257;
pub const LEFT: u32 = 258;
pub const RIGHT: u32 = 259;

fn row<const N: usize>(kind: u32, fields: [u32; N]) -> Record {
    let mut record = [0; WORDS];
    record[0] = kind;
    record[1..=N].copy_from_slice(&fields);
    record
}

pub fn nop() -> Record {
    row(0, [])
}

pub fn end() -> Record {
    row(1, [])
}

pub fn uni(op: u32, dst: u32, s1: u32) -> Record {
    row(2, [op, dst, s1])
}

pub fn bi(op: u32, dst: u32, s1: u32, s2: u32) -> Record {
    row(3, [op, dst, s1, s2])
}

pub fn mov(dst: u32, s1: u32) -> Record {
    row(4, [dst, s1])
}

pub fn load(dst: u32, space: u32, index: u32) -> Record {
    row(5, [dst, space, index])
}

pub fn save(src: u32, space: u32, index: u32) -> Record {
    row(6, [src, space, index])
}

pub fn load_complex(xd: u32, yd: u32, space: u32, index: u32) -> Record {
    row(7, [xd, yd, space, index])
}

pub fn save_complex(xs: u32, ys: u32, space: u32, index: u32) -> Record {
    row(8, [xs, ys, space, index])
}

pub fn load_const(dst: u32, idx: u32) -> Record {
    row(9, [dst, idx])
}

pub fn load_args(first: u32, count: u32, complex: u32, ultra: u32) -> Record {
    row(10, [first, count, complex, ultra])
}

pub fn save_args(num_args: u32, complex: u32, ultra: u32) -> Record {
    row(11, [num_args, complex, ultra])
}

pub fn call(label: u32, num_args: u32) -> Record {
    row(12, [label, num_args])
}

pub fn fused(op: u32, dst: u32, a: u32, b: u32, c: u32) -> Record {
    row(13, [op, dst, a, b, c])
}

pub fn if_else(dst: u32, true_val: u32, false_val: u32, space: u32, index: u32) -> Record {
    row(14, [dst, true_val, false_val, space, index])
}

pub fn label(number: u32) -> Record {
    row(15, [number])
}

pub fn branch(label: u32) -> Record {
    row(16, [label])
}

pub fn branch_if(cond: u32, label: u32, is_else: u32) -> Record {
    row(17, [cond, label, is_else])
}

pub fn load_math(op: u32, dst: u32, s1: u32, space: u32, index: u32) -> Record {
    row(18, [op, dst, s1, space, index])
}

pub fn load_const_math(op: u32, dst: u32, s1: u32, idx: u32) -> Record {
    row(19, [op, dst, s1, idx])
}

/// Destinations x and y, then the sources x1, y1, x2, y2.
pub fn complex_bi(op: u32, [xd, yd]: [u32; 2], [x1, y1, x2, y2]: [u32; 4]) -> Record {
    row(20, [op, xd, yd, x1, y1, x2, y2])
}
