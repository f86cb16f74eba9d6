//! Lists that were chosen by hand, with parts that were written by hand.

use super::support::agree;
use harness::kinds::*;
use harness::lists::List;
use harness::record::Record;
use harness::settings::Settings;
use harness::worked_examples;
use rudzaviks::ffi::{survey, Place, Refusal, Survey};

/// The mask and the label's place, absent where there is none; or the refusal.
type Parts = Result<(u64, Option<u32>), (u32, u32)>;

/// The list is surveyed for label 7.
fn surveyed(list: &List) -> Parts {
    agree(list, &[7]);
    let settings = &list.settings;
    match survey(&list.words, &list.table, settings.count_regs, settings.compress, 7) {
        Ok(Survey { mask, count, place }) => {
            assert_eq!(mask.count_ones(), count);
            let place = match place {
                Place::At(index) => Some(index),
                Place::Absent => None,
            };
            Ok((mask, place))
        }
        Err(Refusal { number, index }) => Err((number, index)),
    }
}

#[test]
fn the_worked_examples() {
    let expected: [Parts; 10] = [
        Ok((0, None)),
        Ok((1, None)),
        Ok((1, None)),
        Ok((3, None)),
        Ok((3, None)),
        Ok((1, None)),
        Ok((1, Some(1))),
        Err((7, 0)),
        Err((1, 0)),
        Ok((2, None)),
    ];
    for (case, expected) in worked_examples::cases().iter().zip(expected) {
        assert_eq!(surveyed(&case.list), expected, "case {}", case.name);
    }
}

fn records(records: &[Record], compress: bool) -> List {
    let settings = Settings { count_regs: 64, compress, ..Settings::default() };
    List { settings, table: Vec::new(), words: records.concat() }
}

/// Each record gives its mask alone, all of them give the union, and with `compress` each gives all
/// registers.
fn give(each: &[(Record, u64)]) {
    for (record, mask) in each {
        assert_eq!(surveyed(&records(&[*record], false)), Ok((*mask, None)), "{record:?}");
        let list = records(&[*record, label(7)], true);
        assert_eq!(surveyed(&list), Ok((u64::MAX, Some(1))), "{record:?}");
    }
    let union = each.iter().fold(0, |union, (_, mask)| union | mask);
    let all: Vec<Record> = each.iter().map(|(record, _)| *record).collect();
    assert_eq!(surveyed(&records(&all, false)), Ok((union, None)));
}

/// A two-part record counts only if both of its destinations are Gen registers; a BranchIf counts
/// its condition.
#[test]
fn each_kind() {
    give(&[
        (nop(), 0),
        (end(), 0),
        (uni(0, 3, 1), 1 << 3),
        (uni(0, TEMP, 1), 0),
        (bi(0, 4, 1, 2), 1 << 4),
        (mov(31, 30), 1 << 31),
        (load(0, MEM, 5), 1),
        (save(6, MEM, 5), 0),
        (load_complex(7, 8, MEM, 0), 3 << 7),
        (load_complex(7, RET, MEM, 0), 0),
        (load_complex(RET, 8, MEM, 0), 0),
        (load_complex(9, 9, MEM, 0), 1 << 9),
        (save_complex(1, 2, MEM, 0), 0),
        (load_const(10, 5), 1 << 10),
        (load_args(0, 0, 0, 0), 0),
        (save_args(2, 0, 0), 0),
        (call(7, 2), 0),
        (fused(0, 11, 1, 2, 3), 1 << 11),
        (if_else(12, 1, 2, MEM, 3), 1 << 12),
        (label(6), 0),
        (branch(7), 0),
        (branch_if(13, 7, 0), 1 << 13),
        (branch_if(LEFT, 7, 0), 0),
        (load_math(0, 14, 1, MEM, 3), 1 << 14),
        (load_const_math(0, 15, 1, 3), 1 << 15),
        (complex_bi(0, [16, 17], [1, 2, 3, 4]), 3 << 16),
        (complex_bi(0, [16, RIGHT], [1, 2, 3, 4]), 0),
    ]);
}

/// Registers of the mask's high word, also beside one of its low word.
#[test]
fn each_kind_above_bit_31() {
    give(&[
        (uni(0, 32, 1), 1 << 32),
        (bi(0, 33, 62, 63), 1 << 33),
        (mov(63, 30), 1 << 63),
        (load(47, MEM, 5), 1 << 47),
        (save(63, MEM, 5), 0),
        (load_complex(31, 32, MEM, 0), 3 << 31),
        (load_complex(63, 62, MEM, 0), 3 << 62),
        (load_complex(5, 63, MEM, 0), 1 << 63 | 1 << 5),
        (load_complex(34, 34, MEM, 0), 1 << 34),
        (load_complex(35, TEMP, MEM, 0), 0),
        (load_complex(LEFT, 63, MEM, 0), 0),
        (save_complex(62, 63, MEM, 0), 0),
        (load_const(36, 63), 1 << 36),
        (fused(0, 37, 61, 62, 63), 1 << 37),
        (if_else(38, 62, 63, MEM, 39), 1 << 38),
        (branch_if(40, 7, 0), 1 << 40),
        (load_math(0, 41, 63, MEM, 42), 1 << 41),
        (load_const_math(0, 43, 63, 44), 1 << 43),
        (complex_bi(0, [63, 0], [59, 60, 61, 62]), 1 << 63 | 1),
        (complex_bi(0, [45, 46], [32, 33, 63, 62]), 3 << 45),
        (complex_bi(0, [48, RET], [32, 33, 63, 62]), 0),
    ]);
}
