//! The plain statement of the used registers, beside the original's and by hand.

use harness::how_many;
use harness::kinds::*;
use harness::lists::{narrow_list, List};
use harness::random::Random;
use harness::record::Record;
use harness::run;
use harness::settings::Settings;
use harness::used::{by_original, mask};

#[test]
fn narrow_lists_use_what_the_original_says() {
    let mut random = Random::new(61);
    let (mut met, mut compressed) = (0, 0);
    let lists = how_many(200_000);
    for _ in 0..lists {
        let list = narrow_list(&mut random, 80);
        let mask = mask(&list);
        let mir = run::mir(&list).expect("a list that passes has a meaning");
        assert_eq!(mask as u32, by_original(&mir), "{list:?}");
        if list.settings.compress {
            compressed += 1;
        } else {
            assert_eq!(mask >> 32, 0, "{list:?}");
            met |= mask;
        }
    }
    assert_eq!(met, 0xffff_ffff);
    assert!(compressed > lists / 10, "{compressed}");
}

fn used(records: &[Record], compress: bool) -> u64 {
    let settings = Settings { count_regs: 64, compress, ..Settings::default() };
    mask(&List { settings, table: Vec::new(), words: records.concat() })
}

#[test]
fn masks_by_hand() {
    for (record, expected) in [
        (mov(32, 0), 1 << 32),
        (mov(63, 62), 1 << 63),
        (mov(RET, 63), 0),
        (save(63, MEM, 0), 0),
        (load_complex(5, 63, MEM, 0), 1 << 63 | 1 << 5),
        (load_complex(63, 63, MEM, 0), 1 << 63),
        (load_complex(63, TEMP, MEM, 0), 0),
        (save_complex(62, 63, MEM, 0), 0),
        (complex_bi(0, [31, 32], [63, 62, 61, 60]), 3 << 31),
        (complex_bi(0, [LEFT, 32], [63, 62, 61, 60]), 0),
        (branch_if(40, 7, 1), 1 << 40),
        (branch_if(RIGHT, 7, 1), 0),
        (call(63, 63), 0),
        (label(63), 0),
    ] {
        assert_eq!(used(&[record], false), expected, "{record:?}");
        assert_eq!(used(&[record], true), u64::MAX, "{record:?}");
    }
    let both = [load(0, MEM, 0), load(31, MEM, 0), load(32, MEM, 0), load(63, MEM, 0)];
    assert_eq!(used(&both, false), 0x8000_0001_8000_0001);
    assert_eq!((used(&[], false), used(&[], true)), (0, u64::MAX));
}
