//! The carried-over allocator is the published file, byte for byte.

const ALLOCATOR: &[u8] = include_bytes!("../src/symjit/allocator.rs");

fn fnv_1a(bytes: &[u8]) -> u64 {
    bytes.iter().fold(0xcbf2_9ce4_8422_2325, |hash, byte| {
        (hash ^ u64::from(*byte)).wrapping_mul(0x100_0000_01b3)
    })
}

#[test]
fn the_hash_is_the_known_one() {
    assert_eq!(fnv_1a(b""), 0xcbf2_9ce4_8422_2325);
    assert_eq!(fnv_1a(b"a"), 0xaf63_dc4c_8601_ec8c);
}

#[test]
fn the_allocator_is_unchanged() {
    assert_eq!(ALLOCATOR.len(), 23_700);
    assert_eq!(ALLOCATOR.split(|byte| *byte == b'\n').count(), 654);
    assert_eq!(fnv_1a(ALLOCATOR), 0x9be6_9dfb_b59f_f354);
}
