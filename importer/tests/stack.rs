//! How much stack a C entry takes, beyond its caller's. Each call runs on a thread whose stack has
//! just the bytes that the documents state, and what it left untouched is counted.

#![cfg(all(target_os = "linux", target_arch = "x86_64"))]

use std::alloc::{alloc, dealloc, Layout};
use std::ffi::{c_int, c_void};
use std::fs;
use std::ptr::null_mut;
use std::slice;

use harness::file::{encode, room};
use harness::kinds::{branch, branch_if, label, load_args, load_const, mov, nop, RET};
use harness::limits::{MOST_PAIRS, MOST_RECORDS};
use harness::lists::{list, List, Profile};
use harness::random::Random;
use harness::settings::Settings;
use rudzaviks::ffi::{optimize_word, reduce_word, survey_word, Buffers, PARTS};

/// What the documents state, in bytes: numbers that stand for nothing else there.
const SURVEY: usize = 1_024;
const REFUSED_AT_ONCE: usize = 640;
const FILE: usize = 78_848;

/// For a list that is refused by a question about its records, by the most of them. The last number
/// is for 16, which has a table on the stack, and is put once all others have passed.
const REFUSED: [(usize, usize, usize); 3] =
    [(768, 5_632, 21_504), (5_120, 23_040, 38_912), (MOST_RECORDS, 264_704, 280_576)];

/// For a list that is reduced, by the words that its set must have. Beside the bytes are the lists
/// that are run, as records and pairs, the largest of each class among them.
const REDUCED: [(usize, &[(usize, usize)]); 3] = [
    (21_504, &[(0, 0), (1, 0), (512, 512), (768, 0)]),
    (76_800, &[(512, 513), (769, 0), (4_096, 2_048), (5_120, 0)]),
    (1_084_416, &[(4_096, 2_049), (5_121, 0), (MOST_RECORDS, 0), (MOST_RECORDS, MOST_PAIRS)]),
];

/// What they may come to: 128 kB for a file, and 1.5 MiB for the longest list.
const _: () = assert!(FILE <= 131_072 && REDUCED[2].0 <= 1_572_864);

/// The least stack that a thread may have, and a page.
const LEAST: usize = 16_384;
const PAGE: usize = 4_096;

const UNTOUCHED: u8 = 0xa5;

const WIDE: Settings =
    Settings { count_regs: 64, args: 0, complex: false, arm: false, compress: false };

/// glibc's `pthread_attr_t` on x86-64.
#[repr(C, align(8))]
struct Attributes([u8; 56]);

extern "C" {
    fn pthread_attr_init(attributes: *mut Attributes) -> c_int;
    fn pthread_attr_setstack(attributes: *mut Attributes, low: *mut u8, size: usize) -> c_int;
    fn pthread_create(
        thread: *mut usize,
        attributes: *const Attributes,
        start: extern "C" fn(*mut c_void) -> *mut c_void,
        argument: *mut c_void,
    ) -> c_int;
    fn pthread_join(thread: usize, result: *mut *mut c_void) -> c_int;
    fn mprotect(low: *mut u8, size: usize, access: c_int) -> c_int;
}

type Call<'a> = &'a mut (dyn FnMut() + Send);

/// Runs the call that the argument points to.
extern "C" fn start(argument: *mut c_void) -> *mut c_void {
    // SAFETY: `touched` passes its own `Call`, and waits for this thread.
    let call = unsafe { &mut *argument.cast::<Call>() };
    call();
    null_mut()
}

/// How many bytes of a stack of this size a thread touches that makes the call. Below the stack is
/// a page that must not be touched: with too little stack the whole test is killed.
fn touched(size: usize, mut call: Call) -> usize {
    let layout = Layout::from_size_align(PAGE + size, PAGE).expect("a layout");
    let argument: *mut Call = &mut call;
    // SAFETY: the memory is this function's own until the thread, whose stack it is, has ended.
    unsafe {
        let guard = alloc(layout);
        assert!(!guard.is_null());
        let low = guard.add(PAGE);
        low.write_bytes(UNTOUCHED, size);
        assert_eq!(mprotect(guard, PAGE, 0), 0);
        let mut attributes = Attributes([0; 56]);
        assert_eq!(pthread_attr_init(&mut attributes), 0);
        assert_eq!(pthread_attr_setstack(&mut attributes, low, size), 0);
        let mut thread = 0;
        assert_eq!(pthread_create(&mut thread, &attributes, start, argument.cast()), 0);
        assert_eq!(pthread_join(thread, null_mut()), 0);
        let stack = slice::from_raw_parts(low, size);
        let touched = stack.iter().skip_while(|byte| **byte == UNTOUCHED).count();
        assert_eq!(mprotect(guard, PAGE, 3), 0);
        dealloc(guard, layout);
        touched
    }
}

/// The call takes at most `most` bytes beyond what a thread itself does, and more than `least`.
fn takes(what: &str, least: usize, most: usize, call: Call) {
    let own = touched(LEAST, &mut || ());
    let size = (own + most).next_multiple_of(16).max(LEAST);
    let taken = touched(size, call) - own;
    println!("{what}: {taken} bytes");
    assert!(least < taken && taken <= most, "{what}: {taken} bytes, {most} are stated");
}

/// A passing list of all kinds.
fn passing(records: usize) -> List {
    passing_with(records, 6)
}

/// The same, with so many pairs in its table.
fn passing_with(records: usize, pairs: usize) -> List {
    let profile = Profile { settings: WIDE, pairs, ..Profile::plain(records) };
    list(&mut Random::new(records as u64), &profile)
}

/// A list whose last record is refused: by 9 for a register without a static, by 15 for one that was
/// written before a BranchIf, or by 16 for a label that no Label has.
fn refused(records: usize, number: u64) -> List {
    let last = match number {
        9 => [nop(), label(0), mov(0, 63)],
        15 => [load_const(63, 0), branch_if(RET, 0, 0), mov(0, 63)],
        _ => [nop(), label(0), branch(65_535)],
    };
    let mut list = passing(records);
    for (at, record) in (records - 3..records).zip(last) {
        list.record_mut(at).copy_from_slice(&record);
    }
    list
}

/// What the entry answers, with slices that have room; called on a stack as `takes` has it.
fn optimize(what: &str, least: usize, most: usize, list: &List) -> u64 {
    let mut buffers = Buffers::new(list.words.len(), list.table.len());
    let mut lent = buffers.lend();
    let settings = list.settings.words(1);
    let mut word = 0;
    let mut call = || word = optimize_word(&list.words, &list.table, settings, &mut lent);
    takes(what, least, most, &mut call);
    word
}

#[test]
fn a_refusal_before_any_record_takes_little() {
    let list = List { settings: Settings { count_regs: 65, ..WIDE }, ..passing(MOST_RECORDS) };
    assert_eq!(optimize("refused by 1", 0, REFUSED_AT_ONCE, &list), 1 << 32);
}

/// Lists as short and as long as a class has them.
#[test]
fn a_refusal_takes_what_its_class_does() {
    let mut shortest = 3;
    for (longest, most, most_by_16) in REFUSED {
        for (number, most) in [(9, most), (15, most), (16, most_by_16)] {
            for records in [shortest, longest] {
                let (what, list) = (format!("refused by {number}"), refused(records, number));
                let word = optimize(&what, most * 3 / 4, most, &list);
                assert_eq!(word, (number << 32) | (records as u64 - 1));
            }
        }
        shortest = longest + 1;
    }
}

/// A list that passes and names all pairs of its table, in the first record that does nothing or
/// names pairs.
fn naming_all(records: usize, pairs: usize) -> List {
    let mut list = passing_with(records, pairs);
    let (nothing, names) = (nop()[0], load_args(0, 0, 0, 0)[0]);
    let place = (0..records).find(|at| [nothing, names].contains(&list.record(*at)[0]));
    let at = place.expect("some record of so many does nothing or names pairs");
    list.record_mut(at).copy_from_slice(&load_args(0, pairs as u32, 0, 0));
    list
}

/// The longest set of a shorter class: a list whose records alone don't need more takes what that
/// class does unless it names its pairs.
const BELOW: [Option<usize>; 3] = [None, Some(3_072), Some(20_480)];

#[test]
fn a_reduced_list_takes_what_its_class_does() {
    for ((most, lists), below) in REDUCED.into_iter().zip(BELOW) {
        for (records, pairs) in lists {
            let what = format!("{records} records, {pairs} pairs");
            let reduce = |least, list: List| {
                let word = optimize(&what, least, most, &list);
                assert!(word <= *records as u64, "{word:#x}");
            };
            if below.is_some_and(|longest| records * 4 <= longest) {
                reduce(0, passing_with(*records, *pairs));
                reduce(most * 7 / 8, naming_all(*records, *pairs));
            } else {
                reduce(most * 7 / 8, passing_with(*records, *pairs));
            }
        }
    }
}

/// A table that a list doesn't name from makes it take no more.
#[test]
fn a_table_that_is_not_named_takes_nothing() {
    for records in [0, 1, 64] {
        let plain = passing(records);
        let list = List { table: vec![0; 2 * MOST_PAIRS], ..plain };
        let word = optimize("a long table", 0, REDUCED[0].0, &list);
        assert!(word <= records as u64, "{word:#x}");
    }
}

#[test]
fn a_file() {
    let refused = [9, 15, 16].map(|number| (refused(512, number), number));
    let passing = [passing(0), passing(512), passing_with(512, 512)].map(|list| (list, 0));
    for (list, number) in passing.into_iter().chain(refused) {
        let file = encode(&list, 1);
        let mut out = vec![0; room(&list)];
        let mut word = 0;
        let least = if number == 0 { FILE * 7 / 8 } else { 0 };
        takes("a file", least, FILE, &mut || word = reduce_word(&file, &mut out));
        assert_eq!(word >> 32, number);
    }
}

/// What `survey` answers with this many words for its parts; called on a stack as `takes` has it.
fn survey(what: &str, list: &List, parts_len: usize) -> u64 {
    let mut parts = vec![0; parts_len];
    let mut word = 0;
    let mut call = || word = survey_word(&list.words, &list.table, 64, 0, 0, &mut parts);
    takes(what, 0, SURVEY, &mut call);
    word
}

/// A list that passes, and lists that are refused at once and at the very end.
#[test]
fn a_survey_takes_little() {
    let mut list = passing(65_536);
    assert_eq!(survey("survey", &list, PARTS) >> 32, 0);
    assert_eq!(survey("survey, refused by 4", &list, PARTS - 1), 4 << 32);
    list.record_mut(65_535).copy_from_slice(&[4, 260, 0, 0, 0, 0, 0, 0]);
    assert_eq!(survey("survey, refused by 6", &list, PARTS), (6 << 32) | 65_535);
    for records in [0, 1, 64] {
        assert_eq!(survey("survey of a shorter list", &passing(records), PARTS) >> 32, 0);
    }
}

/// With thousands apart, as the documents write it.
fn written(number: usize) -> String {
    match number / 1_000 {
        0 => number.to_string(),
        thousands => format!("{},{:03}", written(thousands), number % 1_000),
    }
}

fn states(document: &str, numbers: impl Iterator<Item = usize>) {
    let path = format!("{}/../{document}", env!("CARGO_MANIFEST_DIR"));
    let text = fs::read_to_string(path).expect("the document is there");
    for number in numbers {
        assert!(text.contains(&written(number)), "{document} does not state {number} bytes");
    }
}

#[test]
fn the_documents_state_these_numbers() {
    let reduced = REDUCED.map(|(most, _)| most);
    let each = || [SURVEY, REFUSED_AT_ONCE, FILE].into_iter().chain(reduced);
    states("include/rudzaviks.h", each());
    states("docs/GUARANTEES.md", each());
    let refused = REFUSED.into_iter().flat_map(|(_, most, most_by_16)| [most, most_by_16]);
    states("docs/FORMAT.md", each().chain(refused));
}
