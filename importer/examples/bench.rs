//! Times the original and the port on the same lists, and prints four tables of both: of `optimize`
//! by kinds, registers, length and locations; where half of the records are branches, by its
//! labels; of `survey`, which is the original's `used_registers` and `populate_labels` together;
//! and of `optimize` where the cells were made to be in one another's way, in one tree of the
//! port's read set.
//!
//! `cargo run --release --offline --example bench`, in importer/. Timed is the work on lists that
//! are prepared: the unchanged original's on its own form of the list, and the port's C entry on
//! words and buffers, which it finds as the run before left them. The port puts its questions; the
//! original has none. Each run takes as many lists as make 65,536 records, first by one and then by
//! the other; a time is the median of the runs, for one record. A list that left the oracle runs is
//! timed like any other; the port is to leave as many records as the amended copy.
//!
//! With the word `table`, or `instructions`, it prints the first table alone, and beside the times the instructions of
//! the port, as valgrind counts them, or `-` where there is no valgrind. For that each row is run
//! by this program again, with `once`, the size and the row's number.
//!
//! With the word `smoke` every row of every table is run once on few records, and one row under
//! valgrind: its times mean nothing, but the port's answers are held to the same.

use std::env;
use std::fs;
use std::hint::black_box;
use std::io::ErrorKind;
use std::process::{id, Command};
use std::time::{Duration, Instant};

use harness::answers::Survey;
use harness::kinds::{branch_if, label, load, load_const, STACK};
use harness::lent::PARTS;
use harness::lists::{list, List, Profile};
use harness::random::Random;
use harness::record::WORDS;
use harness::run::{self, Ready, Unchanged};
use harness::settings::Settings;
use rudzaviks::ffi::{optimize_word, survey_word, Buffers};

/// How much is run for a row: lists of so many records in all, none of them longer, so many times.
#[derive(Clone, Copy)]
struct Size {
    records: usize,
    runs: usize,
}

const FULL: Size = Size { records: 65_536, runs: 9 };

/// Longer than the shorter of LONG, so that lists of both lengths are run.
const SMOKE: Size = Size { records: 8_192, runs: 1 };

const LENGTHS: [usize; 4] = [64, 512, LONG[0], LONG[1]];

/// The lengths that show how the time of one record grows with their number.
const LONG: [usize; 2] = [4_096, 65_536];

/// A length for each size that the port's index of the read set comes in.
const COLLIDING: [usize; 3] = [LENGTHS[1], LONG[0], LONG[1]];

/// Numbers of registers. The other tables have FEW.
const REGISTERS: [u32; 3] = [FEW, 32, 64];
const FEW: u32 = 14;

const KINDS: [(&str, bool); 2] = [("all", false), ("scalar straight-line", true)];

/// The label that is asked for.
const LABEL: u32 = 1;

/// Which cells the lists of a row have.
struct Locations {
    name: &'static str,
    /// How many in each space, by the length of the list.
    cells: fn(usize) -> u32,
    /// How far they are moved up.
    up: u32,
    /// The length of the shortest list that has a row with them.
    shortest: usize,
}

const FEW_CELLS: Locations = Locations { name: "few", cells: |_| 3, up: 0, shortest: 0 };

/// The high ones end near 2^32: no table that has a place for each low index knows them.
const LOCATIONS: [Locations; 3] = [
    FEW_CELLS,
    Locations { name: "many", cells: |records| records as u32, up: 0, shortest: 0 },
    Locations {
        name: "high",
        cells: |records| records as u32,
        up: 4_294_000_000,
        shortest: LONG[0],
    },
];

/// The lists of one row of the first table.
struct Row {
    kinds: &'static str,
    scalar: bool,
    count_regs: u32,
    records: usize,
    locations: Locations,
}

impl Row {
    fn all(size: Size) -> Vec<Row> {
        let mut rows = Vec::new();
        for (kinds, scalar) in KINDS {
            for count_regs in REGISTERS {
                for length in LENGTHS {
                    let records = length.min(size.records);
                    let fits = |locations: &Locations| locations.shortest <= length;
                    rows.extend(LOCATIONS.into_iter().filter(fits).map(|locations| Row {
                        kinds,
                        scalar,
                        count_regs,
                        records,
                        locations,
                    }));
                }
            }
        }
        rows
    }

    fn lists(&self, size: Size) -> Vec<List> {
        let mut random = Random::new(self.records as u64);
        let settings = Settings { count_regs: self.count_regs, ..Settings::default() };
        let cells = (self.locations.cells)(self.records);
        let profile = Profile { settings, cells, ..Profile::plain(self.records) };
        let profile = if self.scalar { profile.scalar() } else { profile };
        let moved = |_| list(&mut random, &profile).moved_up(self.locations.up);
        (0..size.records / self.records).map(moved).collect()
    }

    fn columns(&self) -> String {
        let Row { kinds, count_regs, records, locations, .. } = self;
        format!("{kinds} | {count_regs} | {records} | {}", locations.name)
    }
}

/// The number that a label has, by its place among the labels.
type Number = fn(u32) -> u32;

/// How the numbers of the labels are chosen: one after the other, any, and so that a table has one
/// slot for them all.
const NUMBERS: [(&str, Number); 3] = [
    ("from 0 on", |label| label),
    ("any", |label| Random::new(u64::from(label)).word()),
    ("in one slot", |label| label.wrapping_mul(244_002_641)),
];

/// Numbers of labels.
const LABELS: [u32; 4] = [2, 100, 1_000, 10_000];

/// A list of labels and branches to them: the labels, and then as many branches as make half of the
/// records, each to any of them, with a constant loaded after each.
fn branching(records: usize, labels: u32, number: Number) -> List {
    let mut random = Random::new(u64::from(labels));
    let mut words: Vec<u32> = (0..labels).flat_map(|at| label(number(at))).collect();
    while words.len() < records * WORDS {
        words.extend(branch_if(256, number(random.below(labels)), 0));
        words.extend(load_const(0, 0));
    }
    words.truncate(records * WORDS);
    let settings = Settings { count_regs: FEW, ..Settings::default() };
    List { settings, table: Vec::new(), words }
}

/// The port's read set mixes the index of a Stack cell to `index * MIX` mod 2^32, and that times the
/// number of heads, by 2^32, is the cell's head. Below a head is a tree, which goes by the bits of
/// the index, lowest first.
const MIX: u32 = 2_654_435_769;

/// Times MIX, mod 2^32, this is 1.
const INVERSE: u32 = 340_573_321;
const _: () = assert!(MIX.wrapping_mul(INVERSE) == 1);

/// How many heads there are for a list of so many records that has no table.
fn heads(records: usize) -> u32 {
    match records * 4 {
        0..=3_072 => 1_024,
        3_073..=20_480 => 4_096,
        _ => 32_768,
    }
}

/// How far apart the cells of a list come to lie once they are mixed, by how many they are.
type Apart = fn(usize) -> u32;

/// Neighbours are spread over all heads. The cells below one head come to 0, 1, 2 and so on; or,
/// for long paths, they lie as far apart as that head has room for. For each length here that is a
/// power of two, so that the cells agree in as many low bits as so many cells can.
const CELLS: [(&str, Apart); 3] = [
    ("neighbours", |_| MIX),
    ("below one head", |_| 1),
    ("below one head, on long paths", |count| (u32::MAX / heads(count) + 1) / count as u32),
];

/// So many distinct cells.
fn cells(count: usize, apart: Apart) -> Vec<u32> {
    let mixed = |at: usize| (at as u32).wrapping_mul(apart(count));
    (0..count).map(|at| mixed(at).wrapping_mul(INVERSE)).collect()
}

/// A list that loads each of the cells once.
fn loading(cells: &[u32]) -> List {
    let registers = (0..FEW).cycle();
    let words = cells.iter().zip(registers).flat_map(|(cell, to)| load(to, STACK, *cell)).collect();
    let settings = Settings { count_regs: FEW, ..Settings::default() };
    List { settings, table: Vec::new(), words }
}

/// The original's time for all lists.
fn time_original(lists: &[List]) -> Duration {
    let mut ready: Vec<Ready<Unchanged>> = lists.iter().map(Ready::new).collect();
    let start = Instant::now();
    ready.iter_mut().for_each(Ready::optimize);
    start.elapsed()
}

/// The port's time for all lists, and its answers.
fn time_port(lists: &[List], buffers: &mut [Buffers]) -> (Duration, Vec<u64>) {
    let mut answers = Vec::with_capacity(lists.len());
    let start = Instant::now();
    for (list, buffers) in lists.iter().zip(buffers) {
        let settings = list.settings.words(1);
        answers.push(optimize_word(&list.words, &list.table, settings, &mut buffers.lend()));
    }
    (start.elapsed(), answers)
}

fn median(mut times: Vec<Duration>) -> Duration {
    times.sort();
    times[times.len() / 2]
}

/// The median times of both ways, taken in turn, for one record, in nanoseconds.
fn medians(lists: &[List], runs: usize, mut ways: [&mut dyn FnMut() -> Duration; 2]) -> [f64; 2] {
    let mut times = [Vec::new(), Vec::new()];
    for _ in 0..runs {
        for (way, times) in ways.iter_mut().zip(&mut times) {
            times.push(way());
        }
    }
    let records: usize = lists.iter().map(List::records).sum();
    times.map(|times| median(times).as_secs_f64() * 1e9 / records as f64)
}

fn buffers(lists: &[List]) -> Vec<Buffers> {
    lists.iter().map(|list| Buffers::new(list.words.len(), list.table.len())).collect()
}

fn optimize_times(lists: &[List], runs: usize) -> [f64; 2] {
    let expected: Vec<u64> =
        lists.iter().map(|list| run::optimize(list).len() as u64 / 8).collect();
    let mut buffers = buffers(lists);
    let mut port = || {
        let (time, answers) = time_port(lists, &mut buffers);
        assert!(answers == expected, "the port leaves other records than it is to leave");
        time
    };
    medians(lists, runs, [&mut || time_original(lists), &mut port])
}

/// The original's time for both of its operations on all lists.
fn time_pair(lists: &[List]) -> Duration {
    let ready = |list: &List| run::mir(list).expect("each record has a meaning");
    let mut lists: Vec<_> = lists.iter().map(ready).collect();
    let start = Instant::now();
    for mir in &mut lists {
        mir.populate_labels();
        black_box(mir.used_registers());
    }
    start.elapsed()
}

/// The port's time for all lists, and the parts that it gives.
fn time_survey(lists: &[List]) -> (Duration, Vec<[u32; PARTS]>) {
    let mut parts = vec![[0; PARTS]; lists.len()];
    let start = Instant::now();
    for (list, parts) in lists.iter().zip(&mut parts) {
        survey_word(&list.words, &list.table, list.settings.count_regs, 0, LABEL, parts);
    }
    (start.elapsed(), parts)
}

fn survey_times(lists: &[List], runs: usize) -> [f64; 2] {
    let expected: Vec<_> =
        lists.iter().map(|list| Survey::of(list).answer(LABEL, PARTS).lent).collect();
    let mut port = || {
        let (time, parts) = time_survey(lists);
        assert!(expected == parts, "the port gives other parts than it is to give");
        time
    };
    medians(lists, runs, [&mut || time_pair(lists), &mut port])
}

/// The port's instructions for all lists of a row, as valgrind counts them in its C entry; none
/// where valgrind is missing.
fn instructions(size: Size, row: usize) -> Option<u64> {
    let out = env::temp_dir().join(format!("bench-{}.callgrind", id()));
    let this = env::current_exe().expect("the path of this program");
    let run = Command::new("valgrind")
        .args(["--tool=callgrind", "--toggle-collect=rudzaviks_optimize", "--quiet"])
        .arg(format!("--callgrind-out-file={}", out.display()))
        .arg(this)
        .args(["once", &size.records.to_string(), &row.to_string()])
        .status();
    match run {
        Err(error) if error.kind() == ErrorKind::NotFound => return None,
        run => assert!(run.expect("valgrind runs").success(), "row {row} under valgrind"),
    }
    let text = fs::read_to_string(&out).expect("what valgrind wrote");
    fs::remove_file(&out).expect("a file of our own");
    let totals = text.lines().find_map(|line| line.strip_prefix("totals: "));
    Some(totals.and_then(|totals| totals.trim().parse().ok()).expect("a line with the total"))
}

/// The port alone, once.
fn run_once(size: Size, row: usize) {
    let lists = Row::all(size)[row].lists(size);
    black_box(time_port(&lists, &mut buffers(&lists)));
}

fn row_text(columns: &str, [original, port]: [f64; 2]) -> String {
    format!("| {columns} | {original:.1} | {port:.1} | {:.2} |", port / original)
}

const FIRST_HEAD: &str =
    "| kinds | registers | records | locations | original, ns | port, ns | port / original |";
const FIRST_RULE: &str = "|---|--:|--:|---|--:|--:|--:|";

fn first_table_row(size: Size, row: &Row) -> String {
    row_text(&row.columns(), optimize_times(&row.lists(size), size.runs))
}

fn print_first_table(size: Size) {
    println!("{FIRST_HEAD}\n{FIRST_RULE}");
    Row::all(size).iter().for_each(|row| println!("{}", first_table_row(size, row)));
}

/// The first rows of the first table, with the instructions beside the times.
fn print_counted(size: Size, rows: usize) {
    println!("{FIRST_HEAD} instructions a record |\n{FIRST_RULE}--:|");
    for (at, row) in Row::all(size).iter().enumerate().take(rows) {
        let a_record = |count: u64| format!("{:.0}", count as f64 / size.records as f64);
        let count = instructions(size, at).map_or("-".to_string(), a_record);
        println!("{} {count} |", first_table_row(size, row));
    }
}

fn print_labels(Size { records, runs }: Size) {
    println!("\n| records | labels | numbers | original, ns | port, ns | port / original |");
    println!("|--:|--:|---|--:|--:|--:|");
    for labels in LABELS {
        for (how, number) in NUMBERS {
            let times = optimize_times(&[branching(records, labels, number)], runs);
            println!("{}", row_text(&format!("{records} | {labels} | {how}"), times));
        }
    }
}

fn print_survey(size: Size) {
    println!("\n| records | kinds | original's pair, ns | survey, ns | survey / pair |");
    println!("|--:|---|--:|--:|--:|");
    for (kinds, scalar) in KINDS {
        for length in LENGTHS {
            let records = length.min(size.records);
            let row = Row { kinds, scalar, count_regs: FEW, records, locations: FEW_CELLS };
            let times = survey_times(&row.lists(size), size.runs);
            println!("{}", row_text(&format!("{records} | {kinds}"), times));
        }
    }
}

fn print_collisions(size: Size) {
    println!("\n| records | cells | original, ns | port, ns | port / original |");
    println!("|--:|---|--:|--:|--:|");
    for length in COLLIDING {
        let records = length.min(size.records);
        for (how, apart) in CELLS {
            let lists = vec![loading(&cells(records, apart)); size.records / records];
            let times = optimize_times(&lists, size.runs);
            println!("{}", row_text(&format!("{records} | {how}"), times));
        }
    }
}

fn print_times(size: Size) {
    print_first_table(size);
    print_labels(size);
    print_survey(size);
    print_collisions(size);
}

fn smoke() {
    print_times(SMOKE);
    println!();
    print_counted(SMOKE, 1);
}

fn number(word: &str) -> usize {
    word.parse().expect("a number")
}

fn main() {
    let words: Vec<String> = env::args().skip(1).collect();
    match words.iter().map(String::as_str).collect::<Vec<_>>()[..] {
        [] => print_times(FULL),
        ["table" | "instructions"] => print_counted(FULL, usize::MAX),
        ["smoke"] => smoke(),
        ["once", records, row] => run_once(Size { records: number(records), runs: 1 }, number(row)),
        _ => panic!("usage: bench [table | smoke]"),
    }
}
