//! The program `reduce`, which Rattle's toolchain builds: what it says and ends with where a read or
//! write fails, and that it is 0 where none does.

use std::fs::{self, File};
use std::io::{stderr, Write};
use std::path::{Path, PathBuf};
use std::process::{Command, Output, Stdio};

use rudzaviks::record::Records;
use rudzaviks::{file, text};

const MANIFEST: &str = env!("CARGO_MANIFEST_DIR");

/// The program, if it was built.
fn program() -> Option<PathBuf> {
    let program = Path::new(MANIFEST).join("../crates/reduce/out/reduce");
    if program.is_file() {
        return Some(program);
    }
    writeln!(stderr(), "{} is not there, and not tried", program.display()).expect("a note");
    None
}

fn run(program: &Path, input: File, out: Stdio) -> Output {
    let mut command = Command::new(program);
    command.stdin(input).stdout(out).stderr(Stdio::piped()).output().expect("it runs")
}

/// A file of the sample, and what is left of it in words.
fn sample() -> (File, String) {
    let source = fs::read_to_string(Path::new(MANIFEST).join("samples/volume.txt"));
    let parsed = text::parse(&source.expect("the sample")).expect("a list");
    let records = Records::new(&parsed.list);
    let bytes = file::write(&records, &parsed.settings).expect("it fits");
    let path = Path::new(env!("CARGO_TARGET_TMPDIR")).join("program.words");
    fs::write(&path, &bytes).expect("it is written");
    let left = file::reduce(&bytes).expect("it passes");
    let line = |record: &[u32]| record.iter().map(u32::to_string).collect::<Vec<_>>().join(" ");
    let lines = left.chunks(8).flat_map(|record| [line(record), "\n".to_string()]);
    (File::open(path).expect("it is there"), lines.collect())
}

#[test]
fn what_fails_is_told() {
    let Some(program) = program() else { return };
    let (input, left) = sample();
    let done = run(&program, input, Stdio::piped());
    let expected = format!("{left}dropped 1 3 1 2\n");
    assert_eq!(String::from_utf8_lossy(&done.stdout), expected);
    assert_eq!((done.status.code(), done.stderr.len()), (Some(0), 0));
    let refused = run(&program, File::open("/dev/null").expect("nothing"), Stdio::piped());
    assert_eq!((refused.status.code(), refused.stdout), (Some(0), b"refused 3 at 0\n".to_vec()));
    let full = File::options().write(true).open("/dev/full").expect("a full disk");
    let folder = File::open(MANIFEST).expect("a folder");
    for (failed, said) in [
        (run(&program, sample().0, full.into()), "reduce: can't write standard output: "),
        (run(&program, folder, Stdio::piped()), "reduce: can't read standard input: "),
    ] {
        let err = String::from_utf8_lossy(&failed.stderr);
        assert!(err.starts_with(said) && err.lines().count() == 1, "{err}");
        assert_eq!(failed.status.code(), Some(1));
    }
}
