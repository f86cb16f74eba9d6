//! Running the tool.

use std::fs;
use std::io::Write;
use std::path::{Path, PathBuf};
use std::process::{Command, Stdio};
use std::sync::atomic::{AtomicUsize, Ordering};

pub const SAMPLE: &str = concat!(env!("CARGO_MANIFEST_DIR"), "/samples/volume.txt");

pub const TWO_PART: &str = concat!(env!("CARGO_MANIFEST_DIR"), "/samples/two_part.txt");

/// A list with a loop.
pub const BRANCH: &str = concat!(env!("CARGO_MANIFEST_DIR"), "/samples/branch.txt");

/// A list that is refused: the original reduces it, and then it computes something else.
pub const PAST_BRANCH: &str = concat!(env!("CARGO_MANIFEST_DIR"), "/samples/past_branch.txt");

/// The commands on lists.
pub const COMMANDS: [&str; 6] =
    ["reduce", "check", "survey", "pressure", "assemble", "disassemble"];

pub const TOOL: &str = env!("CARGO_BIN_EXE_rudzaviks");

/// What a run of the tool gave.
pub struct RunOutput {
    pub status: i32,
    pub out: Vec<u8>,
    pub err: String,
}

impl RunOutput {
    pub fn out(&self) -> &str {
        std::str::from_utf8(&self.out).expect("text")
    }

    /// It is a failure of this status that says all of this, and gives nothing.
    pub fn fails(&self, status: i32, said: &[&str]) {
        assert_eq!((self.status, self.out()), (status, ""), "{}", self.err);
        for part in said {
            assert!(self.err.contains(part), "{part:?} is not in {:?}", self.err);
        }
    }

    /// It is no failure, and says nothing beside what it gives.
    pub fn succeeds(self) -> RunOutput {
        assert_eq!((self.status, self.err.as_str()), (0, ""));
        self
    }
}

/// Runs the tool with these words, and this on its standard input.
pub fn run(words: &[&str], input: &[u8]) -> RunOutput {
    run_in(Path::new("."), words, input)
}

/// The same in a folder.
pub fn run_in(folder: &Path, words: &[&str], input: &[u8]) -> RunOutput {
    let mut tool = Command::new(TOOL);
    tool.args(words).current_dir(folder);
    output_of(tool, input)
}

/// What a program gives that has this on its standard input.
pub fn output_of(mut program: Command, input: &[u8]) -> RunOutput {
    let mut child = program
        .stdin(Stdio::piped())
        .stdout(Stdio::piped())
        .stderr(Stdio::piped())
        .spawn()
        .expect("the program starts");
    // A tool that reads no input may have ended by now.
    let _ = child.stdin.take().expect("its input").write_all(input);
    let output = child.wait_with_output().expect("the program ends");
    let err = String::from_utf8(output.stderr).expect("text");
    RunOutput { status: output.status.code().expect("a status"), out: output.stdout, err }
}

/// Runs a command on a list that is given as text.
pub fn run_on(command: &str, list: &str) -> RunOutput {
    run(&[command, "-"], list.as_bytes())
}

/// A place for a file of a test.
pub fn place(name: &str) -> String {
    let path = PathBuf::from(env!("CARGO_TARGET_TMPDIR")).join(name);
    path.into_os_string().into_string().expect("text")
}

/// A folder of a test's own, which is empty.
pub fn folder() -> PathBuf {
    static FOLDERS: AtomicUsize = AtomicUsize::new(0);
    let number = FOLDERS.fetch_add(1, Ordering::Relaxed).to_string();
    let folder = PathBuf::from(env!("CARGO_TARGET_TMPDIR")).join("tool").join(number);
    // What an earlier run has left.
    let _ = fs::remove_dir_all(&folder);
    fs::create_dir_all(&folder).expect("a folder");
    folder
}

/// A folder of a test's own with the samples in it.
pub fn samples() -> PathBuf {
    let folder = folder();
    for sample in [SAMPLE, TWO_PART, BRANCH, PAST_BRANCH] {
        let name = Path::new(sample).file_name().expect("a sample has a name");
        fs::copy(sample, folder.join(name)).expect("a copy of the sample");
    }
    folder
}

/// What is in a file of a folder.
pub fn text_in(folder: &Path, name: &str) -> String {
    fs::read_to_string(folder.join(name)).expect("a text was written")
}

pub fn lines_fit(text: &str) {
    for line in text.lines() {
        assert!(line.len() <= 100 && line.trim_end() == line, "{line:?}");
    }
}
