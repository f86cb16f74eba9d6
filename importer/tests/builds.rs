//! The builds: without the library, with one that is missing, stale or replaced, and by
//! `cargo install`.

use std::fs;
use std::path::{Path, PathBuf};
use std::process::{Command, Output};

/// The library is linked to these tests.
const _: () = assert!(rudzaviks::ffi::LINKED);

const MANIFEST: &str = env!("CARGO_MANIFEST_DIR");

const SAMPLE: &str = concat!(env!("CARGO_MANIFEST_DIR"), "/samples/volume.txt");

/// An empty folder of this name; what is built beside it is kept for the next run.
fn empty(name: &str) -> PathBuf {
    let folder = Path::new(env!("CARGO_TARGET_TMPDIR")).join(name);
    let _ = fs::remove_dir_all(&folder);
    fs::create_dir_all(&folder).expect("a folder");
    folder
}

/// Runs cargo at the top of the repository, with a target folder of this name.
fn cargo(target: &str, words: &[&str], lib_dir: Option<&Path>) -> Output {
    let top = Path::new(MANIFEST).parent().expect("the repository");
    let mut cargo = Command::new(env!("CARGO"));
    cargo.args(words).args(["--offline", "--quiet", "--target-dir"]).arg(built(target));
    cargo.env_remove("CARGO_BUILD_TARGET").current_dir(top);
    if let Some(dir) = lib_dir {
        cargo.env("RUDZAVIKS_LIB_DIR", dir);
    }
    cargo.output().expect("cargo runs")
}

/// The target folder of this name.
fn built(target: &str) -> PathBuf {
    Path::new(env!("CARGO_TARGET_TMPDIR")).join(target)
}

fn run(tool: &Path, words: &[&str], folder: &Path) -> Output {
    Command::new(tool).args(words).current_dir(folder).output().expect("the tool runs")
}

fn succeeds(output: &Output) {
    let err = String::from_utf8_lossy(&output.stderr);
    assert!(output.status.success(), "{}: {err}", output.status);
}

const BUILD: [&str; 5] =
    ["build", "--manifest-path", "importer/Cargo.toml", "--package", "rudzaviks"];

#[test]
fn without_the_library_there_are_texts_and_files_but_no_answers() {
    let none = empty("no_library");
    let words = [&BUILD[..], &["--no-default-features", "--bin", "rudzaviks"]].concat();
    succeeds(&cargo("text", &words, Some(&none)));

    let tool = built("text").join("debug/rudzaviks");
    succeeds(&run(&tool, &["--version"], &none));
    let whole = Path::new(env!("CARGO_BIN_EXE_rudzaviks"));
    let assembled = run(&tool, &["assemble", SAMPLE], &none);
    succeeds(&assembled);
    assert_eq!(assembled.stdout, run(whole, &["assemble", SAMPLE], &none).stdout);
    for command in ["reduce", "check", "survey", "pressure"] {
        let answer = run(&tool, &[command, SAMPLE], &none);
        assert_eq!(answer.status.code(), Some(3), "{command}");
        assert!(answer.stdout.is_empty(), "{command} answers");
        let err = String::from_utf8_lossy(&answer.stderr);
        let said =
            "rudzaviks: this tool was built without the verified library\nhelp: build it with";
        assert!(err.starts_with(said), "{command}: {err}");
        succeeds(&run(whole, &[command, SAMPLE], &none));
    }
}

#[test]
fn a_missing_library_is_told_in_a_sentence() {
    let none = empty("missing_library");
    let output = cargo("missing", &BUILD, Some(&none));
    assert!(!output.status.success());
    let err = String::from_utf8_lossy(&output.stderr);
    let file = none.join("librudzaviks.a");
    let place =
        format!("the library is missing: there is no {}; run tools/library", file.display());
    for part in [&place, "set RUDZAVIKS_LIB_DIR to the folder that has librudzaviks.a"] {
        assert!(err.contains(part), "{part:?} is not in {err:?}");
    }
    assert!(!err.contains("panicked"), "{err}");
}

/// A small repository with the real build.rs and tools/library. Its one crate, its rt and its
/// package are stand-ins.
struct Small {
    top: PathBuf,
}

impl Small {
    fn new(name: &str) -> Small {
        let small = Small { top: empty(name) };
        let real = Path::new(MANIFEST).parent().expect("the repository");
        small.write("crates.txt", "rudzaviks_c staticlib:\n");
        small.write("crates/rudzaviks_c/src/lib.rt", "one\n");
        let rt = "#!/bin/sh\ncase $1 in\nversion) echo a kit ;;\n\
            lib) mkdir -p out; cp ../../archive out/librudzaviks_c.a ;;\nesac\n";
        small.write("bin/rt", rt);
        small.write("importer/Cargo.toml", SMALL_PACKAGE);
        small.write("importer/src/lib.rs", "");
        for script in ["importer/build.rs", "tools/library"] {
            small.write(script, &fs::read_to_string(real.join(script)).expect("a script"));
        }
        fs::copy(env!("RUDZAVIKS_LIB"), small.top.join("archive")).expect("the archive");
        small.runs("chmod", &["+x", "bin/rt"]);
        small
    }

    fn write(&self, name: &str, text: &str) {
        let file = self.top.join(name);
        fs::create_dir_all(file.parent().expect("a folder")).expect("the folder is made");
        fs::write(file, text).expect("the file is written");
    }

    fn command(&self, program: &str, words: &[&str]) -> Command {
        let path = std::env::var("PATH").expect("a path");
        let mut command = Command::new(program);
        command.args(words).current_dir(&self.top);
        command.env("PATH", format!("{}/bin:{path}", self.top.display()));
        for name in ["RUDZAVIKS_LIB_DIR", "RUDZAVIKS_LIBRARY_SUM", "CARGO_BUILD_TARGET"] {
            command.env_remove(name);
        }
        command
    }

    fn runs(&self, program: &str, words: &[&str]) {
        succeeds(&self.command(program, words).output().expect("it runs"));
    }

    /// What `cargo build` says, with these variables set.
    fn says(&self, variables: &[(&str, &str)]) -> String {
        let words = ["build", "--offline", "--manifest-path", "importer/Cargo.toml"];
        let mut cargo = self.command(env!("CARGO"), &words);
        let target = self.top.join("importer/target");
        cargo.arg("--target-dir").arg(target).envs(variables.iter().copied());
        let output = cargo.output().expect("cargo runs");
        succeeds(&output);
        String::from_utf8(output.stderr).expect("text")
    }
}

const SMALL_PACKAGE: &str = "[workspace]\n[package]\nname = 'rudzaviks'\nversion = '0.1.0'\n\
    edition = '2021'\n[features]\ndefault = ['library']\nlibrary = []\n";

const WHAT_TO_DO: &str = "; run tools/library, which proves and builds it\n";

#[test]
fn cargo_tells_of_a_stale_library() {
    let small = Small::new("stale");
    small.runs("bash", &["tools/library"]);
    let fitting = small.says(&[]);
    assert!(fitting.contains("Compiling") && !fitting.contains("warning"), "{fitting}");

    // what rt keeps, and what it must refuse, are no sources
    small.write("crates/rudzaviks_c/out/kept", "more\n");
    small.write("crates/rudzaviks_c/must-fail/a.edit", "more\n");
    let unchanged = small.says(&[]);
    assert!(!unchanged.contains("Compiling") && !unchanged.contains("warning"), "{unchanged}");

    small.write("crates/rudzaviks_c/src/lib.rt", "two\n");
    let warning = "warning: rudzaviks@0.1.0: the library is stale: \
                   crates/rudzaviks_c/src/lib.rt changed";
    for _ in ["when it is built", "when nothing is"] {
        let stale = small.says(&[]);
        assert!(stale.contains(&format!("{warning}{WHAT_TO_DO}")), "{stale}");
    }
    let folder = small.top.join("target/staticlib");
    let given = small.says(&[("RUDZAVIKS_LIB_DIR", folder.to_str().expect("a name"))]);
    assert!(!given.contains("warning"), "{given}");

    small.runs("bash", &["tools/library"]);
    let made = small.says(&[]);
    assert!(!made.contains("warning"), "{made}");

    fs::remove_file(small.top.join("target/staticlib/sources.sum")).expect("it was there");
    let unknown = small.says(&[]);
    assert!(unknown.contains("sources.sum says what it was made of"), "{unknown}");
    assert!(!small.says(&[]).contains("Compiling"), "it is built again and again");
}

#[test]
fn a_sum_tells_of_a_library_that_has_an_older_time() {
    let small = Small::new("replaced");
    small.runs("bash", &["tools/library"]);
    let folder = small.top.join("target/staticlib");
    let folder = folder.to_str().expect("a name");
    let with = |sum| small.says(&[("RUDZAVIKS_LIB_DIR", folder), ("RUDZAVIKS_LIBRARY_SUM", sum)]);
    assert!(with("one").contains("Compiling"));
    small.runs("touch", &["--date", "2 days ago", "target/staticlib/librudzaviks.a"]);
    assert!(!with("one").contains("Compiling"));
    assert!(with("two").contains("Compiling"));
}

#[test]
fn cargo_install_gives_a_tool_that_runs_elsewhere() {
    let root = empty("root");
    let elsewhere = empty("elsewhere");
    let words = ["install", "--path", "importer", "--root", root.to_str().expect("a name")];
    succeeds(&cargo("install", &words, None));

    let tool = root.join("bin/rudzaviks");
    fs::copy(SAMPLE, elsewhere.join("volume.txt")).expect("a copy");
    for words in [&["--version"][..], &["reduce", "volume.txt"]] {
        let installed = run(&tool, words, &elsewhere);
        succeeds(&installed);
        assert!(!installed.stdout.is_empty(), "{words:?} gives nothing");
        let own = run(Path::new(env!("CARGO_BIN_EXE_rudzaviks")), words, &elsewhere);
        assert_eq!(installed.stdout, own.stdout, "{words:?}");
    }
}
