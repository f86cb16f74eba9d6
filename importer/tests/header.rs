//! The C header, by a C program that is compiled with it, linked to the library, and run.

use std::path::Path;
use std::process::{Command, Output};

use harness::programs::program;

const STRICT: [&str; 4] = ["-Wall", "-Wextra", "-Werror", "-pedantic"];

const MANIFEST: &str = env!("CARGO_MANIFEST_DIR");

fn succeeds(output: Output, what: &str) {
    let text =
        [output.stdout, output.stderr].map(|text| String::from_utf8_lossy(&text).into_owned());
    assert!(output.status.success(), "{what}: {}{}", text[0], text[1]);
}

/// Compiles the program in a language and standard, and runs it.
fn compile_and_run(compiler: &str, language: &str, standard: &str) {
    let program = Path::new(env!("CARGO_TARGET_TMPDIR")).join(format!("case_b_{standard}"));
    let compiled = Command::new(compiler)
        .args(["-x", language, &format!("-std={standard}")])
        .args(STRICT)
        .arg("-I")
        .arg(Path::new(MANIFEST).join("../include"))
        .arg(Path::new(MANIFEST).join("tests/c/case_b.c"))
        .args(["-x", "none", env!("RUDZAVIKS_LIB"), "-o"])
        .arg(&program)
        .output();
    succeeds(compiled.expect("a compiler that runs"), &format!("{compiler} {standard}"));
    succeeds(Command::new(&program).output().expect("a program that runs"), standard);
}

#[test]
fn case_b_in_c() {
    if let Some(compiler) = program(&["cc", "gcc", "clang"], "the header in C") {
        compile_and_run(compiler, "c", "c99");
    }
}

#[test]
fn case_b_in_cpp() {
    if let Some(compiler) = program(&["g++", "c++"], "the header in C++") {
        compile_and_run(compiler, "c++", "c++11");
    }
}
