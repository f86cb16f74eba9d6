//! What the README tells a newcomer to type: its programs and lines, taken out of it and run.

use std::fs;
use std::io::{stderr, Write};
use std::path::{Path, PathBuf};
use std::process::Command;

use harness::programs;

const README: &str = include_str!("../../README.md");

const MANIFEST: &str = env!("CARGO_MANIFEST_DIR");

const STRICT: &str = "-Wall -Wextra -Werror -pedantic";

/// What stands below a heading, up to the next.
fn section(heading: &str) -> &'static str {
    let mut sections = README.split("\n## ").skip(1);
    let found = sections.find_map(|section| section.strip_prefix(heading)?.strip_prefix('\n'));
    found.unwrap_or_else(|| panic!("the README has no section {heading:?}"))
}

/// The one block of a section that is in this language.
fn block<'a>(section: &'a str, language: &str) -> &'a str {
    let fence = format!("\n```{language}\n");
    let mut blocks = section.split(&fence).skip(1);
    let block = blocks.next().and_then(|block| block.split_once("```\n"));
    assert!(blocks.next().is_none(), "more than one block is {language}");
    block.unwrap_or_else(|| panic!("no block is {language}")).0
}

/// A folder for the files of a test.
fn folder(name: &str) -> PathBuf {
    let folder = Path::new(env!("CARGO_TARGET_TMPDIR")).join("quickstart").join(name);
    fs::create_dir_all(&folder).expect("a folder for the program");
    folder
}

/// Puts something in the place of a part, which must be there.
fn replaced(text: &str, part: &str, by: &str) -> String {
    assert!(text.contains(part), "{part:?} is not in {text:?}");
    text.replace(part, by)
}

/// What a command prints: whether it succeeded, then its output and its errors.
fn said(command: &mut Command) -> (bool, String, String) {
    let output = command.output().expect("the command starts");
    let [out, err] = [output.stdout, output.stderr];
    let text = |bytes| String::from_utf8(bytes).expect("text");
    (output.status.success(), text(out), text(err))
}

/// What a command prints that must succeed.
fn printed(command: &mut Command) -> String {
    let (succeeds, out, err) = said(command);
    assert!(succeeds, "{command:?}: {out}{err}");
    out
}

/// Tells even where the tests' own text is not shown.
fn note(text: &str) {
    writeln!(stderr(), "{text}").expect("a note");
}

/// Makes a package of the lines that name the crate and of a program; the command that runs it.
fn package(name: &str, dependency: &str, program: &str) -> Command {
    let folder = folder(name);
    let path = format!("{MANIFEST:?}");
    let dependency = replaced(dependency, "\"../rudzaviks/importer\"", &path);
    let package = "[package]\nname = \"quick\"\nversion = \"0.1.0\"\nedition = \"2024\"\n";
    // Its own workspace, since it lies within another one's folder.
    let manifest = format!("{package}\n{dependency}\n[workspace]\n");
    fs::create_dir_all(folder.join("src")).expect("a folder for the source");
    fs::write(folder.join("Cargo.toml"), manifest).expect("the manifest is written");
    fs::write(folder.join("src/main.rs"), program).expect("the program is written");
    let mut command = Command::new(env!("CARGO"));
    command.args(["run", "--quiet", "--offline"]);
    command.env("CARGO_TARGET_DIR", folder.join("target")).current_dir(folder);
    command
}

#[test]
fn the_rust_program_prints_what_the_readme_shows() {
    let section = section("From Rust");
    let (dependency, program) = (block(section, "toml"), block(section, "rust"));
    assert_eq!(printed(&mut package("rust", dependency, program)), block(section, "text"));
    let (settings, refusal) = ("`count_regs: 1`", "`Refusal { number: 7, index: 2 }`");
    assert!(section.contains(settings) && section.contains(refusal));
    let program = replaced(program, "count_regs: 2", settings.trim_matches('`'));
    let (succeeds, out, err) = said(&mut package("refused", dependency, &program));
    let expected = format!("Error: {}\n", refusal.trim_matches('`'));
    assert_eq!((succeeds, out.as_str(), err), (false, "", expected));
}

/// The README's line, with the places of this test's files; typed at the repository's top.
fn compile(line: &str, compiler: &str, folder: &Path) -> Command {
    let line = replaced(line.trim_end(), "quick.c ", "\"$FOLDER/quick.c\" ");
    let line = replaced(&line, "-o quick", "-o \"$FOLDER/quick\"");
    let line = replaced(&line, "target/staticlib/librudzaviks.a", "\"$LIBRARY\"");
    let line = replaced(&line, "cc -I ", &format!("{compiler} {STRICT} -I "));
    let mut command = Command::new("sh");
    command.args(["-c", &line]).current_dir(Path::new(MANIFEST).join(".."));
    let library = Path::new(MANIFEST).join(env!("RUDZAVIKS_LIB"));
    command.env("FOLDER", folder).env("LIBRARY", library);
    command
}

#[test]
fn the_c_program_prints_what_the_readme_shows() {
    let section = section("From C");
    let compilers = ["cc", "gcc", "clang"];
    let Some(compiler) = programs::program(&compilers, "the README's C program") else { return };
    let (program, line) = (block(section, "c"), block(section, "sh"));
    let run = |name: &str, program: &str| {
        let folder = folder(name);
        fs::write(folder.join("quick.c"), program).expect("the program is written");
        printed(&mut compile(line, compiler, &folder));
        said(&mut Command::new(folder.join("quick")))
    };
    assert_eq!(run("c", program), (true, block(section, "text").to_string(), String::new()));
    let (count_regs, refusal) = ("count_regs = 1", "refused by question 7 at record 2");
    assert!(section.contains(&format!("With `{count_regs}` it prints `{refusal}`.")));
    let refused = run("c_refused", &replaced(program, "count_regs = 2", count_regs));
    assert_eq!(refused, (false, format!("{refusal}\n"), String::new()));
}

#[test]
fn the_toolchain_is_the_one_that_the_readme_names() {
    let mut version = Command::new("rt");
    version.arg("version");
    if version.output().is_err() {
        return note("no rt on the path: the README's toolchain is not compared");
    }
    let version = printed(&mut version);
    let named = format!("`rt version` says `{}`", version.trim_end());
    assert!(section("What it needs").contains(&named), "the README should have: {named}");
    let (kit, _) = version.split_once(' ').expect("a kit and its logic");
    let mut elsewhere = README.match_indices("rattle-kit-").map(|(at, _)| &README[at..]);
    assert!(
        elsewhere.all(|named| named.starts_with(kit)),
        "the README names other kits than {kit}"
    );
}
