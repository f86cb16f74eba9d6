//! Lists as antt text, and the theorem that says what the amended copy makes of them.

use crate::kinds::{LEFT, MEM, PARAM, RET, RIGHT, STACK, TEMP};
use crate::record::WORDS;
use crate::reduced::Reduced;
use crate::roles::{role, words_with, Role, KINDS};
use crate::run;
use crate::stored_lists::Named;

/// The constructors' names, by kind.
const NAMES: [&str; KINDS] = [
    "nop",
    "end",
    "uni",
    "bi",
    "mov",
    "load",
    "save",
    "load_complex",
    "save_complex",
    "load_const",
    "load_args",
    "save_args",
    "call",
    "fused",
    "if_else",
    "label",
    "branch",
    "branch_if",
    "load_math",
    "load_const_math",
    "complex_bi",
];

/// The longest line.
const WIDTH: usize = 118;

fn word(role: Role, value: u32) -> String {
    let is_register = role == Role::Source || role == Role::Destination;
    match value {
        STACK if role == Role::Space => "stack".into(),
        MEM if role == Role::Space => "mem".into(),
        PARAM if role == Role::Space => "param".into(),
        RET if is_register => "ret".into(),
        TEMP if is_register => "temp".into(),
        LEFT if is_register => "left".into(),
        RIGHT if is_register => "right".into(),
        _ => value.to_string(),
    }
}

fn record(record: &[u32]) -> String {
    let kind = record[0];
    let mut text = NAMES[kind as usize].to_string();
    for at in words_with(kind, |role| role != Role::Unused) {
        text = format!("{text} {}", word(role(kind, at), record[at]));
    }
    text
}

/// The elements of an antt list.
fn row(elements: impl Iterator<Item = String>) -> String {
    elements.map(|element| element + " ∷ ").collect::<String>() + "[]"
}

/// With a new line before each `∷` that would pass the width.
fn wrapped(indent: &str, text: &str) -> String {
    let mut lines = String::new();
    let mut line = String::from(indent);
    for (at, word) in text.split(" ∷ ").enumerate() {
        let separator = if at == 0 { "" } else { " ∷ " };
        if line.chars().count() + separator.chars().count() + word.chars().count() > WIDTH {
            lines += &format!("{line}\n");
            line = format!("{indent}∷ {word}");
        } else {
            line += separator;
            line += word;
        }
    }
    lines + &line + "\n"
}

fn records(words: &[u32]) -> String {
    row(words.chunks_exact(WORDS).map(record))
}

/// An antt list as an argument.
fn argument(elements: impl Iterator<Item = String>) -> String {
    match row(elements) {
        none if none == "[]" => none,
        some => format!("({some})"),
    }
}

fn table(words: &[u32]) -> String {
    let pair = |pair: &[u32]| [word(Role::Space, pair[0]), pair[1].to_string()];
    argument(words.chunks_exact(2).flat_map(pair))
}

/// The list's own name in antt: `first-free` is of the list `first_free`.
fn list_name(name: &str) -> String {
    name.replace('-', "_")
}

fn definition(Named { name, shows, list }: &Named) -> String {
    let name = list_name(name);
    let s = list.settings;
    let settings = format!("{} {} {} {} {}", s.count_regs, s.args, s.complex, s.arm, s.compress);
    let input = format!("    input {settings} {}\n", table(&list.table));
    let records = wrapped("    ", &format!("({})", records(&list.words)));
    format!("-- {shows}\nunfoldable pub {name} : Input\n{name} =\n{input}{records}")
}

/// A field of a record of equations; the parts of the right side begin a line each.
fn field(name: &str, of: &str, is: &[String]) -> String {
    let list = list_name(name);
    let right: String = is.iter().map(|part| wrapped("      ", part)).collect();
    format!("  pub {list} :\n      {of} {list}\n{right}")
}

fn reduced(Named { name, list, .. }: &Named) -> String {
    field(name, "of", &[format!("≡ answered (flat ({}))", records(&run::optimize(list)))])
}

fn account(Named { name, list, .. }: &Named) -> String {
    let Reduced { dropped: [nops, loads, moves, saves], statics, members, .. } = run::reduced(list);
    let statics = argument(statics.iter().map(|(colour, end)| format!("({colour}, {end})")));
    let member = |(space, index): &(u32, u32)| format!("({}, {index})", word(Role::Space, *space));
    let counts = format!("≡ counts {nops} {loads} {moves} {saves} {statics}");
    field(name, "account", &[counts, argument(members.iter().map(member))])
}

/// The lists, then the two records of equations.
pub fn text(lists: &[Named]) -> String {
    let definitions: Vec<String> = lists.iter().map(definition).collect();
    let reduced: String = lists.iter().map(reduced).collect();
    let account: String = lists.iter().map(account).collect();
    let first = format!("pub record StoredLists : Type 0 where\n{reduced}");
    let second = format!("pub record StoredAccounts : Type 0 where\n{account}");
    format!("{}\n{first}\n{second}", definitions.join("\n"))
}
