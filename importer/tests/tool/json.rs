//! What `--json` gives, read as programs read it.

use std::collections::{BTreeMap, BTreeSet};
use std::fs;

use crate::support::{
    run, run_in, run_on, samples, text_in, BRANCH, COMMANDS, PAST_BRANCH, SAMPLE, TWO_PART,
};

#[derive(Clone, Debug, PartialEq)]
enum Value {
    Flag(bool),
    Number(u64),
    Text(String),
    List(Vec<Value>),
    Object(BTreeMap<String, Value>),
}

impl Value {
    /// The field of an object; each step of the path is a field's name or a place in a list.
    fn at(&self, path: &str) -> &Value {
        path.split('/').fold(self, |value, step| match value {
            Value::Object(fields) => {
                fields.get(step).unwrap_or_else(|| panic!("{path} of {self:?}"))
            }
            Value::List(of) => &of[step.parse::<usize>().expect("a place")],
            _ => panic!("{path} of {self:?}"),
        })
    }

    fn has(&self, name: &str) -> bool {
        matches!(self, Value::Object(fields) if fields.contains_key(name))
    }

    fn number(&self, path: &str) -> u64 {
        match self.at(path) {
            Value::Number(number) => *number,
            other => panic!("{path} is {other:?}"),
        }
    }

    fn text(&self, path: &str) -> &str {
        match self.at(path) {
            Value::Text(text) => text,
            other => panic!("{path} is {other:?}"),
        }
    }

    fn list(&self, path: &str) -> &[Value] {
        match self.at(path) {
            Value::List(of) => of,
            other => panic!("{path} is {other:?}"),
        }
    }
}

/// Reads JSON that has no other numbers than natural ones, and no null; the text must be just that.
fn parsed(text: &str) -> Value {
    let mut rest = text;
    let parsed = value(&mut rest);
    assert_eq!(rest, "\n", "a line end ends it");
    parsed
}

fn skip(rest: &mut &str) {
    *rest = rest.trim_start_matches([' ', '\n']);
}

fn accept(rest: &mut &str, what: &str) -> bool {
    skip(rest);
    let after = rest.strip_prefix(what);
    *rest = after.unwrap_or(rest);
    after.is_some()
}

fn value(rest: &mut &str) -> Value {
    if accept(rest, "true") {
        return Value::Flag(true);
    } else if accept(rest, "false") {
        return Value::Flag(false);
    } else if accept(rest, "\"") {
        return Value::Text(string(rest));
    } else if accept(rest, "[") {
        return Value::List(parts(rest, "]", value));
    } else if accept(rest, "{") {
        return object(rest);
    }
    let digits = rest.find(|c: char| !c.is_ascii_digit()).expect("more follows a number");
    let (number, after) = rest.split_at(digits);
    *rest = after;
    Value::Number(number.parse().unwrap_or_else(|_| panic!("{number:?} is no number: {rest}")))
}

fn object(rest: &mut &str) -> Value {
    let fields = parts(rest, "}", |rest| {
        assert!(accept(rest, "\""), "a name begins at {rest}");
        let name = string(rest);
        assert!(accept(rest, ":"), "a value follows {name}");
        (name, value(rest))
    });
    let count = fields.len();
    let fields: BTreeMap<String, Value> = fields.into_iter().collect();
    assert_eq!(fields.len(), count, "each name is there once: {fields:?}");
    Value::Object(fields)
}

fn parts<T>(rest: &mut &str, end: &str, mut part: impl FnMut(&mut &str) -> T) -> Vec<T> {
    let mut parts = Vec::new();
    if accept(rest, end) {
        return parts;
    }
    loop {
        parts.push(part(rest));
        if accept(rest, end) {
            return parts;
        }
        assert!(accept(rest, ","), "a comma is missing at {rest}");
    }
}

/// The rest of a text, of which the first quote was taken.
fn string(rest: &mut &str) -> String {
    let mut text = String::new();
    let mut chars = rest.char_indices();
    while let Some((at, c)) = chars.next() {
        match c {
            '"' => {
                *rest = &rest[at + 1..];
                return text;
            }
            '\\' => text.push(match chars.next().expect("an escape").1 {
                'u' => {
                    let digits: String = chars.by_ref().take(4).map(|(_, c)| c).collect();
                    let number = u32::from_str_radix(&digits, 16).expect("four digits");
                    char::from_u32(number).expect("a character")
                }
                c @ ('"' | '\\') => c,
                c => panic!("an escape of {c}"),
            }),
            c => {
                assert!(!c.is_control(), "{c:?} must be escaped");
                text.push(c);
            }
        }
    }
    panic!("a text must end: {text}")
}

/// The document of a command on lists.
fn document(words: &[&str]) -> (i32, Value) {
    let output = run(&[words, &["--json"]].concat(), b"");
    assert_eq!(output.err, "", "everything is in the document");
    let document = parsed(output.out());
    assert_eq!(document.text("command"), words[0]);
    (output.status, document)
}

#[test]
fn a_reduced_list_has_its_lines_and_counts() {
    let (status, document) = document(&["reduce", SAMPLE]);
    let list = document.at("lists/0");
    assert_eq!((status, list.number("status"), list.text("name")), (0, 0, SAMPLE));
    let settings = [("count_regs", 4), ("args", 0), ("fixed_mark", 16)];
    for (name, value) in settings {
        assert_eq!(list.number(&format!("settings/{name}")), value);
    }
    for name in ["complex", "arm", "compress"] {
        assert_eq!(list.at(&format!("settings/{name}")), &Value::Flag(false));
    }
    assert_eq!(list.list("instructions").len(), 26);
    let second = list.at("instructions/1");
    assert_eq!((second.number("record"), second.number("line")), (1, 15));
    let [before, after] = ["before", "after"].map(|side| second.text(side));
    assert_eq!([before, after], ["%0 := %0 Plus Param[3]", "%1 := %0 Plus Param[3]"]);
    assert!(!second.has("dropped"));
    let third = list.at("instructions/2");
    let why = "nothing kept reads Stack[16], at or above the fixed mark";
    assert_eq!((third.text("dropped"), third.has("after")), (why, false));
    let counts = [
        ("before", 26),
        ("after", 19),
        ("nops", 1),
        ("loads", 3),
        ("moves", 1),
        ("saves", 2),
        ("values", 19),
        ("locations", 8),
        ("registers", 4),
        ("fullest", 3),
        ("uncovered", 0),
    ];
    for (name, count) in counts {
        assert_eq!(list.number(&format!("counts/{name}")), count, "{name}");
        assert_eq!(document.number(&format!("total/counts/{name}")), count, "{name}");
    }
    assert_eq!(list.list("uncovered").len(), 0);
}

#[test]
fn each_command_has_its_results() {
    let (status, document) = document(&["check", SAMPLE]);
    assert_eq!((status, document.at("lists/0/passes")), (0, &Value::Flag(true)));
    let calls = "settings count_regs=1\ncall 7; n = 0\n";
    let checked = run(&["check", "--json", "-"], calls.as_bytes()).succeeds();
    let list = parsed(checked.out()).at("lists/0").clone();
    assert_eq!(list.text("name"), "-");
    let call = list.at("uncovered/0");
    let place = (call.number("record"), call.number("line"));
    assert_eq!((place, call.text("kind")), ((0, 2), "Call"));
}

#[test]
fn a_survey_and_the_pressure_have_their_numbers() {
    let (_, survey) = document(&["survey", BRANCH]);
    let list = survey.at("lists/0");
    assert_eq!((list.list("registers").len(), list.text("registers/3")), (4, "%3"));
    assert_eq!((list.number("count"), list.number("labels/0/number")), (4, 7));
    let [record, line] = ["record", "line"].map(|at| list.number(&format!("labels/0/last/{at}")));
    assert_eq!((record, line, list.number("labels/0/times")), (2, 17, 1));
    let absent = run_on_json("survey", "settings count_regs=0\ngoto 7\n");
    assert_eq!(absent.number("lists/0/labels/0/jump/line"), 2);

    let (_, pressure) = document(&["pressure", TWO_PART]);
    let list = pressure.at("lists/0");
    let needed: Vec<u64> =
        list.list("instructions").iter().map(|ins| ins.number("needed")).collect();
    assert_eq!(needed, [1, 1, 0, 2, 2, 0, 2, 0]);
    assert_eq!(list.at("instructions/6/dropped"), &Value::Flag(true));
    assert_eq!((list.number("fullest"), list.number("first_fullest/line")), (2, 14));
    let first = list.at("values/0");
    let stretch = ["register", "written", "until"].map(|name| first.number(name));
    assert_eq!((stretch, list.list("values").len()), ([0, 0, 1], 7));
}

/// The document of a command on a list that is given as text.
fn run_on_json(command: &str, list: &str) -> Value {
    parsed(run(&[command, "--json", "-"], list.as_bytes()).out())
}

#[test]
fn lists_are_in_the_document_or_where_they_were_written() {
    let folder = samples();
    let words = run_on_json("assemble", "settings count_regs=1\n%0 := Mem[3]\n");
    let expected = [1, 0, 0, 0, 0, 0, 1, 5, 0, 1, 3, 0, 0, 0, 0].map(Value::Number);
    assert_eq!(words.list("lists/0/words"), expected);
    assert_eq!((words.number("lists/0/records"), words.number("lists/0/pairs")), (1, 0));
    for command in ["assemble", "disassemble", "reduce"] {
        let written = run_in(&folder, &[command, "--json", "volume.txt", "-o", "out"], b"");
        let document = parsed(written.succeeds().out());
        assert_eq!(document.text("lists/0/output"), "out");
        assert!(!document.at("lists/0").has("words"));
        assert!(folder.join("out").is_file());
        fs::remove_file(folder.join("out")).expect("it is there");
    }
    let words = ["pressure", "volume.txt", "--svg", "out.svg", "--json"];
    let document = parsed(run_in(&folder, &words, b"").succeeds().out());
    assert_eq!(document.text("lists/0/picture"), "out.svg");
    assert!(text_in(&folder, "out.svg").starts_with("<svg "));
}

#[test]
fn records_that_are_none_are_in_the_document() {
    let mut file = run_on("assemble", "settings count_regs=1\nnop\n%0 := Mem[3]\n").succeeds().out;
    file[28] = 21;
    let output = run(&["disassemble", "--json", "-"], &file);
    assert_eq!((output.status, output.err.as_str()), (1, ""));
    let list = parsed(output.out()).at("lists/0").clone();
    assert_eq!(list.number("instructions/0/words/0"), 21);
    assert!(list.text("instructions/0/reason").starts_with("word 0 is 21 and should be a kind"));
    assert_eq!(list.text("instructions/1/text"), "%0 := Mem[3]");
    assert!(!list.at("instructions/1").has("line"), "a file has no lines");
}

#[test]
fn a_refusal_has_its_line_and_column() {
    for command in ["reduce", "check", "pressure"] {
        let (status, document) = document(&[command, PAST_BRANCH]);
        let list = document.at("lists/0");
        assert_eq!((status, list.number("status")), (1, 1));
        let numbers = ["question", "record", "line", "column"]
            .map(|name| list.number(&format!("refusal/{name}")));
        assert_eq!(numbers, [15, 3, 7, 11]);
        assert!(list.text("refusal/reason").starts_with("it reads a general register not written"));
        assert!(list.text("refusal/detail").starts_with("%0 was written at line 4, but not since"));
    }
    let whole = run_on_json("check", "settings count_regs=65\n");
    let refusal = whole.at("lists/0/refusal");
    assert_eq!((refusal.number("question"), refusal.has("record")), (1, false));
    assert_eq!(refusal.text("detail"), "count_regs is 65");
    let short = parsed(run(&["check", "--json", "-"], &[0; 12]).out());
    let refusal = short.at("lists/0/refusal");
    assert_eq!(refusal.number("question"), 3);
    assert!(refusal.text("detail").starts_with("it has 12 bytes, and a file has at least 28"));
    assert!(refusal.text("help").contains("`rudzaviks assemble`"));
    let strict =
        run(&["check", "--json", "--strict", "-"], b"settings count_regs=1\ncall 7; n = 0");
    let strict = parsed(strict.out());
    let refused = strict.at("lists/0/strict");
    assert_eq!((refused.number("record"), refused.number("line")), (0, 2));
}

#[test]
fn mistakes_and_errors_are_in_the_document() {
    let list = "settings count_regs=2\n%0 = Mem[0]\nnop\n\tnop \"nop\\\"\n";
    for command in COMMANDS {
        let list = run_on_json(command, list).at("lists/0").clone();
        assert_eq!((list.number("status"), list.number("mistakes_in_all")), (2, 2));
        let place = |at: usize| {
            ["line", "column"].map(|name| list.number(&format!("mistakes/{at}/{name}")))
        };
        assert_eq!((place(0), place(1)), ([2, 4], [4, 6]));
        assert_eq!(list.text("mistakes/0/expected"), "`:=`");
        assert_eq!(list.text("mistakes/1/found"), "`\"`");
    }
    let (status, document) = document(&["check", "no \"such\" file", SAMPLE]);
    assert_eq!((status, document.number("lists/0/status")), (2, 2));
    assert!(document.text("lists/0/error").starts_with("can't read no \"such\" file: "));
    assert_eq!(document.number("lists/1/status"), 0);
    let total =
        ["lists", "refused", "failed"].map(|name| document.number(&format!("total/{name}")));
    assert_eq!(total, [2, 0, 1]);
}

/// A file that is none says why, and what can be done.
#[test]
fn an_error_has_what_is_behind_it() {
    let short = parsed(run(&["disassemble", "--json", "-"], &[0; 12]).out());
    let list = short.at("lists/0");
    assert_eq!(
        (list.number("status"), list.text("error")),
        (2, "standard input: this is no file of words")
    );
    assert!(list.text("detail").starts_with("it has 12 bytes, and a file has at least 28"));
    assert!(list.text("help").contains("`rudzaviks assemble`"));
    let wide = parsed(run(&["check", "--json", "-"], b"\xff\xfes\0").out());
    assert_eq!(wide.text("lists/0/help"), "save the list as text in UTF-8");
}

/// A name is given as it was given, so that a program finds the file.
#[test]
fn names_are_as_they_were_given() {
    let folder = samples();
    let name = "a\tb \u{200b}\"c\".txt";
    fs::rename(folder.join("volume.txt"), folder.join(name)).expect("a new name");
    let output = run_in(&folder, &["reduce", "--json", "-o", "x y.txt", name], b"").succeeds();
    let list = parsed(output.out()).at("lists/0").clone();
    assert_eq!((list.text("name"), list.text("output")), (name, "x y.txt"));
}

/// The names of all fields, each with those that it is in.
fn names(value: &Value, path: &str, all: &mut BTreeSet<String>) {
    match value {
        Value::Object(fields) => fields.iter().for_each(|(name, value)| {
            all.insert(format!("{path}{name}"));
            names(value, &format!("{path}{name}/"), all);
        }),
        Value::List(of) => of.iter().for_each(|value| names(value, path, all)),
        _ => {}
    }
}

const SETTINGS: &str = "settings settings/args settings/arm settings/complex settings/compress \
                        settings/count_regs settings/fixed_mark";

/// That lists have these fields besides a name and a status, and with status 0 the settings; and
/// that the description has each.
fn fields_are(words: &[&str], input: &[u8], is_done: bool, expected: &str) {
    let output = run(&[words, &["--json"]].concat(), input);
    let document = parsed(output.out());
    let help = run(&["help", "json"], b"").succeeds();
    let described: Vec<&str> =
        help.out().split(|c: char| !(c.is_ascii_lowercase() || c == '_')).collect();
    let mut all = BTreeSet::new();
    document.list("lists").iter().for_each(|list| names(list, "", &mut all));
    for name in &all {
        let name = name.rsplit('/').next().expect("a name");
        assert!(described.contains(&name), "{name} is not in the description");
    }
    let settings = if is_done { SETTINGS } else { "" };
    let expected = format!("name status {settings} {expected}");
    assert_eq!(all, expected.split_whitespace().map(str::to_string).collect(), "{words:?}");
}

#[test]
fn every_field_is_described() {
    let call = b"settings count_regs=1\n%0 := Mem[1]\ncall 7; n = 0\ngoto 9\n9:\n";
    let lines = "instructions instructions/record instructions/line";
    let uncovered = "uncovered uncovered/kind uncovered/line uncovered/record";
    let counts = "counts counts/after counts/before counts/fullest counts/loads counts/locations \
                  counts/moves counts/nops counts/registers counts/saves counts/uncovered counts/values";
    let reduced = format!("{lines} instructions/before instructions/after {uncovered} {counts}");
    fields_are(&["reduce", "-"], call, true, &reduced);
    let dropped = format!("{} instructions/dropped", reduced.replace(uncovered, "uncovered"));
    fields_are(&["reduce", SAMPLE], b"", true, &dropped);
    fields_are(&["check", "-"], call, true, &format!("passes {uncovered}"));
    let labels =
        "registers count labels labels/number labels/last labels/last/record labels/last/line \
                  labels/times";
    fields_are(&["survey", "-"], call, true, labels);
    let jump =
        "registers count labels labels/number labels/jump labels/jump/record labels/jump/line";
    fields_are(&["survey", "-"], b"settings count_regs=1\ngoto 9\n", true, jump);
    let pressure = format!(
        "{lines} instructions/text instructions/dropped instructions/needed values values/register \
         values/written values/until fullest first_fullest first_fullest/record first_fullest/line"
    );
    fields_are(&["pressure", SAMPLE], b"", true, &pressure);
    fields_are(&["assemble", SAMPLE], b"", true, "records pairs words");
    fields_are(&["disassemble", SAMPLE], b"", true, &format!("{lines} instructions/text"));
    let mut file = run_on("assemble", "settings count_regs=1\nnop\nnop\n").succeeds().out;
    file[28] = 21;
    let bad = "instructions instructions/record instructions/text instructions/words \
               instructions/reason";
    fields_are(&["disassemble", "-"], &file, true, bad);
}

#[test]
fn every_field_of_a_failure_is_described() {
    let refusal = "refusal refusal/question refusal/reason refusal/detail refusal/help";
    let place = "refusal/record refusal/line refusal/column";
    fields_are(&["check", PAST_BRANCH], b"", false, &format!("{refusal} {place}"));
    fields_are(&["check", "-"], b"settings count_regs=65\n", false, refusal);
    let strict = "strict strict/record strict/line strict/reason";
    let call = b"settings count_regs=1\ncall 7; n = 0\n";
    fields_are(&["check", "--strict", "-"], call, false, strict);
    let mistakes = "mistakes mistakes/line mistakes/column mistakes/expected mistakes/found \
                    mistakes_in_all";
    fields_are(&["check", "-"], b"", false, mistakes);
    fields_are(&["check", "none"], b"", false, "error");
    fields_are(&["disassemble", "-"], &[0; 12], false, "error detail help");
    let mut long = run_on("assemble", "settings count_regs=1\n").succeeds().out;
    long[24..28].copy_from_slice(&600u32.to_le_bytes());
    long.resize(28 + 600 * 32, 0);
    let lines = "instructions instructions/record instructions/text too_long";
    fields_are(&["disassemble", "-"], &long, true, lines);
    for (command, total) in [
        ("reduce", "counts failed lists lists_uncovered refused"),
        ("check", "failed lists lists_uncovered refused"),
        ("survey", "failed lists refused"),
    ] {
        let document = document(&[command, SAMPLE]).1;
        let Value::Object(fields) = document.at("total") else { panic!("{document:?}") };
        assert_eq!(fields.keys().map(String::as_str).collect::<Vec<_>>().join(" "), total);
    }
    let call = run(&["check", "--json", "-"], call).succeeds();
    assert_eq!(parsed(call.out()).number("total/lists_uncovered"), 1);
}
