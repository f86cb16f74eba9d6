//! A list as text, also one whose records are no instructions.

use std::fmt::Write;

use rudzaviks::record::BadWord;

use crate::colour::{Page, Style};
use crate::counts::number_of;
use crate::input::Input;
use crate::json::{Fields, Json};

/// The text. A record that is no instruction is written as its words, which no command reads.
pub fn text(input: &Input) -> String {
    let mut text = format!("{}\n", input.settings);
    for index in 0..input.records.len() {
        let line = match input.records.instruction(index) {
            Ok(ins) => ins.to_string(),
            Err(why) => format!("{}  # {}", input.words(index), remark(index, &why)),
        };
        writeln!(text, "{line}").expect("a string takes any text");
    }
    text
}

fn remark(index: usize, why: &BadWord) -> String {
    format!("record {index} is no instruction: {why}")
}

/// What is said of a list that no other command takes; nothing of one that they do.
pub fn notes(input: &Input) -> Page {
    let mut page = Page::default();
    if let Some(why) = &input.too_long {
        page.add(Style::Note, format!("{}: note: {why}", input.name));
    }
    let bad = bad(input);
    if let [first, ..] = bad.as_slice() {
        let count = number_of(bad.len(), "record");
        let are = if bad.len() == 1 { "is no instruction" } else { "are no instructions" };
        let what = format!("{count} {are}, the first at record {}", first.0);
        page.add(Style::Note, format!("{}: note: {what}; written as words", input.name));
    }
    page
}

/// The records that are no instructions, and why.
fn bad(input: &Input) -> Vec<(usize, BadWord)> {
    let indexes = 0..input.records.len();
    indexes.filter_map(|index| Some((index, input.records.instruction(index).err()?))).collect()
}

/// Each record, for programs.
pub fn fields(input: &Input) -> Fields {
    let records = (0..input.records.len()).map(|index| {
        let said = match input.records.instruction(index) {
            Ok(ins) => vec![("text", Json::text(ins))],
            Err(why) => {
                let words = input.records.record(index).iter();
                let words = Json::list(words.map(|word| Json::number(*word)));
                vec![("words", words), ("reason", Json::text(why))]
            }
        };
        Json::Object(input.at(index).into_iter().chain(said).collect())
    });
    let too_long = input.too_long.iter().map(|why| ("too_long", Json::text(why)));
    [("instructions", Json::list(records))].into_iter().chain(too_long).collect()
}
