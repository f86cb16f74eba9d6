//! Instructions of kinds that no theorem about runs covers.

use rudzaviks::Instruction;

use crate::colour::{Page, Style};
use crate::excerpt::excerpt;
use crate::failure::{Failure, HELP, REFUSED};
use crate::input::Input;
use crate::json::{Fields, Json};
use crate::wrap::{wrap, WIDTH};

/// How many of them are named.
const NAMED: usize = 5;

/// What is not proved of a list that has such.
const NOT_PROVED: &str = "that the shortened list computes the same is not proved";

/// The indexes of the instructions that no theorem about runs covers, in a list with a meaning.
pub fn uncovered(input: &Input) -> Vec<usize> {
    let is_uncovered = |index: &usize| !input.instruction(*index).is_covered();
    (0..input.records.len()).filter(is_uncovered).collect()
}

/// The remark about a list that has these, if there are any; it starts with what is given.
pub fn note(input: &Input, indexes: &[usize], start: &str) -> Option<Page> {
    let numbers: Vec<String> =
        indexes.iter().take(NAMED).map(|index| input.number(*index).to_string()).collect();
    let (last, first) = numbers.split_last()?;
    let more = indexes.len() - numbers.len();
    let which = match (first.is_empty(), more) {
        (true, _) => format!("{} {last}", input.unit()),
        (_, 0) => format!("{}s {} and {last}", input.unit(), first.join(", ")),
        _ => format!("{}s {} and {more} more", input.unit(), numbers.join(", ")),
    };
    let kinds = kinds(input, indexes).join(", ");
    let note = format!("{start}note: no theorem about runs covers {which} ({kinds}): {NOT_PROVED}");
    let mut page = Page::default();
    wrap(&note, WIDTH).into_iter().for_each(|line| page.add(Style::Note, line));
    Some(page)
}

/// The kinds of these instructions, each once, in the order in which they come.
fn kinds(input: &Input, indexes: &[usize]) -> Vec<&'static str> {
    let mut kinds = Vec::new();
    for kind in indexes.iter().map(|index| kind(&input.instruction(*index))) {
        if !kinds.contains(&kind) {
            kinds.push(kind);
        }
    }
    kinds
}

/// The name of the kind of such an instruction.
fn kind(ins: &Instruction) -> &'static str {
    match ins {
        Instruction::LoadArgs { .. } => "LoadArgs",
        Instruction::SaveArgs { .. } => "SaveArgs",
        _ => "Call",
    }
}

/// The list is refused if it has any.
pub fn strict(input: &Input, indexes: &[usize]) -> Result<(), Failure> {
    let Some(index) = indexes.first().copied() else { return Ok(()) };
    let why = format!("no theorem about runs covers {}", kind(&input.instruction(index)));
    let mut page = Page::default();
    let place = input.place(index, None);
    page.add(Style::Title, format!("{place}: refused by --strict at record {index}: {why}"));
    page.append(excerpt(input.number(index), &input.line(index), None));
    page.add(Style::Plain, NOT_PROVED);
    page.add(Style::Note, format!("{HELP}without --strict the list is taken"));
    let why = [("reason", Json::text(why))];
    let strict = input.at(index).into_iter().chain(why).collect();
    Err(Failure { status: REFUSED, page, fields: vec![("strict", Json::Object(strict))] })
}

/// Where they are, for programs.
pub fn fields(input: &Input, indexes: &[usize]) -> Fields {
    let uncovered = indexes.iter().map(|index| {
        let kind = ("kind", Json::text(kind(&input.instruction(*index))));
        Json::Object(input.at(*index).into_iter().chain([kind]).collect())
    });
    vec![("uncovered", Json::list(uncovered))]
}
