//! How full the registers get, line by line.

use rudzaviks::{Outcome, Reduced};

use crate::colour::{Page, Style};
use crate::counts::{self, number_of};
use crate::input::Input;
use crate::json::{Fields, Json};
use crate::table::{columns, Row};

pub fn show(input: &Input, reduced: &Reduced) -> Page {
    let heading = Row::heading(input.unit(), "instruction", "registers needed past it");
    let needed = reduced.needed();
    let width = reduced.counts.fullest.to_string().len();
    let rows = needed.iter().enumerate().map(|(index, needed)| {
        let (mark, style) = match is_dropped(&reduced.outcomes[index]) {
            true => ('<', Style::Dropped),
            false => (' ', Style::Plain),
        };
        let text = input.instruction(index).to_string();
        Row {
            number: input.number(index).to_string(),
            text,
            mark,
            said: bar(*needed, width),
            style,
        }
    });
    let rows: Vec<Row> = std::iter::once(heading).chain(rows).collect();
    let said = rows.iter().map(|row| row.said.len()).max().unwrap_or(0);
    let mut page = Page::plain(&format!("{}\n\n", input.settings));
    page.append(columns(&rows, said));
    page.append(Page::plain(&format!("\n{}", summary(input, reduced))));
    page
}

/// How many registers are needed past each instruction, and how long each value is, for programs.
pub fn fields(input: &Input, reduced: &Reduced) -> Fields {
    let instructions = reduced.needed().into_iter().enumerate().map(|(index, needed)| {
        let dropped = is_dropped(&reduced.outcomes[index]);
        let said = [
            ("text", Json::text(input.instruction(index))),
            ("dropped", Json::Flag(dropped)),
            ("needed", Json::number(needed)),
        ];
        Json::Object(input.at(index).into_iter().chain(said).collect())
    });
    let stretches = reduced.stretches.iter().map(|stretch| {
        Json::Object(vec![
            ("register", Json::number(stretch.register)),
            ("written", Json::number(stretch.written)),
            ("until", Json::number(stretch.until)),
        ])
    });
    let mut fields = vec![
        ("instructions", Json::list(instructions)),
        ("values", Json::list(stretches)),
        ("fullest", Json::number(reduced.counts.fullest)),
    ];
    if let Some(index) = fullest_at(reduced) {
        fields.push(("first_fullest", Json::Object(input.at(index))));
    }
    fields
}

pub fn is_dropped(outcome: &Outcome) -> bool {
    matches!(outcome, Outcome::Dropped(_))
}

/// The number in a column of this width, and a bar as long as it says.
fn bar(needed: u32, width: usize) -> String {
    format!("{needed:>width$} {}", "#".repeat(needed as usize)).trim_end().to_string()
}

/// How many instructions there are, and how full the registers get.
fn summary(input: &Input, reduced: &Reduced) -> String {
    let mark = if reduced.outcomes.iter().any(is_dropped) { " (<)" } else { "" };
    format!("{}{mark}\n{}\n", how_many(reduced), how_full(input, reduced))
}

/// How many instructions there are, and how many of them were dropped.
pub fn how_many(reduced: &Reduced) -> String {
    let given = number_of(reduced.outcomes.len(), "instruction");
    match (reduced.outcomes.len(), reduced.outcomes.len() - reduced.counts.records as usize) {
        (0, _) => "no instructions".to_string(),
        (_, 0) => format!("{given}, none dropped"),
        (_, dropped) => format!("{given}, {dropped} dropped"),
    }
}

/// How full the registers get, and where.
pub fn how_full(input: &Input, reduced: &Reduced) -> String {
    let fullest = counts::fullest(reduced.counts.fullest, input.settings.count_regs);
    match fullest_at(reduced) {
        None => fullest,
        Some(index) => format!("{fullest}, first at {} {}", input.unit(), input.number(index)),
    }
}

/// The index of the first instruction past which most registers are needed, if any are.
pub fn fullest_at(reduced: &Reduced) -> Option<usize> {
    let fullest = reduced.counts.fullest;
    let mut needed = reduced.needed().into_iter();
    needed.position(|needed| needed == fullest).filter(|_| fullest > 0)
}
