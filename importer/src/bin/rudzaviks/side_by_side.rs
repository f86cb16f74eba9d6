//! A list before and after, side by side.

use rudzaviks::{Outcome, Reduced};

use crate::colour::{Page, Style};
use crate::counts::Sums;
use crate::input::Input;
use crate::json::{Fields, Json};
use crate::table::{columns, Row};

/// All lines, or those alone that changed; and the counts.
pub fn show(input: &Input, reduced: &Reduced, sums: &Sums, changes: bool) -> Page {
    let outcomes = reduced.outcomes.iter().enumerate();
    let rows = outcomes.map(|(index, outcome)| row(input, reduced, index, *outcome));
    let rows = rows.filter(|row| !changes || row.mark != ' ');
    let rows: Vec<Row> =
        [Row::heading(input.unit(), "before", "after")].into_iter().chain(rows).collect();
    let settings = input.settings;
    let mut page = Page::plain(&format!("{settings}, fixed mark {}\n\n", settings.fixed_mark()));
    match rows.len() {
        1 if changes => page.add(Style::Plain, "no line changed"),
        _ => page.append(columns(&rows, 0)),
    }
    page.add(Style::Plain, "");
    page.append(sums.summary(input.settings.count_regs));
    page
}

fn row(input: &Input, reduced: &Reduced, index: usize, outcome: Outcome) -> Row {
    let ins = input.instruction(index);
    let text = ins.to_string();
    let (mark, said, style) = match outcome {
        Outcome::Dropped(_) => ('<', outcome.to_string(), Style::Dropped),
        Outcome::Kept(at) if reduced.list[at] == ins => (' ', text.clone(), Style::Plain),
        Outcome::Kept(at) => ('|', reduced.list[at].to_string(), Style::Changed),
    };
    Row { number: input.number(index).to_string(), text, mark, said, style }
}

/// What became of each instruction, for programs.
pub fn fields(input: &Input, reduced: &Reduced) -> Fields {
    let instructions = reduced.outcomes.iter().enumerate().map(|(index, outcome)| {
        let before = ("before", Json::text(input.instruction(index)));
        let became = match outcome {
            Outcome::Kept(at) => ("after", Json::text(&reduced.list[*at])),
            Outcome::Dropped(reason) => ("dropped", Json::text(reason)),
        };
        Json::Object(input.at(index).into_iter().chain([before, became]).collect())
    });
    vec![("instructions", Json::list(instructions))]
}
