//! Rows in columns: a line's number, its text, a mark, and what there is to say of it.

use crate::colour::{Page, Style};
use crate::wrap::{wrap, WIDTH};

/// How wide the column of the texts is at most.
const TEXT: usize = 44;

/// What stands between the columns, in all.
const BETWEEN: usize = 5;

/// One row.
pub struct Row {
    pub number: String,
    pub text: String,
    pub mark: char,
    pub said: String,
    pub style: Style,
}

impl Row {
    pub fn heading(unit: &str, text: &str, said: &str) -> Row {
        Row {
            number: unit.to_string(),
            text: text.to_string(),
            mark: ' ',
            said: said.to_string(),
            style: Style::Title,
        }
    }
}

/// The rows, the last column of which gets at least this width.
pub fn columns(rows: &[Row], said: usize) -> Page {
    let widest = |of: fn(&Row) -> &String| rows.iter().map(|row| of(row).len()).max().unwrap_or(0);
    let number = widest(|row| &row.number);
    let room = WIDTH - number - BETWEEN;
    let text = widest(|row| &row.text).min(TEXT).min(room.saturating_sub(said));
    let mut page = Page::default();
    for row in rows {
        let lines = lines(row, [number, text, room - text]);
        lines.into_iter().for_each(|line| page.add(row.style, line));
    }
    page
}

/// A row in as many lines as its texts need in columns of these widths.
fn lines(row: &Row, [number, text, said]: [usize; 3]) -> Vec<String> {
    let (left, right) = (wrap(&row.text, text), wrap(&row.said, said));
    let line = |at: usize| {
        let first = |text: &str| if at == 0 { text.to_string() } else { String::new() };
        let (count, mark) = (first(&row.number), first(&row.mark.to_string()));
        let cell = |lines: &[String]| lines.get(at).cloned().unwrap_or_default();
        let (left, right) = (cell(&left), cell(&right));
        let line = format!("{count:>number$}  {left:text$} {mark:1} {right}");
        line.trim_end().to_string()
    };
    (0..left.len().max(right.len())).map(line).collect()
}
