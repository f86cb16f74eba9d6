//! A line with its number, and a mark under a column.

use rudzaviks::text::printable;

use crate::colour::{Page, Style};

/// How many characters of a line are shown at most.
const MOST: usize = 80;

/// How many of them stand before the column at least, if the line has them.
const BEFORE: usize = 50;

/// The line; if a column is given (from 1 on, in characters), a mark under it. Of a long line the
/// part around the column is shown, and what would drive a terminal is shown as its number.
pub fn excerpt(number: usize, line: &str, column: Option<usize>) -> Page {
    let number = number.to_string();
    let at = column.map_or(0, |column| column - 1);
    let start = if line.chars().nth(MOST).is_some() { at.saturating_sub(BEFORE) } else { 0 };
    let shown: Vec<String> = line.chars().skip(start).take(MOST).map(one).collect();
    let more = line.chars().nth(start + MOST).is_some();
    let [left, right] = [start > 0, more].map(|cut| if cut { "…" } else { "" });
    let mut page = Page::default();
    page.add(Style::Plain, format!("{number:>5} | {left}{}{right}", shown.concat()));
    if column.is_some() {
        let before = shown.iter().map(String::as_str).chain(std::iter::repeat(" "));
        let blank: String = before.take(at - start).map(blank).collect();
        let blank = format!("{}{blank}", " ".repeat(left.chars().count()));
        page.add(Style::Fault, format!("{:>5} | {blank}^", ""));
    }
    page
}

/// A character as it is shown. A tab stays a tab.
fn one(c: char) -> String {
    match c {
        '\t' => c.to_string(),
        c => printable(c.encode_utf8(&mut [0; 4])),
    }
}

/// As much room; for a tab a tab, so that the mark stands under its character on any screen.
fn blank(shown: &str) -> String {
    match shown {
        "\t" => shown.to_string(),
        _ => " ".repeat(shown.chars().count()),
    }
}

#[cfg(test)]
mod tests {
    use super::*;

    fn shown(number: usize, line: &str, column: Option<usize>) -> String {
        excerpt(number, line, column).to_string()
    }

    #[test]
    fn the_mark_stands_under_its_column() {
        assert_eq!(shown(7, "nop", None), "    7 | nop\n");
        assert_eq!(shown(12, "\tü x", Some(4)), "   12 | \tü x\n      | \t  ^\n");
        assert_eq!(shown(1, "", Some(1)), "    1 | \n      | ^\n");
        assert_eq!(shown(1, "ab", Some(4)), "    1 | ab\n      |    ^\n");
    }

    #[test]
    fn what_drives_a_terminal_is_shown_as_its_number() {
        let line = "a\u{1b}[2Jb";
        assert_eq!(shown(1, line, Some(6)), "    1 | a\\u{1b}[2Jb\n      |           ^\n");
    }

    #[test]
    fn a_long_line_is_shown_around_the_column() {
        let line: String = ('0'..='9').cycle().take(81).collect();
        let first = &line[..80];
        assert_eq!(shown(1, first, Some(80)), format!("    1 | {first}\n      | {:>80}\n", "^"));
        assert_eq!(shown(1, &line, Some(1)), format!("    1 | {first}…\n      | ^\n"));
        assert_eq!(shown(1, &line, Some(51)), format!("    1 | {first}…\n      | {:>51}\n", "^"));
        let last = &line[1..];
        assert_eq!(shown(1, &line, Some(52)), format!("    1 | …{last}\n      |  {:>51}\n", "^"));
        let far = shown(1, &"x".repeat(1000), Some(500));
        let part = "x".repeat(80);
        assert_eq!(far, format!("    1 | …{part}…\n      |  {:>51}\n", "^"));
    }
}
