//! Lines with a style each, and when styles are shown as colours.

use std::env;
use std::fmt;

/// When output is coloured.
#[derive(Clone, Copy, Debug, PartialEq, Eq)]
pub enum When {
    Auto,
    Always,
    Never,
}

impl When {
    /// Whether output is coloured that goes to a terminal, or does not.
    pub fn colours(self, to_terminal: bool) -> bool {
        match self {
            When::Always => true,
            When::Never => false,
            When::Auto => to_terminal && is_wanted(),
        }
    }
}

/// Whether the surroundings have nothing against colours: see no-color.org.
fn is_wanted() -> bool {
    let is_set = |name: &str| env::var_os(name).is_some_and(|value| !value.is_empty());
    !is_set("NO_COLOR") && env::var_os("TERM").is_none_or(|term| term != "dumb")
}

#[derive(Clone, Copy, Debug, PartialEq, Eq)]
pub enum Style {
    Plain,
    /// What a page or a message begins with.
    Title,
    /// A line whose registers changed.
    Changed,
    /// A line that was dropped.
    Dropped,
    /// What points to a fault.
    Fault,
    /// A remark.
    Note,
}

impl Style {
    /// The terminal's number for the style.
    fn code(self) -> &'static str {
        match self {
            Style::Plain => "0",
            Style::Title => "1",
            Style::Changed => "36",
            Style::Dropped => "2",
            Style::Fault => "1;31",
            Style::Note => "33",
        }
    }
}

/// Lines, each with its style.
#[derive(Clone, Debug, Default, PartialEq, Eq)]
pub struct Page(Vec<(Style, String)>);

impl Page {
    /// The lines of a text, which have no style.
    pub fn plain(text: &str) -> Page {
        Page(text.lines().map(|line| (Style::Plain, line.to_string())).collect())
    }

    pub fn add(&mut self, style: Style, line: impl Into<String>) {
        self.0.push((style, line.into()));
    }

    pub fn append(&mut self, page: Page) {
        self.0.extend(page.0);
    }

    /// The lines as text.
    pub fn show(&self, coloured: bool) -> String {
        let lines = self.0.iter().map(|(style, line)| match style {
            Style::Plain => format!("{line}\n"),
            _ if !coloured || line.is_empty() => format!("{line}\n"),
            style => format!("\u{1b}[{}m{line}\u{1b}[0m\n", style.code()),
        });
        lines.collect()
    }
}

impl fmt::Display for Page {
    fn fmt(&self, f: &mut fmt::Formatter) -> fmt::Result {
        write!(f, "{}", self.show(false))
    }
}

#[cfg(test)]
mod tests {
    use super::*;

    #[test]
    fn a_page_is_coloured_by_its_styles() {
        let mut page = Page::plain("a\nb");
        page.add(Style::Title, "c");
        page.add(Style::Title, "");
        assert_eq!(page.to_string(), "a\nb\nc\n\n");
        assert_eq!(page.show(true), "a\nb\n\u{1b}[1mc\u{1b}[0m\n\n");
    }

    #[test]
    fn colours_go_where_they_are_wanted() {
        assert!(When::Always.colours(false) && !When::Never.colours(true));
        assert!(!When::Auto.colours(false));
    }
}
