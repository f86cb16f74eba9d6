//! The tokens of a line.

use super::{printable, ParseError};

pub type Result<T, E = ParseError> = std::result::Result<T, E>;

/// The most characters of a token that a mistake shows.
const MOST_SHOWN: usize = 40;

/// A line's tokens, found one by one.
pub struct Tokens<'a> {
    /// The line up to a comment, without spaces at its end.
    text: &'a str,
    line: usize,
    /// Where the next token is in the text; its end, if there is none.
    at: usize,
    /// The next token; the empty text at the end.
    next: &'a str,
}

impl<'a> Tokens<'a> {
    pub fn new(text: &'a str, line: usize) -> Tokens<'a> {
        let text = text.split('#').next().unwrap_or_default().trim_end();
        let mut tokens = Tokens { text, line, at: 0, next: "" };
        tokens.find(0);
        tokens
    }

    /// Finds the next token, which is not before this place.
    fn find(&mut self, from: usize) {
        let rest = self.text[from..].trim_start();
        self.at = self.text.len() - rest.len();
        self.next = &rest[..length(rest)];
    }

    /// The line's number.
    pub fn number(&self) -> usize {
        self.line
    }

    /// Whether no token is left.
    pub fn is_empty(&self) -> bool {
        self.next.is_empty()
    }

    /// The next token; the empty text at the end.
    pub fn peek(&self) -> &'a str {
        self.next
    }

    /// Takes the next token.
    pub fn take(&mut self) -> &'a str {
        let text = self.next;
        self.find(self.at + text.len());
        text
    }

    /// Takes the next token if it is the given one.
    pub fn accept(&mut self, text: &str) -> bool {
        let accepted = self.next == text;
        if accepted {
            self.take();
        }
        accepted
    }

    /// Takes the next token, which must be the given one.
    pub fn expect(&mut self, text: &str) -> Result<()> {
        if self.accept(text) {
            return Ok(());
        }
        Err(self.expected(format!("`{text}`")))
    }

    /// Takes the next token, which must have a meaning.
    pub fn read<T>(&mut self, meaning: Option<T>, expected: &str) -> Result<T> {
        let value = meaning.ok_or_else(|| self.expected(expected))?;
        self.take();
        Ok(value)
    }

    pub fn end(&self) -> Result<()> {
        match self.next {
            "" => Ok(()),
            _ => Err(self.expected("the end of the line")),
        }
    }

    /// The error that the next token is something else.
    pub fn expected(&self, expected: impl Into<String>) -> ParseError {
        let found = match self.next {
            "" => "the end of the line".to_string(),
            token => quoted(token),
        };
        // Counted for a mistake alone: if it were for each token, a long line would take long.
        let column = self.text[..self.at].chars().count() + 1;
        ParseError { line: self.line, column, expected: expected.into(), found }
    }
}

/// A token as a mistake shows it.
fn quoted(token: &str) -> String {
    match token.char_indices().nth(MOST_SHOWN) {
        Some((end, _)) => format!("`{}…`", printable(&token[..end])),
        None => format!("`{}`", printable(token)),
    }
}

/// The length of the token that a text, which does not start with a space, starts with: a word, a
/// number, a register, `:=` or one character; of the empty text, 0.
fn length(text: &str) -> usize {
    let first = text.chars().next().map_or(0, char::len_utf8);
    let in_word = |c: char| c.is_ascii_alphanumeric() || c == '_';
    let word =
        |from: usize| text[from..].find(|c| !in_word(c)).map_or(text.len(), |length| from + length);
    match text.as_bytes() {
        [b':', b'=', ..] | [b'%', b'$', ..] => 2,
        [b'%', ..] => word(1),
        _ => word(0).max(first),
    }
}

#[cfg(test)]
mod tests {
    use super::*;

    fn texts(line: &str) -> Vec<(&str, usize)> {
        let mut tokens = Tokens::new(line, 1);
        let mut texts = Vec::new();
        while !tokens.is_empty() {
            let column = tokens.expected("").column;
            texts.push((tokens.take(), column));
        }
        texts
    }

    #[test]
    fn a_line_is_split_into_tokens() {
        assert_eq!(texts(""), []);
        assert_eq!(texts("  # nop"), []);
        let load = [("%0", 2), (":=", 5), ("Mem", 8), ("[", 11), ("3", 12), ("]", 13)];
        assert_eq!(texts("\t%0 := Mem[3]  # a load"), load);
        assert_eq!(texts("7:=%$%t12"), [("7", 1), (":=", 2), ("%$", 4), ("%t12", 6)]);
        assert_eq!(texts("%1*im"), [("%1", 1), ("*", 3), ("im", 4)]);
        assert_eq!(texts("% ü x"), [("%", 1), ("ü", 3), ("x", 5)]);
    }

    #[test]
    fn the_end_has_a_place_too() {
        let tokens = Tokens::new("  ü # x", 7);
        let mut past = Tokens::new("  ü # x", 7);
        past.take();
        assert_eq!((tokens.expected("").column, tokens.expected("").found), (3, "`ü`".into()));
        let end = past.expected("a word");
        assert_eq!(end.to_string(), "line 7, column 4: expected a word, found the end of the line");
    }

    #[test]
    fn what_is_found_is_short_and_can_be_printed() {
        let found = |line: &str| Tokens::new(line, 1).expected("").found;
        let word = "a".repeat(40);
        assert_eq!(found(&word), format!("`{word}`"));
        assert_eq!(found(&format!("{word}b")), format!("`{word}…`"));
        assert_eq!(found(&format!("%{word}")), format!("`%{}…`", &word[1..]));
        assert_eq!(found("\u{1b}[2J"), r"`\u{1b}`");
        assert_eq!(found("\0"), r"`\u{0}`");
        assert_eq!(found("\u{202e}nop"), r"`\u{202e}`");
    }
}
