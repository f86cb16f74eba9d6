//! The list that the tool was given.

use std::ffi::OsStr;
use std::io::Read;
use std::{fs, io};

use rudzaviks::file::{self, Malformed};
use rudzaviks::record::Records;
use rudzaviks::text::{self, printable, Mistakes, Parsed};
use rudzaviks::{Instruction, Settings};

use crate::colour::{Page, Style};
use crate::counts::number_of;
use crate::excerpt::excerpt;
use crate::explain;
use crate::failure::{Failure, HELP, WRONG};
use crate::json::{Fields, Json};

/// How many mistakes of a text are told.
const MISTAKES: usize = 20;

/// A list, from a text or from a file of words.
pub struct Input {
    /// What to call it.
    pub name: String,
    pub settings: Settings,
    pub records: Records,
    /// Why no command that puts the questions takes it, if it comes from a file that is too long.
    pub too_long: Option<Malformed>,
    /// For a text, its lines and the number of each record's line.
    text: Option<(Vec<String>, Vec<usize>)>,
}

/// What to call a list in messages.
pub fn name(path: &OsStr) -> String {
    match path.to_str() {
        Some("-") => "standard input".to_string(),
        _ => name_of_file(path),
    }
}

/// What to call a file in messages.
pub fn name_of_file(path: impl AsRef<OsStr>) -> String {
    match path.as_ref().to_string_lossy() {
        name if name.is_empty() => "``".to_string(),
        name => printable(&name),
    }
}

impl Input {
    /// Reads a list that is to be questioned.
    pub fn read(path: &OsStr) -> Result<Input, Failure> {
        let (name, bytes) = bytes(path)?;
        Input::new(name, bytes, |name, bytes| match file::read(bytes) {
            Ok(read) => Ok(Input::from_records(name, read, None)),
            Err(malformed) => Err(explain::refused_file(&name, &malformed)),
        })
    }

    /// Reads a list that is to be shown, also from a file that is too long for a question.
    pub fn read_any(path: &OsStr) -> Result<Input, Failure> {
        let (name, bytes) = bytes(path)?;
        Input::new(name, bytes, |name, bytes| match (file::read(bytes), file::read_long(bytes)) {
            (Ok(read), _) => Ok(Input::from_records(name, read, None)),
            (Err(why), Ok(read)) => Ok(Input::from_records(name, read, Some(why))),
            (Err(_), Err(why)) => Err(explain::no_file(&name, &why)),
        })
    }

    /// A file has a byte 0, in its counts if nowhere else, for they are small; a text should have
    /// none.
    fn new(
        name: String,
        bytes: Vec<u8>,
        from_file: impl Fn(String, &[u8]) -> Result<Input, Failure>,
    ) -> Result<Input, Failure> {
        if bytes.contains(&0) {
            let read = from_file(name.clone(), &bytes);
            if read.is_ok() || !(is_wide(&bytes) || is_typed_text(&bytes)) {
                return read;
            }
        }
        if is_wide(&bytes) {
            let what = "looks like text in UTF-16 or UTF-32";
            return Err(Failure::wrong(format!("rudzaviks: {name} {what}\n{HELP}{UTF8}")));
        }
        match String::from_utf8(bytes) {
            Ok(text) => Input::from_text(name, &text),
            Err(error) => Err(not_utf8(&name, error.as_bytes(), error.utf8_error().valid_up_to())),
        }
    }

    fn from_records(
        name: String,
        (records, settings): (Records, Settings),
        too_long: Option<Malformed>,
    ) -> Input {
        Input { name, settings, records, too_long, text: None }
    }

    fn from_text(name: String, text: &str) -> Result<Input, Failure> {
        // Some editors put a mark before the text, which counts for no column.
        let text = text.strip_prefix('\u{feff}').unwrap_or(text);
        let source: Vec<String> = text.lines().map(str::to_string).collect();
        match text::parse_all(text, MISTAKES) {
            Ok(Parsed { settings, list, lines }) => {
                let records = Records::new(&list);
                Ok(Input { name, settings, records, too_long: None, text: Some((source, lines)) })
            }
            Err(mistakes) => Err(mistaken(&name, &source, &mistakes)),
        }
    }

    /// What `number` counts.
    pub fn unit(&self) -> &'static str {
        match self.text {
            Some(_) => "line",
            None => "record",
        }
    }

    /// The number of a record's line; of a file, the record's index.
    pub fn number(&self, index: usize) -> usize {
        match &self.text {
            Some((_, lines)) => lines[index],
            None => index,
        }
    }

    /// Where a record is, for programs.
    pub fn at(&self, index: usize) -> Fields {
        let mut fields = vec![("record", Json::number(index))];
        if let Some((_, lines)) = &self.text {
            fields.push(("line", Json::number(lines[index])));
        }
        fields
    }

    /// The line of a record as it was written. Of a file, the record's instruction, or its words if
    /// they have no meaning.
    pub fn line(&self, index: usize) -> String {
        if let Some((source, lines)) = &self.text {
            return source[lines[index] - 1].clone();
        }
        match self.records.instruction(index) {
            Ok(ins) => ins.to_string(),
            Err(_) => self.words(index),
        }
    }

    /// The words of a record.
    pub fn words(&self, index: usize) -> String {
        let words = self.records.record(index).iter();
        words.map(u32::to_string).collect::<Vec<_>>().join(" ")
    }

    /// The instruction of a record of a list that was reduced, and so has a meaning.
    pub fn instruction(&self, index: usize) -> Instruction {
        self.records.instruction(index).expect("a list that was reduced has a meaning")
    }

    /// The name, and of a text the record's line and the column, if it is known.
    pub fn place(&self, index: usize, column: Option<usize>) -> String {
        if self.text.is_none() {
            return self.name.clone();
        }
        let line = format!("{}:{}", self.name, self.number(index));
        column.map_or(line.clone(), |column| format!("{line}:{column}"))
    }
}

fn bytes(path: &OsStr) -> Result<(String, Vec<u8>), Failure> {
    let name = name(path);
    let bytes = if path == "-" { read_all(io::stdin()) } else { fs::read(path) };
    match bytes {
        Ok(bytes) => Ok((name, bytes)),
        Err(error) => Err(Failure::wrong(format!("rudzaviks: can't read {name}: {error}"))),
    }
}

fn read_all(mut from: impl Read) -> io::Result<Vec<u8>> {
    let mut bytes = Vec::new();
    from.read_to_end(&mut bytes)?;
    Ok(bytes)
}

const UTF8: &str = "save the list as text in UTF-8";

/// Whether it looks like a text of two or four bytes a character: by the mark that such a text
/// starts with, or the bytes 0 in its first two characters.
fn is_wide(bytes: &[u8]) -> bool {
    let is_typed = |byte: &u8| byte.is_ascii_graphic() || byte.is_ascii_whitespace();
    match bytes {
        [0xff, 0xfe, ..] | [0xfe, 0xff, ..] | [0, 0, 0xfe, 0xff, ..] => true,
        [a, 0, 0, 0, b, 0, 0, 0, ..] | [0, 0, 0, a, 0, 0, 0, b, ..] => is_typed(a) && is_typed(b),
        [a, 0, b, 0, ..] | [0, a, 0, b, ..] => is_typed(a) && is_typed(b),
        _ => false,
    }
}

/// Whether it is a text with a byte 0 in it: the settings stand before that.
fn is_typed_text(bytes: &[u8]) -> bool {
    let start = bytes.split(|byte| *byte == 0).next().unwrap_or_default();
    start.windows(8).any(|part| part == b"settings")
}

/// A text that is none from a byte on.
fn not_utf8(name: &str, bytes: &[u8], at: usize) -> Failure {
    let before = String::from_utf8_lossy(&bytes[..at]);
    let line = before.matches('\n').count() + 1;
    let column = before.rsplit('\n').next().map_or(0, |part| part.chars().count()) + 1;
    let place = format!("{name}:{line}:{column}");
    let what = "is not UTF-8, and this is no file of words either";
    Failure::wrong(format!("{place}: the byte {:#04x} {what}\n{HELP}{UTF8}", bytes[at]))
}

/// Every mistake that is told, with its line.
fn mistaken(name: &str, source: &[String], mistakes: &Mistakes) -> Failure {
    let mut page = Page::default();
    for mistake in &mistakes.told {
        let (line, column) = (mistake.line, mistake.column);
        page.add(Style::Title, format!("{name}:{line}:{column}: {}", mistake.what()));
        let shown = source.get(line - 1).map_or("", String::as_str);
        if !shown.is_empty() {
            page.append(excerpt(line, shown, Some(column)));
        }
    }
    if source.iter().any(|line| line.contains('\r')) {
        let what = "a carriage return alone ends no line";
        page.add(Style::Note, format!("{HELP}{what}; save the list with line feeds"));
    }
    let more = mistakes.count - mistakes.told.len();
    if more > 0 {
        let lines = number_of(more, "more line");
        page.add(Style::Plain, format!("{name}: and {lines} with a mistake"));
    }
    let told = mistakes.told.iter().map(|mistake| {
        Json::Object(vec![
            ("line", Json::number(mistake.line)),
            ("column", Json::number(mistake.column)),
            ("expected", Json::text(&mistake.expected)),
            ("found", Json::text(&mistake.found)),
        ])
    });
    let fields =
        vec![("mistakes", Json::list(told)), ("mistakes_in_all", Json::number(mistakes.count))];
    Failure { status: WRONG, page, fields }
}

#[cfg(test)]
mod tests {
    use super::*;

    #[test]
    fn wide_text_is_told_from_words() {
        let wide = [&b"\xff\xfe\0"[..], b"\xfe\xff\0s", b"s\0e\0t\0", b"\0#\0 \0a"];
        for bytes in wide.into_iter().chain([&b"s\0\0\0e\0\0\0"[..], b"\0\0\0s\0\0\0e"]) {
            assert!(is_wide(bytes), "{bytes:?}");
        }
        for bytes in [&b"\x04\0\0\0\0\0\0\0"[..], b"s\0\0\0", b"\x01\0\x02\0", b"\0"] {
            assert!(!is_wide(bytes), "{bytes:?}");
        }
    }
}
