//! The settings that a text starts with.

use super::parse::number;
use super::tokens::{Result, Tokens};
use super::ParseError;
use crate::ffi::Settings;

/// What a text should start with.
const FIRST: &str = "the settings first, as in `settings count_regs=4 args=0`";

/// The mistake of a text that has no tokens.
pub fn nothing(text: &str) -> ParseError {
    let (line, found) = match text.trim() {
        "" => (1, "an empty text"),
        _ => (text.lines().count(), "nothing but comments"),
    };
    ParseError { line, column: 1, expected: FIRST.to_string(), found: found.to_string() }
}

/// The settings, from the first line that has tokens.
pub fn settings(line: &mut Tokens) -> Result<Settings> {
    if !line.accept("settings") {
        return Err(line.expected(FIRST));
    }
    let mut settings = Settings::default();
    let mut named = Vec::new();
    while !line.is_empty() {
        if named.contains(&line.peek()) {
            return Err(again(line));
        }
        named.push(line.peek());
        set(line, &mut settings)?;
    }
    if !named.contains(&"count_regs") {
        return Err(line.expected("`count_regs=` and the number of registers"));
    }
    Ok(settings)
}

/// The mistake that a setting is named again.
fn again(line: &Tokens) -> ParseError {
    let mut mistake = line.expected("each setting once");
    mistake.found += " again";
    mistake
}

/// Reads one setting.
fn set(line: &mut Tokens, settings: &mut Settings) -> Result<()> {
    match line.peek() {
        "count_regs" => settings.count_regs = value(line)?,
        "args" => settings.args = value(line)?,
        "complex" => settings.complex = line.accept("complex"),
        "arm" => settings.arm = line.accept("arm"),
        "compress" => settings.compress = line.accept("compress"),
        _ => return Err(line.expected("`count_regs`, `args`, `complex`, `arm` or `compress`")),
    }
    Ok(())
}

/// The number of a setting, after its name.
fn value(line: &mut Tokens) -> Result<u32> {
    line.take();
    line.expect("=")?;
    number(line)
}

#[cfg(test)]
mod tests {
    use super::super::parse::list;
    use super::*;

    const FULL: Settings =
        Settings { count_regs: 3, args: 2, complex: true, arm: true, compress: true };

    fn why(text: &str) -> String {
        list(text).unwrap_err().to_string()
    }

    #[test]
    fn the_settings_come_first() {
        let full = list("# a list\n\n settings count_regs=3 args=2 complex arm compress\n\nnop\n");
        let parsed = full.unwrap();
        assert_eq!((parsed.settings, parsed.lines), (FULL, vec![5]));
        let few = list("\u{feff}settings count_regs=0").unwrap();
        assert_eq!((few.settings, few.list), (Settings::default(), vec![]));
        let first = "line 1, column 1: expected the settings first, as in `settings count_regs=4 \
                     args=0`, found ";
        assert_eq!(why("nop\nsettings count_regs=1"), format!("{first}`nop`"));
    }

    #[test]
    fn the_settings_have_no_order() {
        let mut words = ["count_regs=3", "args=2", "complex", "arm", "compress"];
        for turn in 0..10 {
            if turn == 5 {
                words.reverse();
            }
            words.rotate_left(1);
            let text = format!("settings {}", words.join(" "));
            assert_eq!(list(&text).unwrap().settings, FULL, "{text}");
        }
    }

    #[test]
    fn the_settings_are_named_once() {
        let twice = [
            ("settings count_regs=1 args=0 count_regs=2", 30, "count_regs"),
            ("settings args=1 args = 1 count_regs=2", 17, "args"),
            ("settings count_regs=1 complex arm complex", 35, "complex"),
            ("settings arm arm", 14, "arm"),
            ("settings compress count_regs=0 compress", 32, "compress"),
        ];
        for (text, column, name) in twice {
            let place = format!("line 1, column {column}");
            let expected = format!("{place}: expected each setting once, found `{name}` again");
            assert_eq!(why(text), expected);
        }
    }

    #[test]
    fn the_number_of_registers_is_needed() {
        let count = "expected `count_regs=` and the number of registers, found the end of the line";
        for (text, column) in [("settings", 9), ("settings args=1 complex  # all", 24)] {
            assert_eq!(why(text), format!("line 1, column {column}: {count}"));
        }
        let setting = "expected `count_regs`, `args`, `complex`, `arm` or `compress`, found ";
        let amd = why("settings count_regs=1 amd");
        assert_eq!(amd, format!("line 1, column 23: {setting}`amd`"));
        assert!(why("settings count_regs").ends_with("expected `=`, found the end of the line"));
        assert!(why("settings args=x").starts_with("line 1, column 15: expected a number"));
    }

    #[test]
    fn a_text_without_lines_is_told_so() {
        let first = "expected the settings first, as in `settings count_regs=4 args=0`, found ";
        for text in ["", "\n", " \r\n\t\n", "\u{feff}"] {
            assert_eq!(why(text), format!("line 1, column 1: {first}an empty text"));
        }
        for (text, line) in [("# a", 1), ("# a\n", 1), ("\n # a\n\t#\r\n", 3), ("# a\n\n", 2)] {
            let place = format!("line {line}, column 1");
            assert_eq!(why(text), format!("{place}: {first}nothing but comments"));
        }
    }
}
