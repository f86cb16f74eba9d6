//! Characters that are not to reach a terminal as they are.

/// A text without what drives a terminal or hides a text: control characters, those that end a line or
/// turn the direction of writing, and the spaces and joiners of no width are given as Rust's escapes,
/// such as `\t` and `\u{1b}`. All else stays as it is.
///
/// ```
/// assert_eq!(rudzaviks::text::printable("Mem\t\u{1b}[2Jü"), r"Mem\t\u{1b}[2Jü");
/// ```
pub fn printable(text: &str) -> String {
    let mut shown = String::with_capacity(text.len());
    for c in text.chars() {
        if is_hidden(c) {
            shown.extend(c.escape_default());
        } else {
            shown.push(c);
        }
    }
    shown
}

fn is_hidden(c: char) -> bool {
    let is_format = matches!(
        c,
        '\u{61c}'
            | '\u{200b}'..='\u{200f}'
            | '\u{2028}'..='\u{202e}'
            | '\u{2060}'..='\u{2069}'
            | '\u{feff}'
    );
    is_format || c.is_control()
}

#[cfg(test)]
mod tests {
    use super::*;

    #[test]
    fn what_can_be_seen_stays() {
        for text in ["", "%0 := Mem[3]", "ü € 漢 🙂", "\\ ` ' \" \u{a0}"] {
            assert_eq!(printable(text), text);
        }
    }

    #[test]
    fn control_characters_are_escaped() {
        assert_eq!(printable("\0\t\r\n\u{1b}[31m\u{7f}"), r"\u{0}\t\r\n\u{1b}[31m\u{7f}");
        assert_eq!(printable("a\u{9b}b"), r"a\u{9b}b");
    }

    #[test]
    fn characters_without_a_width_are_escaped_up_to_the_ends_of_their_ranges() {
        for (low, high) in [
            (0x61c, 0x61c),
            (0x200b, 0x200f),
            (0x2028, 0x202e),
            (0x2060, 0x2069),
            (0xfeff, 0xfeff),
            (0x7f, 0x9f),
        ] {
            for code in low - 1..=high + 1 {
                let c = char::from_u32(code).expect("a character");
                let is_inside = (low..=high).contains(&code);
                let expected = if is_inside { format!("\\u{{{code:x}}}") } else { c.to_string() };
                assert_eq!(printable(&c.to_string()), expected);
            }
        }
    }
}
