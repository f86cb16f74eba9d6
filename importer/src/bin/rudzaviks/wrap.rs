//! Long texts in lines.

/// How wide the output is at most.
pub const WIDTH: usize = 100;

/// The text in lines of a width, broken at spaces; those after the first are indented by two.
pub fn wrap(text: &str, width: usize) -> Vec<String> {
    fill(text, width, "  ")
}

/// The text in lines of a width, broken at spaces; those after the first start with the indent.
pub fn fill(text: &str, width: usize, indent: &str) -> Vec<String> {
    let mut lines = vec![String::new()];
    for word in text.split(' ') {
        let line = lines.last_mut().expect("there is a line from the start");
        if line.is_empty() {
            line.push_str(word);
        } else if line.len() + 1 + word.len() <= width {
            line.push(' ');
            line.push_str(word);
        } else {
            lines.push(format!("{indent}{word}"));
        }
    }
    lines
}

#[cfg(test)]
mod tests {
    use super::*;

    #[test]
    fn long_texts_are_broken_at_spaces() {
        assert_eq!(wrap("", 5), [""]);
        assert_eq!(wrap("a bc def", 8), ["a bc def"]);
        assert_eq!(wrap("a bc def g hi", 6), ["a bc", "  def", "  g hi"]);
        assert_eq!(wrap("abcdefgh i", 4), ["abcdefgh", "  i"]);
        assert_eq!(fill("a bc def", 4, ""), ["a bc", "def"]);
    }
}
