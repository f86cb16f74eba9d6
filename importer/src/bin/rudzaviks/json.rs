//! JSON, as it is written.

use std::fmt;

/// The fields of an object.
pub type Fields = Vec<(&'static str, Json)>;

#[derive(Clone, Debug, PartialEq, Eq)]
pub enum Json {
    Flag(bool),
    Number(u64),
    Text(String),
    List(Vec<Json>),
    Object(Fields),
}

impl Json {
    pub fn number(number: impl TryInto<u64>) -> Json {
        Json::Number(number.try_into().unwrap_or(u64::MAX))
    }

    pub fn text(text: impl fmt::Display) -> Json {
        Json::Text(text.to_string())
    }

    pub fn list(of: impl IntoIterator<Item = Json>) -> Json {
        Json::List(of.into_iter().collect())
    }

    /// The value, the lines of which after the first start with this indent. What holds no lists
    /// and objects is one line.
    pub fn show(&self, indent: &str) -> String {
        match self {
            Json::Flag(value) => value.to_string(),
            Json::Number(number) => number.to_string(),
            Json::Text(text) => quoted(text),
            Json::List(of) => {
                let parts = of.iter().map(|value| (String::new(), value));
                enclosed(['[', ']'], parts, indent)
            }
            Json::Object(fields) => {
                let parts = fields.iter().map(|(name, value)| (format!("\"{name}\": "), value));
                enclosed(['{', '}'], parts, indent)
            }
        }
    }

    fn is_leaf(&self) -> bool {
        !matches!(self, Json::List(_) | Json::Object(_))
    }
}

fn enclosed<'a>(
    [open, close]: [char; 2],
    parts: impl Iterator<Item = (String, &'a Json)>,
    indent: &str,
) -> String {
    let inner = format!("{indent}  ");
    let mut flat = true;
    let shown = parts.map(|(name, value)| {
        flat &= value.is_leaf();
        format!("{name}{}", value.show(&inner))
    });
    let shown: Vec<String> = shown.collect();
    if flat {
        return format!("{open}{}{close}", shown.join(", "));
    }
    format!("{open}\n{inner}{}\n{indent}{close}", shown.join(&format!(",\n{inner}")))
}

fn quoted(text: &str) -> String {
    let mut quoted = String::from("\"");
    for c in text.chars() {
        match c {
            '"' | '\\' => quoted.extend(['\\', c]),
            c if c.is_control() => quoted.push_str(&format!("\\u{:04x}", u32::from(c))),
            c => quoted.push(c),
        }
    }
    quoted + "\""
}

#[cfg(test)]
mod tests {
    use super::*;

    #[test]
    fn values_are_written_as_json() {
        let leaf = Json::Object(vec![("a", Json::Flag(true)), ("b", Json::number(7u32))]);
        assert_eq!(leaf.show(""), r#"{"a": true, "b": 7}"#);
        assert_eq!(Json::List(Vec::new()).show(""), "[]");
        let list = Json::list([Json::Number(1), Json::text("x")]);
        assert_eq!(list.show("  "), r#"[1, "x"]"#);
        let nested =
            Json::Object(vec![("l", Json::list([leaf.clone(), leaf])), ("n", Json::Number(0))]);
        let leaf = r#"    {"a": true, "b": 7}"#;
        let expected = format!("{{\n  \"l\": [\n{leaf},\n{leaf}\n  ],\n  \"n\": 0\n}}");
        assert_eq!(nested.show(""), expected);
    }

    #[test]
    fn texts_are_quoted() {
        assert_eq!(quoted("a \"b\" \\ ü"), r#""a \"b\" \\ ü""#);
        assert_eq!(quoted("\u{1b}\n\u{7f}\u{85}"), r#""\u001b\u000a\u007f\u0085""#);
    }
}
