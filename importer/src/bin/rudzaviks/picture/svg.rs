//! The parts of a picture, as text of the SVG form.

/// Where a rectangle is.
#[derive(Clone, Copy, Debug)]
pub struct Area {
    pub x: f64,
    pub y: f64,
    pub width: f64,
    pub height: f64,
}

/// A length in as few characters as show it to a hundredth.
pub fn num(length: f64) -> String {
    let digits = format!("{length:.2}");
    let digits = digits.trim_end_matches('0').trim_end_matches('.');
    if digits == "-0" { "0" } else { digits }.to_string()
}

/// Text as XML has it. Characters that it has no form for are replaced.
pub fn escape(text: &str) -> String {
    let mut escaped = String::new();
    for c in text.chars() {
        match c {
            '&' => escaped.push_str("&amp;"),
            '<' => escaped.push_str("&lt;"),
            '>' => escaped.push_str("&gt;"),
            '"' => escaped.push_str("&quot;"),
            '\n' | '\t' => escaped.push(c),
            '\0'..='\x1f' | '\u{fffe}' | '\u{ffff}' => escaped.push('\u{fffd}'),
            _ => escaped.push(c),
        }
    }
    escaped
}

/// Elements of one look, one to a line; none are no group.
pub fn group(look: &str, elements: impl IntoIterator<Item = String>) -> String {
    let elements: String = elements.into_iter().map(|element| element + "\n").collect();
    match elements.is_empty() {
        true => String::new(),
        false => format!("<g {look}>\n{elements}</g>\n"),
    }
}

/// A rectangle. Browsers show the tip beside the pointer.
pub fn rect(area: Area, tip: &str) -> String {
    let Area { x, y, width, height } = area;
    let [x, y, width, height] = [x, y, width, height].map(num);
    let start = format!(r#"<rect x="{x}" y="{y}" width="{width}" height="{height}""#);
    match tip {
        "" => start + "/>",
        _ => format!("{start}><title>{}</title></rect>", escape(tip)),
    }
}

pub fn line(from: (f64, f64), to: (f64, f64)) -> String {
    let [x1, y1, x2, y2] = [from.0, from.1, to.0, to.1].map(num);
    format!(r#"<line x1="{x1}" y1="{y1}" x2="{x2}" y2="{y2}"/>"#)
}

pub fn text((x, y): (f64, f64), text: &str) -> String {
    format!(r#"<text x="{}" y="{}">{}</text>"#, num(x), num(y), escape(text))
}

/// A text that goes down.
pub fn text_down((x, y): (f64, f64), text: &str) -> String {
    let (x, y, text) = (num(x), num(y), escape(text));
    format!(r#"<text transform="translate({x} {y}) rotate(90)">{text}</text>"#)
}

/// Rectangles side by side as one shape.
pub fn shape(areas: impl IntoIterator<Item = Area>, tip: &str) -> Option<String> {
    let piece = |Area { x, y, width, height }| {
        let [x, y, width, height] = [x, y, width, height].map(num);
        format!("M{x} {y}h{width}v{height}h-{width}z")
    };
    let path: String = areas.into_iter().map(piece).collect();
    let tip = escape(tip);
    (!path.is_empty()).then(|| format!(r#"<path d="{path}"><title>{tip}</title></path>"#))
}

#[cfg(test)]
mod tests {
    use super::*;

    #[test]
    fn lengths_are_short() {
        let shown = [0.0, -0.001, 12.0, 0.5, 1.0 / 3.0, 100.0].map(num);
        assert_eq!(shown, ["0", "0", "12", "0.5", "0.33", "100"]);
    }

    #[test]
    fn what_xml_has_no_form_for_is_escaped() {
        assert_eq!(escape("a<b> & \"c\"\n\u{1}é"), "a&lt;b&gt; &amp; &quot;c&quot;\n\u{fffd}é");
    }

    #[test]
    fn a_group_of_nothing_is_nothing() {
        assert_eq!(group("a", []), "");
        assert_eq!(group("a", ["b".to_string()]), "<g a>\nb\n</g>\n");
        assert_eq!(shape([], "nothing"), None);
    }
}
