//! The picture that `rudzaviks pressure --svg` draws.

use std::collections::HashSet;
use std::fs;
use std::path::PathBuf;
use std::process::Command;
use std::sync::atomic::{AtomicUsize, Ordering};

use rudzaviks::{reduce, text, Outcome, Reduced};

/// Runs the tool on a list in a file of that name, in a folder of its own; gives the picture.
fn drawn(name: &str, list: &str) -> String {
    static DRAWN: AtomicUsize = AtomicUsize::new(0);
    let number = DRAWN.fetch_add(1, Ordering::Relaxed).to_string();
    let folder = PathBuf::from(env!("CARGO_TARGET_TMPDIR")).join("pictures").join(number);
    fs::create_dir_all(&folder).expect("a folder for the list");
    fs::write(folder.join(name), list).expect("the list is written");
    let mut command = Command::new(env!("CARGO_BIN_EXE_rudzaviks"));
    let output = command.current_dir(&folder).args(["pressure", "--svg", "out.svg", name]).output();
    let output = output.expect("the tool runs");
    assert!(output.status.success(), "{}", String::from_utf8_lossy(&output.stderr));
    assert!(output.stdout.starts_with(b"settings "), "the chart is printed as well");
    fs::read_to_string(folder.join("out.svg")).expect("the picture is text")
}

fn reduced(list: &str) -> Reduced {
    let parsed = text::parse(list).expect("a list");
    reduce(&parsed.list, &parsed.settings).expect("it passes")
}

/// An element.
#[derive(Debug)]
struct Element {
    name: String,
    attributes: Vec<(String, String)>,
    children: Vec<Element>,
    /// The text in it.
    text: String,
}

impl Element {
    fn attribute(&self, wanted: &str) -> &str {
        let mut all = self.attributes.iter();
        all.find(|(name, _)| name == wanted).map_or("", |(_, value)| value)
    }

    /// What is in the groups of this class, without those of the legend.
    fn class(&self, class: &str) -> Vec<&Element> {
        let groups = self.children.iter().filter(|child| child.attribute("class") == class);
        groups.flat_map(|group| &group.children).collect()
    }

    fn number(&self, name: &str) -> f64 {
        self.attribute(name).parse().unwrap_or_else(|_| panic!("{name} is no number: {self:?}"))
    }

    /// What is shown beside the pointer.
    fn tip(&self) -> &str {
        let title = self.children.iter().find(|child| child.name == "title");
        &title.unwrap_or_else(|| panic!("no tip: {self:?}")).text
    }
}

/// The text without what was escaped, which is all that may be.
fn plain(text: &str) -> String {
    let mut parts = text.split('&');
    let mut plain = parts.next().unwrap_or_default().to_string();
    for part in parts {
        let (name, rest) = part.split_once(';').expect("an escape ends");
        plain.push_str(match name {
            "amp" => "&",
            "lt" => "<",
            "gt" => ">",
            "quot" => "\"",
            _ => panic!("unknown escape {name}"),
        });
        plain.push_str(rest);
    }
    assert!(!plain.contains(|c: char| c.is_control() && c != '\n'), "{plain:?}");
    plain
}

/// The attributes of a tag.
fn attributes(mut rest: &str) -> Vec<(String, String)> {
    let mut attributes = Vec::new();
    while !rest.trim().is_empty() {
        let (name, value) = rest.trim_start().split_once("=\"").expect("a value in quotes");
        let (value, after) = value.split_once('"').expect("the quotes end");
        let is_new = attributes.iter().all(|(known, _)| known != name);
        assert!(is_new && name.chars().all(|c| c.is_ascii_alphanumeric() || "-:".contains(c)));
        attributes.push((name.to_string(), plain(value)));
        rest = after;
    }
    attributes
}

/// Reads a picture: every tag that begins ends, in order, and nothing stands outside.
fn parsed(svg: &str) -> Element {
    let (mut open, mut done): (Vec<Element>, Option<Element>) = (Vec::new(), None);
    let mut tags = svg.split('<');
    assert_eq!(tags.next(), Some(""));
    for tag in tags {
        assert!(done.is_none(), "one element holds all");
        let (tag, text) = tag.split_once('>').expect("a tag ends");
        let ended = match tag.strip_prefix('/') {
            Some(name) => {
                let ended = open.pop().expect("a tag to end");
                assert_eq!(ended.name, name);
                Some(ended)
            }
            None => {
                let (start, is_whole) = tag.strip_suffix('/').map_or((tag, false), |it| (it, true));
                let (name, rest) = start.split_once(' ').unwrap_or((start, ""));
                let (name, attributes) = (name.to_string(), attributes(rest));
                open.push(Element { name, attributes, children: vec![], text: String::new() });
                is_whole.then(|| open.pop().expect("it was just begun"))
            }
        };
        match (ended, open.last_mut()) {
            (Some(ended), Some(around)) => around.children.push(ended),
            (ended, _) => done = ended,
        }
        match open.last_mut() {
            Some(around) => around.text.push_str(&plain(text)),
            None => assert_eq!(text, "\n"),
        }
    }
    done.expect("a picture")
}

/// A list with all that is drawn: a value found again, one never read, two in a register, dropped
/// lines.
const SMALL: &str = "\
settings count_regs=3

%0 := Mem[0]
%1 := Mem[0]
%2 := %0 Plus %1
Stack[16] := %2
nop
%0 := Stack[16]
%1 := Mem[2]
%0 := %0 Times %1
Mem[1] := %0
%1 := Param[0]
end
";

/// After a change of the drawing that is wanted: look at what this wrote, and store it.
fn is_drawn_as_stored(name: &str, list: &str, stored: &str) {
    let path = [env!("CARGO_MANIFEST_DIR"), stored].concat();
    let picture = fs::read_to_string(path).expect("the stored picture");
    let drawn = drawn(name, list);
    assert!(drawn == picture, "the picture differs from {stored}:\n{drawn}");
}

#[test]
fn a_small_list_is_drawn_as_it_was_looked_at() {
    is_drawn_as_stored("small.txt", SMALL, "/tests/pictures/small.svg");
}

#[test]
fn the_picture_of_the_readme_is_the_samples() {
    is_drawn_as_stored("volume.txt", &sample("volume"), "/../docs/volume.svg");
}

/// One bar or tick for each value, one column for each instruction, a cross for each dropped one.
fn is_complete(svg: &str, reduced: &Reduced) {
    let picture = parsed(svg);
    let bars = reduced.stretches.iter().filter(|stretch| stretch.is_read()).count();
    let unread = reduced.stretches.len() - bars;
    assert_eq!([picture.class("bar").len(), picture.class("unread").len()], [bars, unread]);
    let dropped = |outcome: &&Outcome| matches!(outcome, Outcome::Dropped(_));
    let dropped = reduced.outcomes.iter().filter(dropped).count();
    let kept = reduced.outcomes.len() - dropped;
    let columns = ["kept", "dropped", "mark"].map(|class| picture.class(class).len());
    assert_eq!(columns, [kept, dropped, dropped]);
    let heights = ["needed", "peak"].map(|class| picture.class(class).len());
    let needed = reduced.needed();
    let are = |wanted: &dyn Fn(u32) -> bool| needed.iter().filter(|it| wanted(**it)).count();
    let fullest = reduced.counts.fullest;
    let peaks = are(&|needed| needed > 0 && needed == fullest);
    assert_eq!(heights, [are(&|needed| needed > 0) - peaks, peaks]);
    for class in ["bar", "unread", "left", "kept", "dropped", "needed", "peak"] {
        picture.class(class).iter().for_each(|element| assert!(!element.tip().is_empty()));
    }
    all_is_on_the_page(&picture);
}

/// No rectangle and no line leaves the page, and the page is white.
fn all_is_on_the_page(picture: &Element) {
    let (width, height) = (picture.number("width"), picture.number("height"));
    assert_eq!(picture.attribute("viewBox"), format!("0 0 {width} {height}"));
    let page = picture.class("page")[0];
    assert_eq!([page.number("width"), page.number("height")], [width, height]);
    for element in picture.children.iter().flat_map(|group| &group.children) {
        let (right, bottom) = match element.name.as_str() {
            "rect" => (
                element.number("x") + element.number("width"),
                element.number("y") + element.number("height"),
            ),
            "line" => (element.number("x2"), element.number("y2")),
            _ => continue,
        };
        assert!(right <= width + 0.02 && bottom <= height + 0.02, "{element:?}");
    }
}

fn sample(name: &str) -> String {
    let path = format!("{}/samples/{name}.txt", env!("CARGO_MANIFEST_DIR"));
    fs::read_to_string(path).expect("the sample is there")
}

#[test]
fn every_value_and_every_line_is_drawn() {
    for name in ["volume", "two_part", "branch"] {
        let list = sample(name);
        is_complete(&drawn(&format!("{name}.txt"), &list), &reduced(&list));
    }
    is_complete(&drawn("small.txt", SMALL), &reduced(SMALL));
    let line = "%0 := Mem[0]\nMem[1] := %0\n";
    for (times, count_regs) in [(0, 0), (0, 64), (1, 1), (40, 16), (41, 17), (880, 64)] {
        let list = format!("settings count_regs={count_regs}\n{}", line.repeat(times));
        is_complete(&drawn(&format!("{times} times.txt"), &list), &reduced(&list));
    }
}

#[test]
fn bars_go_from_the_write_to_the_last_read() {
    let picture = parsed(&drawn("volume.txt", &sample("volume")));
    let bars = picture.class("bar");
    let bar = bars.iter().find(|bar| bar.tip().starts_with("%3\nwritten at line 36: "));
    let bar = bar.expect("the bar of what line 36 finds");
    let tip = "%3\nwritten at line 36: %0 := Stack[17] (dropped)\nneeded up to line 38: ";
    assert_eq!(bar.tip(), format!("{tip}%1 := %3 Times %1"));
    let middle = |line: &str| {
        let mut numbers = picture.class("lines").into_iter();
        numbers.find(|number| number.text == line).expect("the line's number").number("x")
    };
    assert!((bar.number("x") - middle("36")).abs() < 0.02);
    let end = bar.number("x") + bar.number("width");
    assert!(end < middle("38") && end > middle("38") - 2.0, "{bar:?}");
    let row = bar.number("y") + bar.number("height") / 2.0;
    let names = picture.class("names");
    let name = names.iter().find(|name| (name.number("y") - row).abs() < 5.0);
    assert_eq!(name.expect("a row's name").text, "%3");
    let left = picture.class("left");
    let tips: Vec<&str> = left.iter().map(|left| left.tip()).collect();
    assert!(tips.contains(&"%3\nnot needed past line 20, but still there at line 36"), "{tips:?}");
}

#[test]
fn dropped_lines_are_marked() {
    let picture = parsed(&drawn("two_part.txt", &sample("two_part")));
    let dropped = picture.class("dropped");
    let tips: Vec<&str> = dropped.iter().map(|column| column.tip()).collect();
    let expected = "line 17: (%2 + %3*im) := Stack[16]\ndropped: Stack[16] is already in %2, and \
                    Stack[17] in %1\n2 of 4 registers needed past line 17";
    assert_eq!((tips.len(), tips[1]), (2, expected));
    let texts = picture.class("dropped-texts");
    assert_eq!(texts[1].text, "\u{d7} (%2 + %3*im) := Stack[16]");
    assert_eq!(picture.class("texts")[3].text, "(%1 + %0*im) := Mem[0]");
}

#[test]
fn it_is_told_where_most_are_needed() {
    let picture = parsed(&drawn("volume.txt", &sample("volume")));
    assert_eq!(picture.class("title")[0].text, "volume.txt: 3 of 4 registers");
    let said =
        "at most 3 of 4 registers needed at once, first at line 37; 26 instructions, 7 dropped";
    assert_eq!(picture.class("said")[0].text, said);
    let peaks = picture.class("peak");
    assert_eq!(peaks.len(), 1);
    assert_eq!(peaks[0].tip(), "3 of 4 registers needed past line 37");
    let most = picture.class("most");
    assert_eq!(most.last().expect("a text").text, "3 of 4 registers needed, past line 37");
    assert_eq!(picture.class("frame")[0].number("x"), peaks[0].number("x"));
}

#[test]
fn names_are_escaped_and_long_ones_clipped() {
    let name = "a <b> & \"c\" \u{1}'.txt";
    let picture = parsed(&drawn(name, SMALL));
    let shown = "a <b> & \"c\" \\u{1}'.txt: 2 of 3 registers";
    assert_eq!(picture.class("title")[0].text, shown);
    assert_eq!(picture.children[0].text, shown);
    let long = format!("{}.txt", "x".repeat(200));
    let picture = parsed(&drawn(&long, SMALL));
    let title = &picture.class("title")[0].text;
    assert!(title.starts_with("\u{2026}xx") && title.chars().count() < 80, "{title}");
    assert!(picture.children[0].text.starts_with(&long));
}

/// The longest list, of which each pixel shows many lines.
#[test]
fn a_long_list_is_drawn_small() {
    let part = "%0 := Mem[0]\n%1 := Mem[1]\nMem[2] := %0\nMem[3] := %1\n%5 := Param[0]\nnop\n";
    let list = format!("settings count_regs=64\n{}", part.repeat(10_922));
    let svg = drawn("long.txt", &list);
    assert!(svg.len() < 1_000_000, "{} bytes", svg.len());
    let picture = parsed(&svg);
    assert!(picture.number("width") < 2000.0);
    all_is_on_the_page(&picture);
    // What is read of a register is one shape, and what is not is another.
    let looks: HashSet<(u8, bool)> =
        reduced(&list).stretches.iter().map(|it| (it.register, it.is_read())).collect();
    let shapes = ["bar", "unread"].map(|class| picture.class(class));
    assert_eq!(shapes.iter().flatten().count(), looks.len());
    let numbers = picture.class("lines");
    assert!(numbers.len() > 10 && numbers.len() < 60, "{} numbers", numbers.len());
    for class in ["share", "peak", "frame", "most"] {
        assert!(!picture.class(class).is_empty(), "{class}");
    }
}

#[test]
fn what_falls_together_is_drawn_as_one() {
    let some = "%0 := Mem[0]\nMem[1] := %0\n";
    let list = format!("settings count_regs=1\n{}", some.repeat(2000));
    let picture = parsed(&drawn("merged.txt", &list));
    let bars = picture.class("bar");
    assert_eq!(bars.len(), 1);
    assert_eq!((bars[0].name.as_str(), bars[0].tip()), ("path", "%0: needed"));
    assert_eq!(bars[0].attribute("d").matches('M').count(), 1, "all values touch");
    let nops = "nop\n".repeat(1000);
    let list = format!("settings count_regs=1\n{some}{nops}{some}{nops}{some}");
    let picture = parsed(&drawn("apart.txt", &list));
    assert_eq!(picture.class("bar")[0].attribute("d").matches('M').count(), 3);
}
