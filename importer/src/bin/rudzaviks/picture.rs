//! How full the registers get, as a picture of the SVG form: registers over instructions, and below
//! them how many are needed. It is to be read in black and white as well.

use rudzaviks::mir::reg;
use rudzaviks::Reduced;

use crate::counts::number_of;
use crate::input::Input;
use crate::pressure;
use facts::Facts;
use layout::Layout;
use svg::{group, line, num, rect, text, text_down, Area};

mod detail;
mod facts;
mod layout;
mod legend;
mod merged;
mod svg;

/// The looks of what is drawn.
const KEPT: &str = r#"class="kept" fill="none" pointer-events="all""#;
const DROPPED: &str = r#"class="dropped" fill="url(#hatch)""#;
const SHARE: &str = r##"class="share" fill="#777""##;
const MARK: &str = r#"class="mark" fill="none" stroke="black" stroke-width="1.5""#;
const BAR: &str = r##"class="bar" fill="#24527a""##;
const UNREAD: &str = r#"class="unread" fill="black""#;
const LEFT: &str = r##"class="left" fill="#24527a" fill-opacity="0.55""##;
const NEEDED: &str = r##"class="needed" fill="#b9c4ce""##;
const PEAK: &str = r#"class="peak" fill="black""#;
const NUMBER: &str = r##"class="number" font-size="9" text-anchor="middle" fill="#444""##;

const KEPT_TEXT: &str = r#"class="texts" font-family="monospace""#;
const DROPPED_TEXT: &str = r##"class="dropped-texts" font-family="monospace" fill="#555""##;
const FRAME: &str = r#"class="frame" fill="none" stroke="black" stroke-width="1.2" stroke-dasharray="4 3" pointer-events="none""#;

/// The hatching of dropped instructions.
const HATCH: &str = r##"<defs>
<pattern id="hatch" width="5" height="5" patternUnits="userSpaceOnUse">
<path d="M-1 1l2 -2M0 5l5 -5M4 6l2 -2" stroke="#8a8a8a" stroke-width="0.8"/>
</pattern>
</defs>
"##;

pub fn draw(input: &Input, reduced: &Reduced) -> String {
    let facts = Facts::new(input, reduced);
    let layout = Layout::new(&facts);
    let drawn = match layout.is_merged() {
        true => merged::draw(&facts, layout),
        false => detail::draw(&facts, layout),
    };
    let parts = [
        start(&facts, layout),
        head(&facts, layout),
        legend::draw(layout),
        grid(layout),
        drawn,
        axis(&facts, layout),
        peak(&facts, layout),
        below(&facts, layout),
        "</svg>\n".to_string(),
    ];
    parts.concat()
}

/// The page.
fn start(facts: &Facts, layout: Layout) -> String {
    let (width, height) = (layout.width(), layout.height());
    let page = rect(Area { x: 0.0, y: 0.0, width, height }, "");
    let (width, height) = (num(width), num(height));
    let size = format!(r#"viewBox="0 0 {width} {height}" width="{width}" height="{height}""#);
    let fonts = format!(r#"font-family="sans-serif" font-size="{}""#, layout::TEXT);
    let page = group(r#"class="page" fill="white""#, [page]);
    let title = svg::escape(&format!("{}: {}", facts.input.name, share(facts)));
    let namespace = "http://www.w3.org/2000/svg";
    format!("<svg xmlns=\"{namespace}\" {size} {fonts}>\n<title>{title}</title>\n{HATCH}{page}")
}

/// How many registers are needed at most, of how many.
fn share(facts: &Facts) -> String {
    let registers = number_of(facts.input.settings.count_regs as usize, "register");
    format!("{} of {registers}", facts.fullest)
}

/// What the picture is of, and what is to be seen.
fn head(facts: &Facts, layout: Layout) -> String {
    let Facts { input, reduced, .. } = facts;
    let room = (layout.width() / 11.0) as usize;
    let title = format!("{}: {}", clipped_before(&input.name, room - 24), share(facts));
    let counts = pressure::how_many(reduced);
    let said = format!("{}; {counts}", pressure::how_full(input, reduced));
    let title = text((16.0, 28.0), &title);
    let title = group(r#"class="title" font-size="17" font-weight="bold""#, [title]);
    title + &group(r#"class="said" font-size="12""#, [text((16.0, 48.0), &said)])
}

/// The end of a text that is too long.
fn clipped_before(text: &str, room: usize) -> String {
    match text.chars().count().checked_sub(room) {
        None | Some(0) => text.to_string(),
        Some(over) => format!("\u{2026}{}", text.chars().skip(over + 1).collect::<String>()),
    }
}

/// The beginning of a text that is too long.
fn clipped(text: &str, room: usize) -> String {
    match text.chars().count() > room {
        false => text.to_string(),
        true => text.chars().take(room - 1).chain(['\u{2026}']).collect(),
    }
}

/// A line for each register, with its name.
fn grid(layout: Layout) -> String {
    let middle = |register: usize| layout.y(register) + layout.row / 2.0;
    let row = |register| line((layout.left, middle(register)), (layout.right(), middle(register)));
    let name = |register: usize| {
        text((layout.left - 8.0, middle(register) + 3.5), &reg(register as u8).to_string())
    };
    let names = r#"class="names" font-family="monospace" text-anchor="end""#;
    let rows = r##"class="rows" stroke="#d4d4d4""##;
    group(rows, (0..layout.registers).map(row)) + &group(names, (0..layout.registers).map(name))
}

/// The lines and numbers of the chart.
fn axis(facts: &Facts, layout: Layout) -> String {
    let (left, right, ground) = (layout.left, layout.right(), layout.ground());
    let mut numbers = vec![0, facts.fullest, layout.most];
    numbers.dedup();
    let y = |number: u32| ground - f64::from(number) * layout.unit;
    let level = |number: &u32| line((left, y(*number)), (right, y(*number)));
    let name = |number: &u32| text((left - 8.0, y(*number) + 3.5), &number.to_string());
    let dashed = r##"class="level" stroke="#555" stroke-dasharray="1 3""##;
    let solid = r#"class="ground" stroke="black""#;
    [
        group(dashed, numbers[1..].iter().map(level)),
        group(solid, [level(&0)]),
        group(r#"class="levels" text-anchor="end""#, numbers.iter().map(name)),
    ]
    .concat()
}

/// A frame where most registers are needed, and an arrow between the rows and the chart, with what
/// there is to say of it on the side where there is room.
fn peak(facts: &Facts, layout: Layout) -> String {
    let Some((first, past)) = facts.first_peak() else { return String::new() };
    let (from, to) = (layout.x(first), layout.x(past));
    let said = format!("{} needed, past {}", share(facts), facts.place(first));
    let (x, y) = ((from + to) / 2.0, layout.bottom() + 16.0);
    let has_room = x + 8.0 * said.len() as f64 <= layout.width();
    let (beside, anchor) = if has_room { (8.0, "start") } else { (-8.0, "end") };
    let arrow = format!(r#"<path d="M{} {}h8l-4 8z"/>"#, num(x - 4.0), num(y));
    let said = text((x + beside, y + 8.0), &said);
    let look = format!(r#"class="most" font-size="11" font-weight="bold" text-anchor="{anchor}""#);
    group(FRAME, [rect(layout.rows(from, to), "")]) + &group(&look, [arrow, said])
}

/// The lines' numbers below their columns, and their texts.
fn below(facts: &Facts, layout: Layout) -> String {
    let last = layout.instructions.saturating_sub(1);
    let number = |index: usize| facts.input.number(index).to_string();
    let digits = if layout.instructions == 0 { 1 } else { number(last).len() };
    let stride = layout.stride(digits);
    let is_round = |index: &usize| facts.input.number(*index).is_multiple_of(stride);
    let first = (0..stride.min(layout.instructions)).find(is_round).unwrap_or(0);
    let numbered = (first..layout.instructions).step_by(stride);
    let ground = layout.ground();
    let numbers = numbered.map(|index| text((layout.x(index), ground + 14.0), &number(index)));
    let unit = text((layout.left - 8.0, ground + 14.0), facts.input.unit());
    let with_text = (0..layout.instructions).filter(|_| layout.has_texts());
    let (dropped, kept): (Vec<usize>, Vec<usize>) =
        with_text.partition(|index| facts.is_dropped(*index));
    let down = |index: usize, mark: &str| {
        let shown = clipped(&format!("{mark}{}", facts.text(index)), layout::CLIP);
        text_down((layout.x(index) - 3.5, ground + 24.0), &shown)
    };
    [
        group(r#"class="lines" text-anchor="middle""#, numbers),
        group(r#"class="unit" text-anchor="end""#, [unit]),
        group(KEPT_TEXT, kept.into_iter().map(|index| down(index, ""))),
        group(DROPPED_TEXT, dropped.into_iter().map(|index| down(index, "\u{d7} "))),
    ]
    .concat()
}
