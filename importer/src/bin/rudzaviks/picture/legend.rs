//! What the looks of a picture mean.

use super::layout::Layout;
use super::svg::{group, rect, text, Area};
use super::{BAR, DROPPED, LEFT, PEAK, SHARE, UNREAD};

/// Where the legend is, and where its samples end below that.
const TOP: f64 = 64.0;

/// A look, its sample's width and height, and what it means.
type Entry = (&'static str, f64, f64, &'static str);

fn entries(layout: Layout) -> [Entry; 5] {
    let dropped = match layout.is_merged() {
        true => (SHARE, 16.0, 8.0, "share of dropped lines, at the top"),
        false => (DROPPED, 16.0, 14.0, "\u{d7} dropped"),
    };
    [
        (BAR, 26.0, 12.0, "needed, from write to last read"),
        (UNREAD, 3.0, 14.0, "never read"),
        (LEFT, 26.0, 2.0, "not needed, but found again"),
        dropped,
        (PEAK, 16.0, 14.0, "most are needed"),
    ]
}

pub fn draw(layout: Layout) -> String {
    let mut x = 16.0;
    let entry = |(look, width, height, meaning): Entry| {
        let y = TOP + (14.0 - height) / 2.0;
        let sample = group(look, [rect(Area { x, y, width, height }, "")]);
        let said = text((x + width + 6.0, TOP + 10.5), meaning);
        x += width + 6.0 + 5.6 * meaning.chars().count() as f64 + 18.0;
        [sample.trim_end().to_string(), said]
    };
    group(r#"class="legend""#, entries(layout).into_iter().flat_map(entry))
}
