//! The amended copy of the allocator differs from the published file in three lines.

const PUBLISHED: &str = include_str!("../src/symjit/allocator.rs");
const AMENDED: &str = include_str!("../src/symjit/amended.rs");

/// Each line's number, what is published, and what stands in its place.
const CHANGED: [(usize, &str, &str); 3] = [
    (
        450,
        "let (yd, _) = self.allocate_loc(ip, yd, loc.imag());",
        "let (yd, imag_moved) = self.allocate_loc(ip, yd, loc.imag());",
    ),
    (451, "if !moved {", "if !(moved && imag_moved) {"),
    (
        632,
        "idx < fixed || (self.locs.contains(&loc) && self.locs.contains(&loc.imag()))",
        "idx < fixed || (self.locs.contains(&loc) || self.locs.contains(&loc.imag()))",
    ),
];

#[test]
fn three_lines_are_changed() {
    let lines = |text: &'static str| text.split('\n').collect::<Vec<_>>();
    let (published, amended) = (lines(PUBLISHED), lines(AMENDED));
    assert_eq!(published.len(), amended.len());
    let pairs = published.into_iter().zip(amended).enumerate();
    let differing = pairs.filter(|(_, (old, new))| old != new);
    let changed = differing.map(|(at, (old, new))| (at + 1, old.trim_start(), new.trim_start()));
    assert_eq!(changed.collect::<Vec<_>>(), CHANGED);
}
