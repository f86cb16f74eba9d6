//! A list of which every instruction is seen.

use rudzaviks::pressure::Stretch;

use super::facts::Facts;
use super::layout::Layout;
use super::svg::{group, line, rect, text, Area};
use super::{BAR, DROPPED, KEPT, LEFT, MARK, NEEDED, NUMBER, PEAK, UNREAD};

pub fn draw(facts: &Facts, layout: Layout) -> String {
    [columns(facts, layout), registers(facts, layout), chart(facts, layout)].concat()
}

/// A column for each instruction, with a tip; those that were dropped are hatched and marked.
fn columns(facts: &Facts, layout: Layout) -> String {
    let (dropped, kept): (Vec<usize>, Vec<usize>) =
        (0..layout.instructions).partition(|index| facts.is_dropped(*index));
    let half = layout.step / 2.0;
    let column = |index: &usize| {
        let middle = layout.x(*index);
        rect(layout.rows(middle - half, middle + half), &facts.column_tip(*index))
    };
    let mark = |index: &usize| mark(*index, layout);
    [
        group(KEPT, kept.iter().map(column)),
        group(DROPPED, dropped.iter().map(column)),
        group(MARK, dropped.iter().map(mark)),
    ]
    .concat()
}

/// A cross above a column; above a narrow one a tick.
fn mark(index: usize, layout: Layout) -> String {
    let (x, y) = (layout.x(index), layout.top - 10.0);
    match layout.step {
        12.0.. => {
            let (d, e) = (4.0, 8.0);
            let path = format!("M{} {}l{e} {e}m0 -{e}l-{e} {e}", x - d, y - d);
            format!(r#"<path d="{path}"/>"#)
        }
        _ => line((x, y - 4.0), (x, y + 4.0)),
    }
}

/// The rows: where each register is needed, where something is left in it, and what is not read.
fn registers(facts: &Facts, layout: Layout) -> String {
    let stretches = &facts.reduced.stretches;
    let (read, unread) = stretches.iter().partition::<Vec<Stretch>, _>(|it| it.is_read());
    // A gap tells what ends from what begins there.
    let gap = (layout.step / 8.0).min(1.5);
    let bar = |it: &Stretch| {
        let (from, to) = (layout.x(it.written), layout.x(it.until) - gap);
        rect(layout.stretch(it.register, from, to, layout.row - 6.0), &facts.stretch_tip(*it))
    };
    let tick = |it: &Stretch| {
        let (from, to) = (layout.x(it.written) - gap, layout.x(it.written) + gap);
        rect(layout.stretch(it.register, from, to, layout.row - 2.0), &facts.stretch_tip(*it))
    };
    let thin = |it: &Stretch| {
        let (from, to) = (layout.x(it.written), layout.x(it.until) - gap);
        rect(layout.stretch(it.register, from, to, 2.0), &facts.left_tip(*it))
    };
    // In a register that holds two values the later one's bar lies on the other, with an edge.
    let edge = if layout.has_texts() { r#" stroke="white""# } else { "" };
    [
        group(LEFT, facts.left.iter().map(thin)),
        group(&format!("{BAR}{edge}"), read.iter().map(bar)),
        group(UNREAD, unread.iter().map(tick)),
    ]
    .concat()
}

/// How many registers are needed from each instruction to the next.
fn chart(facts: &Facts, layout: Layout) -> String {
    let (ground, step) = (layout.ground(), layout.step);
    let needed = facts.needed.iter().enumerate().filter(|(_, needed)| **needed > 0);
    let (peaks, others): (Vec<_>, Vec<_>) =
        needed.partition(|(_, needed)| **needed == facts.fullest);
    let top = |needed: u32| ground - f64::from(needed) * layout.unit;
    let bar = |(index, needed): &(usize, &u32)| {
        let (x, y) = (layout.x(*index), top(**needed));
        rect(Area { x, y, width: step, height: ground - y }, &facts.needed_tip(*index))
    };
    let number = |(index, needed): &(usize, &u32)| {
        text((layout.x(*index) + step / 2.0, top(**needed) - 3.0), &needed.to_string())
    };
    let numbers = others.iter().chain(&peaks).filter(|_| layout.has_texts());
    [
        group(NEEDED, others.iter().map(bar)),
        group(PEAK, peaks.iter().map(bar)),
        group(NUMBER, numbers.map(number)),
    ]
    .concat()
}
