//! A list so long that instructions which fall together are drawn as one.

use rudzaviks::mir::reg;
use rudzaviks::pressure::Stretch;

use super::facts::Facts;
use super::layout::Layout;
use super::svg::{group, shape, Area};
use super::{BAR, LEFT, NEEDED, PEAK, SHARE, UNREAD};

/// How high the strip of dropped instructions is.
const STRIP: f64 = 12.0;

pub fn draw(facts: &Facts, layout: Layout) -> String {
    [dropped(facts, layout), registers(facts, layout), chart(facts, layout)].concat()
}

/// The cell, one unit wide, that an instruction falls into.
fn cell(index: usize, layout: Layout) -> usize {
    ((index as f64 + 0.5) * layout.step) as usize
}

/// For each cell the share of the instructions that were dropped, above the rows.
fn dropped(facts: &Facts, layout: Layout) -> String {
    let mut shares = vec![(0.0, 0.0); cells(layout)];
    for index in 0..layout.instructions {
        let (all, dropped) = &mut shares[cell(index, layout)];
        *all += 1.0;
        *dropped += f64::from(u8::from(facts.is_dropped(index)));
    }
    let heights = shares.iter().map(|(all, dropped)| STRIP * dropped / f64::max(*all, 1.0));
    let columns = columns(heights.collect(), layout.top - 4.0, layout);
    group(SHARE, shape(columns, "the share of instructions that were dropped"))
}

fn cells(layout: Layout) -> usize {
    layout.step.mul_add(layout.instructions as f64, 1.0) as usize
}

/// Columns of these heights, one for each cell, those of one height in a row as one.
fn columns(heights: Vec<f64>, ground: f64, layout: Layout) -> Vec<Area> {
    let mut columns: Vec<Area> = Vec::new();
    for (cell, height) in heights.into_iter().enumerate().filter(|(_, height)| *height > 0.0) {
        let x = layout.left + cell as f64;
        match columns.last_mut() {
            Some(last) if last.height == height && last.x + last.width == x => last.width += 1.0,
            _ => columns.push(Area { x, y: ground - height, width: 1.0, height }),
        }
    }
    columns
}

/// The rows: where each register is needed, where something is left in it, and what is not read.
fn registers(facts: &Facts, layout: Layout) -> String {
    let stretches = &facts.reduced.stretches;
    let (read, unread) = stretches.iter().partition::<Vec<Stretch>, _>(|it| it.is_read());
    let look = |stretches: &[Stretch], height: f64, what: &str, look: &str| {
        let rows = by_register(stretches, layout).into_iter().enumerate();
        let row = |(register, runs): (usize, Vec<Run>)| {
            let areas = runs.into_iter().map(|(first, last)| {
                let (from, to) = (layout.left + first as f64, layout.left + last as f64 + 1.0);
                layout.stretch(register as u8, from, to, height)
            });
            shape(areas, &format!("{}: {what}", reg(register as u8)))
        };
        group(look, rows.filter_map(row))
    };
    [
        look(&facts.left, 2.0, "not needed, but found again", LEFT),
        look(&unread, layout.row - 5.0, "written and never read", UNREAD),
        look(&read, layout.row - 5.0, "needed", BAR),
    ]
    .concat()
}

/// The first cell and the last of what touches.
type Run = (usize, usize);

/// Where each register's stretches are, in cells; what touches is one run.
fn by_register(stretches: &[Stretch], layout: Layout) -> Vec<Vec<Run>> {
    let mut rows = vec![Vec::<Run>::new(); layout.registers];
    for stretch in stretches {
        let (first, last) = (cell(stretch.written, layout), cell(stretch.until, layout));
        let runs = &mut rows[usize::from(stretch.register)];
        match runs.last_mut() {
            Some(run) if first <= run.1 + 1 => run.1 = run.1.max(last),
            _ => runs.push((first, last)),
        }
    }
    rows
}

/// The largest number of needed registers of each cell.
fn chart(facts: &Facts, layout: Layout) -> String {
    let mut most = vec![0; cells(layout)];
    for (index, needed) in facts.needed.iter().enumerate() {
        let most = &mut most[cell(index, layout)];
        *most = needed.max(most).to_owned();
    }
    let drawn = |is_peak: bool| {
        let heights = most.iter().map(|needed| match (*needed == facts.fullest) == is_peak {
            true => f64::from(*needed) * layout.unit,
            false => 0.0,
        });
        shape(columns(heights.collect(), layout.ground(), layout), "registers needed")
    };
    [group(NEEDED, drawn(false)), group(PEAK, drawn(true))].concat()
}
