//! Where everything of a picture is.

use super::facts::Facts;
use super::svg::Area;

/// Up to so many instructions have their text below them.
const FEW: usize = 80;

/// How wide all columns together are at most.
const WIDEST: usize = 1760;

/// How wide a page is at least, for the title and the legend.
const PAGE: f64 = 800.0;

/// How wide a character of the font of one width is, for a font of height 1.
const CHARACTER: f64 = 0.602;

/// How high the texts below the columns are.
pub const TEXT: f64 = 10.0;

/// How many characters of an instruction's text are shown.
pub const CLIP: usize = 48;

/// Where everything is. Instructions are columns, and registers are rows.
#[derive(Clone, Copy, Debug)]
pub struct Layout {
    pub instructions: usize,
    pub registers: usize,
    /// How wide a column is.
    pub step: f64,
    /// How high a row is.
    pub row: f64,
    /// Where the columns begin.
    pub left: f64,
    /// Where the rows begin.
    pub top: f64,
    /// How high a needed register is in the chart.
    pub unit: f64,
    /// How many registers the chart has room for.
    pub most: u32,
    /// How long the texts below the columns are.
    pub texts: f64,
}

impl Layout {
    pub fn new(facts: &Facts) -> Layout {
        let instructions = facts.needed.len();
        let count_regs = facts.input.settings.count_regs;
        let share = |width: f64| width / instructions.max(1) as f64;
        let has_texts = instructions <= FEW;
        let most = if count_regs <= 4 * facts.fullest { count_regs } else { facts.fullest };
        Layout {
            instructions,
            registers: count_regs as usize,
            step: if has_texts { share(1120.0).clamp(22.0, 64.0) } else { share(WIDEST as f64) },
            row: match count_regs {
                0..=16 => 20.0,
                17..=32 => 14.0,
                _ => 11.0,
            },
            left: 60.0,
            top: 116.0,
            unit: (120.0 / f64::from(most.max(1))).min(12.0),
            most,
            texts: if has_texts { longest(facts) } else { 0.0 },
        }
    }

    /// Whether each instruction has its text below it.
    pub fn has_texts(self) -> bool {
        self.instructions <= FEW
    }

    /// Whether columns are so narrow that some must be drawn as one.
    pub fn is_merged(self) -> bool {
        self.instructions > WIDEST
    }

    /// The middle of a column, where its instruction is.
    pub fn x(self, index: usize) -> f64 {
        self.left + (index as f64 + 0.5) * self.step
    }

    /// Where the columns end.
    pub fn right(self) -> f64 {
        self.left + self.instructions as f64 * self.step
    }

    /// Where a register's row begins.
    pub fn y(self, register: usize) -> f64 {
        self.top + register as f64 * self.row
    }

    /// Where the rows end.
    pub fn bottom(self) -> f64 {
        self.y(self.registers)
    }

    /// Where the chart's highest value is, leaving room above it for what is said of it.
    pub fn chart_top(self) -> f64 {
        self.bottom() + 40.0
    }

    /// Where the chart's 0 is.
    pub fn ground(self) -> f64 {
        self.chart_top() + f64::from(self.most) * self.unit
    }

    pub fn width(self) -> f64 {
        (self.right() + 24.0).max(PAGE)
    }

    pub fn height(self) -> f64 {
        let texts = if self.has_texts() { self.texts + 12.0 } else { 0.0 };
        self.ground() + 34.0 + texts
    }

    /// The part of a row from one instruction to another, with some of the row's height.
    pub fn stretch(self, register: u8, from: f64, to: f64, height: f64) -> Area {
        let y = self.y(usize::from(register)) + (self.row - height) / 2.0;
        Area { x: from, y, width: to - from, height }
    }

    /// All rows, from one place to another.
    pub fn rows(self, from: f64, to: f64) -> Area {
        Area { x: from, y: self.top, width: to - from, height: self.bottom() - self.top }
    }

    /// How many instructions there are from one number below the columns to the next: the least of
    /// 1, 2, 5, 10, 20 and so on with which numbers of so many digits don't touch.
    pub fn stride(self, digits: usize) -> usize {
        let room = (digits as f64 * CHARACTER + 0.5) * TEXT / self.step;
        let strides = (0..).flat_map(|power| [1, 2, 5].map(|first| first * 10_usize.pow(power)));
        strides.into_iter().find(|stride| *stride as f64 >= room).expect("one is large enough")
    }
}

/// How long the longest text below the columns is, with the mark before it.
fn longest(facts: &Facts) -> f64 {
    let lengths = (0..facts.needed.len()).map(|index| facts.text(index).len() + 2);
    lengths.max().unwrap_or(0).min(CLIP) as f64 * CHARACTER * TEXT
}
