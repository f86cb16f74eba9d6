//! What a random list is like.

use crate::limits::MOST_REGS;
use crate::random::Random;
use crate::roles::{JUMPING, KINDS, SCALAR, STRAIGHT};
use crate::settings::Settings;

/// The parameters of a random list.
#[derive(Clone, Debug)]
pub struct Profile {
    pub settings: Settings,
    pub records: usize,
    pub pairs: usize,
    /// How many spaces are in use, Stack first.
    pub spaces: u32,
    /// How many indexes each space has in use. With few of them locations collide.
    pub cells: u32,
    /// How many label numbers are in use.
    pub labels: u32,
    /// How many of 100 registers are named ones.
    pub named: u32,
    /// How many of 100 indexes, constants and labels are at an end of their range.
    pub extreme: u32,
    /// How often each kind comes, beside the others.
    pub weights: [u32; KINDS],
    /// Whether a source is written since the last BranchIf too. Where no register is, a load or a
    /// constant comes more often.
    pub fresh: bool,
}

impl Profile {
    /// All kinds alike, few registers and cells.
    pub fn plain(records: usize) -> Profile {
        Profile {
            settings: Settings { count_regs: 4, ..Settings::default() },
            records,
            pairs: 6,
            spaces: 3,
            cells: 3,
            labels: 3,
            named: 10,
            extreme: 2,
            weights: [1; KINDS],
            fresh: false,
        }
    }

    /// Any profile, with at most the given number of records.
    pub fn random(random: &mut Random, most_records: u32) -> Profile {
        Profile::within(random, most_records, MOST_REGS)
    }

    /// Any profile, with at most so many records and registers.
    pub fn within(random: &mut Random, most_records: u32, most_regs: u32) -> Profile {
        let most = if random.percent(80) { most_records.min(24) } else { most_records };
        let pairs = if random.percent(30) { 0 } else { random.index(12) };
        Profile {
            settings: random_settings(random, most_regs),
            records: random.between(0, most) as usize,
            pairs,
            spaces: 3,
            cells: if random.percent(90) { random.between(1, 6) } else { random.between(7, 40) },
            labels: random.between(1, 6),
            named: random.pick(&[0, 5, 10, 50, 90]),
            extreme: random.pick(&[0, 0, 2, 20]),
            weights: random_weights(random),
            fresh: false,
        }
    }

    /// Mostly two-part records, and scalar ones that meet them: over few registers, and few cells
    /// on both sides of the fixed mark, so that locations and partners collide.
    pub fn two_part(random: &mut Random, most_records: u32) -> Profile {
        let mut weights = [0; KINDS];
        STRAIGHT.iter().for_each(|kind| weights[*kind as usize] = 1);
        [4, 5, 6, 9, 20].iter().for_each(|kind| weights[*kind] = 8);
        [7, 8].iter().for_each(|kind| weights[*kind] = random.pick(&[4, 16]));
        [10, 12, 15, 17].iter().for_each(|kind| weights[*kind] = random.below(2));
        let count_regs = random.pick(&[1, 2, 2, 3, 3, 4, 5, 8]);
        Profile {
            settings: Settings { count_regs, ..random_settings(random, MOST_REGS) },
            spaces: random.pick(&[1, 1, 2, 3]),
            cells: random.between(2, 5),
            named: random.pick(&[0, 0, 5, 20]),
            extreme: random.pick(&[0, 0, 0, 10]),
            weights,
            ..Profile::plain(random.between(1, most_records) as usize)
        }
    }

    /// Half of the records are labels, of few numbers: most of these come more than once, and some
    /// are missing.
    pub fn labelled(random: &mut Random, records: usize, most_regs: u32) -> Profile {
        let mut weights = [1; KINDS];
        [16, 17].iter().for_each(|kind| weights[*kind] = 3);
        weights[15] = weights.iter().sum();
        Profile {
            settings: random_settings(random, most_regs),
            extreme: random.pick(&[0, 0, 2, 20]),
            weights,
            ..Profile::plain(records)
        }
    }

    /// Many labels and branches of few numbers, and between them loads and saves on few cells, so
    /// that loads are found and saves dropped. Most sources are Gen registers.
    pub fn branching(random: &mut Random, most_records: u32) -> Profile {
        let mut weights = [1; KINDS];
        [5, 6].iter().for_each(|kind| weights[*kind] = random.pick(&[4, 8]));
        [7, 8].iter().for_each(|kind| weights[*kind] = random.pick(&[0, 2, 4]));
        [0, 2, 4, 9, 18].iter().for_each(|kind| weights[*kind] = random.between(1, 3));
        [15, 17].iter().for_each(|kind| weights[*kind] = random.between(8, 20));
        weights[16] = random.between(1, 4);
        let count_regs = random.pick(&[1, 2, 2, 3, 3, 4, 5, 64]);
        Profile {
            settings: Settings { count_regs, ..random_settings(random, MOST_REGS) },
            spaces: random.pick(&[1, 1, 2, 3]),
            cells: random.between(1, 6),
            labels: random.between(1, 4),
            named: random.pick(&[0, 5, 10, 30]),
            extreme: random.pick(&[0, 0, 0, 5]),
            weights,
            fresh: true,
            ..Profile::plain(random.between(most_records / 4, most_records) as usize)
        }
    }

    /// The same profile, without LoadArgs, SaveArgs and Call.
    pub fn jumping(self) -> Profile {
        self.of_kinds(&JUMPING)
    }

    /// The same profile, with straight kinds alone.
    pub fn straight(self) -> Profile {
        self.of_kinds(&STRAIGHT)
    }

    /// The same profile, with scalar straight-line kinds alone.
    pub fn scalar(self) -> Profile {
        self.of_kinds(&SCALAR)
    }

    fn of_kinds(mut self, kinds: &[u32]) -> Profile {
        for kind in 0..KINDS {
            if !kinds.contains(&(kind as u32)) {
                self.weights[kind] = 0;
            }
        }
        if self.weights.iter().all(|weight| *weight == 0) {
            kinds.iter().for_each(|kind| self.weights[*kind as usize] = 1);
        }
        self
    }
}

fn random_settings(random: &mut Random, most_regs: u32) -> Settings {
    let most = if random.percent(70) { 6 } else { most_regs };
    let count_regs = random.between(0, most);
    let small = random.between(0, 5);
    Settings {
        count_regs,
        args: if random.percent(95) { small } else { 65_535 - small },
        complex: random.percent(50),
        arm: random.percent(50),
        compress: random.percent(20),
    }
}

fn random_weights(random: &mut Random) -> [u32; KINDS] {
    let mut weights = [1; KINDS];
    match random.below(4) {
        0 => {}
        // long stretches in which locations stay known
        1 => {
            [4, 5, 6, 7, 8].iter().for_each(|kind| weights[*kind] = 20);
            [2, 3, 9, 14, 18, 20].iter().for_each(|kind| weights[*kind] = 5);
        }
        // many labels and jumps
        2 => [12, 15, 16, 17].iter().for_each(|kind| weights[*kind] = 5),
        _ => {
            weights.iter_mut().for_each(|weight| *weight = random.below(10));
            weights[random.index(KINDS)] += 1;
        }
    }
    weights
}
