//! Random lists that pass every question. Those whose name says that they are drawn may be refused
//! by 15 and 16: the stored answers have them as they are, and the others are mended from them.

use crate::kinds::{branch_if, label, load, load_const_math, load_math, save, uni, MEM, PARAM};
use crate::limits::MOST_REGS;
use crate::mended::{mended, target};
pub use crate::profile::Profile;
use crate::random::Random;
use crate::record::{Record, WORDS};
use crate::roles::{role, words_with, Role};
use crate::settings::Settings;

/// A list with its settings and the table that is lent beside it.
#[derive(Clone, Debug, PartialEq, Eq)]
pub struct List {
    pub settings: Settings,
    pub table: Vec<u32>,
    pub words: Vec<u32>,
}

impl List {
    pub fn records(&self) -> usize {
        self.words.len() / WORDS
    }

    pub fn record(&self, at: usize) -> &[u32] {
        &self.words[at * WORDS..(at + 1) * WORDS]
    }

    pub fn record_mut(&mut self, at: usize) -> &mut [u32] {
        &mut self.words[at * WORDS..(at + 1) * WORDS]
    }

    /// The numbers in the list's Label records, in order.
    pub fn labels(&self) -> Vec<u32> {
        let labels = self.words.chunks_exact(WORDS).filter(|record| record[0] == 15);
        labels.map(|record| record[1]).collect()
    }

    /// The same list with every location so many cells further up, or round past the last one: the
    /// distinct stay distinct, and neighbours neighbours. No two-part record may come to the last
    /// cell, which has no partner.
    pub fn moved_up(mut self, by: u32) -> List {
        let move_up = |index: &mut u32| *index = index.wrapping_add(by);
        self.table.chunks_exact_mut(2).for_each(|pair| move_up(&mut pair[1]));
        let is_index = |role| matches!(role, Role::Index | Role::PartnerIndex);
        for record in self.words.chunks_exact_mut(WORDS) {
            words_with(record[0], is_index).iter().for_each(|word| move_up(&mut record[*word]));
        }
        self
    }
}

/// The most registers of a list whose `used_registers` the original can tell: its mask has 32 bits.
pub const USED_REGS: u32 = 32;

/// A list of the profile.
pub fn list(random: &mut Random, profile: &Profile) -> List {
    mended(drawn(random, profile))
}

/// The same as it is drawn. Every Gen that it reads was written since the last Label or Call.
pub fn drawn(random: &mut Random, profile: &Profile) -> List {
    let mut generator = Generator { random, profile, has_static: 0 };
    let mut table = Vec::new();
    for _ in 0..profile.pairs {
        let (space, index) = generator.cell();
        table.extend([space, index]);
    }
    let words = generator.records();
    List { settings: profile.settings, table, words }
}

/// A list of any profile, one in four of scalar straight-line kinds.
pub fn any_list(random: &mut Random, most_records: u32) -> List {
    mended(any_drawn(random, most_records))
}

/// The same as it is drawn.
pub fn any_drawn(random: &mut Random, most_records: u32) -> List {
    let profile = Profile::random(random, most_records);
    any_drawn_of(random, profile)
}

/// The same, of no more registers than the original's `used_registers` can tell.
pub fn narrow_list(random: &mut Random, most_records: u32) -> List {
    mended(drawn_narrow(random, most_records))
}

/// The same as it is drawn.
pub fn drawn_narrow(random: &mut Random, most_records: u32) -> List {
    let profile = Profile::within(random, most_records, USED_REGS);
    any_drawn_of(random, profile)
}

/// A list of any profile, but with more registers than that.
pub fn wide_list(random: &mut Random, most_records: u32) -> List {
    mended(drawn_wide(random, most_records))
}

/// The same as it is drawn.
pub fn drawn_wide(random: &mut Random, most_records: u32) -> List {
    let mut profile = Profile::random(random, most_records);
    profile.settings.count_regs = random.between(USED_REGS + 1, MOST_REGS);
    drawn(random, &profile)
}

fn any_drawn_of(random: &mut Random, profile: Profile) -> List {
    let profile = if random.percent(25) { profile.scalar() } else { profile };
    drawn(random, &profile)
}

/// A list with every one of its registers live at once. Each is loaded from a cell of its own, then
/// come up to `most` scalar records, and in the end each is saved.
pub fn all_live_list(random: &mut Random, count_regs: u32, most: u32) -> List {
    let mut between = Profile::within(random, most, count_regs).scalar();
    between.settings.count_regs = count_regs;
    let mut order: Vec<u32> = (0..count_regs).collect();
    let has_static = order.iter().fold(0, |statics, register| statics | 1u64 << register);
    shuffle(random, &mut order);
    let loads = order.iter().flat_map(|register| load(*register, MEM, 100 + register));
    let mut words: Vec<u32> = loads.collect();
    words.extend(Generator { random, profile: &between, has_static }.records());
    shuffle(random, &mut order);
    words.extend(order.iter().flat_map(|register| save(*register, PARAM, *register)));
    List { settings: between.settings, table: Vec::new(), words }
}

fn shuffle(random: &mut Random, order: &mut [u32]) {
    for at in 1..order.len() {
        order.swap(at, random.index(at + 1));
    }
}

/// A list of mostly two-part records.
pub fn two_part_list(random: &mut Random, most_records: u32) -> List {
    let profile = Profile::two_part(random, most_records);
    list(random, &profile)
}

/// A list of many labels with few numbers, as it is drawn: some branches have no Label.
pub fn drawn_labelled(random: &mut Random, most_records: u32) -> List {
    let records = random.between(1, most_records) as usize;
    let profile = Profile::labelled(random, records, MOST_REGS);
    drawn(random, &profile)
}

/// Numbers of labels, at the ends of some ranges and others. Times 2,654,435,761, as tables of
/// numbers often have it, 0 and the last two differ in their low bits alone.
const NUMBERS: [u32; 11] = [
    0,
    1,
    7,
    65_535,
    65_536,
    1 << 31,
    u32::MAX - 1,
    u32::MAX,
    0x7fff_ffff,
    244_002_641,
    488_005_282,
];

/// A list of many labels and branches that the machine with jumps runs: of all kinds but LoadArgs,
/// SaveArgs and Call.
pub fn branch_list(random: &mut Random, most_records: u32) -> List {
    let profile = Profile::branching(random, most_records).jumping();
    numbered_list(random, &profile)
}

/// A list of many labels and branches, of all kinds.
pub fn any_branch_list(random: &mut Random, most_records: u32) -> List {
    let profile = Profile::branching(random, most_records);
    numbered_list(random, &profile)
}

/// A list of the profile, with other numbers for its labels; two of them may become one. It has a
/// Label, at its end if none was drawn, and a branch, at its start.
fn numbered_list(random: &mut Random, profile: &Profile) -> List {
    let mut list = drawn(random, profile);
    let number = |random: &mut Random| match random.percent(90) {
        true => random.pick(&NUMBERS),
        false => random.word(),
    };
    let numbers: Vec<u32> = (0..profile.labels).map(|_| number(random)).collect();
    for record in list.words.chunks_exact_mut(WORDS) {
        for word in words_with(record[0], |role| role == Role::Label) {
            record[word] = numbers.get(record[word] as usize).copied().unwrap_or(record[word]);
        }
    }
    if list.labels().is_empty() {
        list.words.extend(label(numbers[0]));
    }
    if !list.words.chunks_exact(WORDS).any(|record| target(record[0]).is_some()) {
        let to = random.pick(&list.labels());
        list.words.splice(0..0, branch_if(random.between(256, 259), to, random.below(2)));
    }
    mended(list)
}

struct Generator<'a> {
    random: &'a mut Random,
    profile: &'a Profile,
    /// One bit for each Gen register that may be read.
    has_static: u64,
}

impl Generator<'_> {
    fn records(&mut self) -> Vec<u32> {
        let mut words = Vec::with_capacity(self.profile.records * WORDS);
        while words.len() < self.profile.records * WORDS {
            if self.profile.fresh {
                self.fresh_records(&mut words);
            } else {
                let kind = self.kind();
                words.extend(self.record(kind));
            }
        }
        words
    }

    /// A load or a constant where no register may be read, three times in four; and three of four
    /// BranchIf go by a cell that is changed just before, so that many a loop ends.
    fn fresh_records(&mut self, words: &mut Vec<u32>) {
        if self.has_static == 0 && self.random.percent(75) {
            let kind = self.random.pick(&[5, 5, 5, 9]);
            return words.extend(self.record(kind));
        }
        match self.kind() {
            17 if self.random.percent(75) => {
                let records = self.changed_and_asked();
                words.extend(records.as_flattened());
            }
            kind => words.extend(self.record(kind)),
        }
    }

    /// A cell is loaded, changed and saved, and then decides.
    fn changed_and_asked(&mut self) -> [Record; 4] {
        let (register, (space, index)) = (self.destination(), self.cell());
        let (op, constant) = (self.random.below(4), self.any());
        let change = match self.random.below(3) {
            0 => uni(op, register, register),
            1 => load_math(op, register, register, space, index),
            _ => load_const_math(op, register, register, constant),
        };
        let asked = branch_if(register, self.label(), self.random.below(2));
        let records = [load(register, space, index), change, save(register, space, index), asked];
        records.iter().for_each(|record| self.rename(record));
        records
    }

    fn kind(&mut self) -> u32 {
        let mut left = self.random.below(self.profile.weights.iter().sum());
        for (kind, weight) in self.profile.weights.iter().enumerate() {
            if left < *weight {
                return kind as u32;
            }
            left -= weight;
        }
        unreachable!("the weights' sum is above every number drawn")
    }

    fn record(&mut self, kind: u32) -> Record {
        let mut record = [0; WORDS];
        record[0] = kind;
        let (space, index) = self.cell();
        let (first, count) = self.span();
        for (word, value) in record.iter_mut().enumerate().skip(1) {
            *value = match role(kind, word) {
                Role::Op(ops) => self.random.below(ops),
                Role::Source => self.source(),
                Role::Destination => self.destination(),
                Role::Space => space,
                Role::Index => index,
                Role::PartnerIndex => index.min(u32::MAX - 1),
                Role::First => first,
                Role::Count => count,
                Role::Flag => self.random.below(2),
                Role::Byte => self.random.below(256),
                Role::Label => self.label(),
                Role::Any => self.any(),
                Role::Unused => 0,
            };
        }
        self.rename(&record);
        record
    }

    fn rename(&mut self, record: &Record) {
        self.has_static = match self.profile.fresh {
            true => fresh_after(record, self.has_static),
            false => statics_after(record, self.has_static),
        };
    }

    fn named(&mut self) -> u32 {
        self.random.between(256, 259)
    }

    fn source(&mut self) -> u32 {
        if self.has_static == 0 || self.random.percent(self.profile.named) {
            return self.named();
        }
        nth(self.has_static, self.random.below(self.has_static.count_ones()))
    }

    fn destination(&mut self) -> u32 {
        let count_regs = self.profile.settings.count_regs;
        if count_regs == 0 || self.random.percent(self.profile.named) {
            return self.named();
        }
        self.random.below(count_regs)
    }

    fn cell(&mut self) -> (u32, u32) {
        let space = self.random.below(self.profile.spaces);
        if self.random.percent(self.profile.extreme) {
            return (space, self.random.pick(&[0, u32::MAX - 2, u32::MAX - 1, u32::MAX]));
        }
        let low = match space {
            0 => self.profile.settings.fixed_mark().saturating_sub(self.profile.cells / 2),
            _ => 0,
        };
        (space, low + self.random.below(self.profile.cells))
    }

    fn span(&mut self) -> (u32, u32) {
        let pairs = self.profile.pairs as u32;
        let first = self.random.between(0, pairs);
        (first, self.random.between(0, (pairs - first).min(8)))
    }

    fn label(&mut self) -> u32 {
        if self.random.percent(self.profile.extreme) {
            return self.random.pick(&[0, u32::MAX - 1, u32::MAX]);
        }
        self.random.below(self.profile.labels)
    }

    fn any(&mut self) -> u32 {
        if self.random.percent(self.profile.extreme) {
            return self.random.pick(&[0, u32::MAX - 1, u32::MAX]);
        }
        self.random.below(8)
    }
}

/// The Gen registers that have a static after a record, given those that had one before it.
pub fn statics_after(record: &[u32], before: u64) -> u64 {
    let forgets = record[0] == 12 || record[0] == 15;
    let mut after = if forgets { 0 } else { before };
    for word in 1..WORDS {
        if role(record[0], word) == Role::Destination && record[word] < MOST_REGS {
            after |= 1 << record[word];
        }
    }
    after
}

/// The same of those that were written since the last BranchIf too.
pub fn fresh_after(record: &[u32], before: u64) -> u64 {
    match record[0] {
        17 => 0,
        _ => statics_after(record, before),
    }
}

/// The bit of the mask that has so many set ones below it.
pub fn nth(mut mask: u64, below: u32) -> u32 {
    for _ in 0..below {
        mask &= mask - 1;
    }
    mask.trailing_zeros()
}
