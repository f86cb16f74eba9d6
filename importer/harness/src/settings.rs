//! The five settings of a list.

use oracle::{CompilerType, Config, COMPLEX, COMPRESS};

use crate::random::Random;

#[derive(Clone, Copy, Debug, Default, PartialEq, Eq)]
pub struct Settings {
    pub count_regs: u32,
    pub args: u32,
    pub complex: bool,
    pub arm: bool,
    pub compress: bool,
}

/// The word of a flag that is set: any but 0.
pub fn set_flag(random: &mut Random) -> u32 {
    random.pick(&[1, 2, 256, 1 << 31, u32::MAX])
}

impl Settings {
    /// Stack cells from this index on are the allocator's own.
    pub fn fixed_mark(&self) -> u32 {
        let slots = if self.complex { 2 } else { 1 };
        slots * self.args + 16
    }

    /// The five words, in their order; `set` stands for a flag that is set, and is not 0.
    pub fn words(&self, set: u32) -> [u32; 5] {
        let flags = [self.complex, self.arm, self.compress];
        let [complex, arm, compress] = flags.map(|flag| if flag { set } else { 0 });
        [self.count_regs, self.args, complex, arm, compress]
    }

    /// The settings that five words stand for.
    pub fn from_words([count_regs, args, complex, arm, compress]: [u32; 5]) -> Settings {
        let [complex, arm, compress] = [complex, arm, compress].map(|word| word != 0);
        Settings { count_regs, args, complex, arm, compress }
    }

    /// The same settings, as the original has them.
    pub fn config(&self) -> Config {
        let complex = if self.complex { COMPLEX } else { 0 };
        let compress = if self.compress { COMPRESS } else { 0 };
        let ty = if self.arm { CompilerType::Arm } else { CompilerType::Amd };
        Config { opt: complex | compress, ty, args: self.args }
    }
}
