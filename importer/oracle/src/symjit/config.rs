// Carried over from symjit, repository siravan/symjit at ee8b609e48, file rust/config.rs.
// MIT licence, see NOTICE. Kept: the settings that the allocator and `used_registers` ask for.

use super::runnable::CompilerType;

pub const COMPLEX: u32 = 0x0000_0020;

pub const COMPRESS: u32 = 0x0000_2000;

pub const SPILL_AREA: usize = 16;

#[derive(Clone)]
pub struct Config {
    pub opt: u32,
    pub ty: CompilerType,
    pub args: u32,
}

impl Config {
    fn test(&self, mask: u32) -> bool {
        self.opt & mask != 0
    }

    pub fn is_arm64(&self) -> bool {
        (matches!(self.ty, CompilerType::Native) && cfg!(target_arch = "aarch64"))
            || matches!(self.ty, CompilerType::Arm)
    }

    pub fn compress(&self) -> bool {
        self.test(COMPRESS)
    }

    pub fn num_args(&self) -> u32 {
        self.args
    }

    pub fn is_complex(&self) -> bool {
        self.test(COMPLEX)
    }

    pub fn fixed(&self) -> u32 {
        if self.is_complex() {
            2 * self.num_args() + SPILL_AREA as u32
        } else {
            self.num_args() + SPILL_AREA as u32
        }
    }
}
