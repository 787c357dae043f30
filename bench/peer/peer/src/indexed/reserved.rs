//! The blocks of open units: a number for each block of the volume.

use crate::model::{Mode, Range};

/// The number of a block that one unit has for itself; below it a number counts units that share the block.
const EXCLUSIVE: u32 = 1 << 31;

pub struct Reserved {
    holders: Vec<u32>,
}

impl Reserved {
    pub fn new(blocks: u32) -> Reserved {
        Reserved { holders: vec![0; blocks as usize] }
    }

    fn of_mut(&mut self, range: Range) -> &mut [u32] {
        &mut self.holders[range.slba as usize..][..range.blocks as usize]
    }

    /// Whether a unit that is open shares a block with this range, and one of the two is exclusive.
    #[inline]
    pub fn conflicts(&self, range: Range, mode: Mode) -> bool {
        let holders = &self.holders[range.slba as usize..][..range.blocks as usize];
        let all = holders.iter().fold(0, |all, one| all | one);
        match mode {
            Mode::Exclusive => all != 0,
            Mode::Shared => all & EXCLUSIVE != 0,
        }
    }

    #[inline]
    pub fn hold(&mut self, _ticket: u64, range: Range, mode: Mode) {
        for holder in self.of_mut(range) {
            match mode {
                Mode::Exclusive => *holder = EXCLUSIVE,
                Mode::Shared => *holder += 1,
            }
        }
    }

    #[inline]
    pub fn release(&mut self, _ticket: u64, range: Range, mode: Mode) {
        for holder in self.of_mut(range) {
            match mode {
                Mode::Exclusive => *holder = 0,
                Mode::Shared => *holder -= 1,
            }
        }
    }
}
