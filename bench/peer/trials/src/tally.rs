//! How many refusals were tried, and how many went wrong.

use crate::program::{Ended, Program};
use std::fmt;
use std::sync::atomic::{AtomicU64, Ordering::Relaxed};

/// The program's status for want of memory.
pub const NO_MEMORY: i32 = 4;

/// What all threads count together.
#[derive(Default)]
pub struct Tally {
    pub tried: AtomicU64,
    pub wrong: AtomicU64,
}

impl Tally {
    /// Counts what was tried, so many refusals, and says of what isn't right which it is.
    pub fn see(&self, which: fmt::Arguments, refusals: u64, is_right: bool) {
        self.tried.fetch_add(refusals, Relaxed);
        if !is_right {
            self.wrong.fetch_add(1, Relaxed);
            println!("{which}: wrong");
        }
    }
}

/// The programs with a folder of one thread's own, and the tally of all.
pub struct Bench<'a> {
    pub casdisk: Program,
    pub runs: Program,
    pub tally: &'a Tally,
}

/// It ended for want of memory and says so, and it gave all back.
pub fn is_told(ended: &Ended) -> bool {
    ended.status == NO_MEMORY && ended.words == b"no memory\n" && ended.held == 0
}

/// And what it wrote is a beginning of the text.
pub fn is_told_early(ended: &Ended, text: &[u8]) -> bool {
    is_told(ended) && text.starts_with(&ended.output)
}
