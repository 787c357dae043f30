//! What is kept of a ticket in flight.

use crate::model::{COMPARE_FAILURE, FAILED_FUSED, Op, Range, SUCCESS, Status};
use crate::parts::Data;

/// The unit that is open.
#[derive(Clone, Copy)]
pub struct Unit {
    pub range: Range,
    pub made: u32,
}

pub struct Job {
    pub queue: u16,
    pub cids: [u16; 2],
    /// How many commands it has, 1 or 2, and how many completions are posted.
    pub commands: u8,
    pub posted: u8,
    /// What it does; nothing for a Flush and where its checks failed.
    pub op: Option<Op>,
    pub slba: u64,
    /// The blocks that no unit has had yet; none after a difference.
    pub left: Range,
    pub opened: u64,
    pub open: Option<Unit>,
    /// The statuses of its commands, once they are owed.
    pub owed: Option<[Status; 2]>,
    pub data: Data,
    pub read: Vec<u8>,
}

impl Job {
    pub fn differ(&mut self) {
        self.left.blocks = 0;
        self.owed = Some([COMPARE_FAILURE, FAILED_FUSED]);
    }

    pub fn succeed(&mut self) {
        self.owed = Some([SUCCESS; 2]);
    }
}
