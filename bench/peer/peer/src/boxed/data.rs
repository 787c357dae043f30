//! The volume with each block in a box of its own, and the data of tickets.

use crate::model::{BLOCK, Entry, Op, Submission};

/// What a ring holds of a published entry: a copy.
pub type Waiting = Submission;

/// What a ring holds of a batch whose Publish is to stand at this place of the history.
#[inline]
pub fn waiting(batch: &[Submission], _publish: usize) -> impl Iterator<Item = Waiting> {
    batch.iter().cloned()
}

/// The entry that waits.
#[inline]
pub fn submission<'a>(_history: &'a [Entry], waiting: &'a Waiting) -> &'a Submission {
    waiting
}

type Block = Box<[u8; BLOCK]>;

// By way of a slice, which is copied straight into its box.
fn boxed(bytes: Box<[u8]>) -> Block {
    bytes.try_into().expect("a block")
}

/// What a ticket compares with, and a box for each block that it writes, allocated at its Fetch and freed at its end.
#[derive(Default)]
pub struct Data {
    compare: Vec<u8>,
    write: Vec<Block>,
}

fn boxes(payload: &[u8]) -> Vec<Block> {
    payload.chunks_exact(BLOCK).map(|block| boxed(block.into())).collect()
}

impl Data {
    #[inline]
    pub fn new(op: Option<Op>, first: Waiting, second: Option<Waiting>) -> Data {
        match (op, second) {
            (Some(Op::Pair), Some(second)) => Data { compare: first.payload, write: boxes(&second.payload) },
            (Some(Op::Compare), _) => Data { compare: first.payload, write: Vec::new() },
            (Some(Op::Write), _) => Data { compare: Vec::new(), write: boxes(&first.payload) },
            _ => Data::default(),
        }
    }

    /// The block that is compared at this place.
    #[inline]
    pub fn compared<'a>(&'a self, place: usize, _history: &'a [Entry]) -> &'a [u8] {
        &self.compare[BLOCK * place..][..BLOCK]
    }
}

pub struct Volume(Vec<Block>);

impl Volume {
    pub fn new(blocks: u32) -> Volume {
        Volume((0..blocks).map(|_| boxed(vec![0; BLOCK].into())).collect())
    }

    #[inline]
    pub fn block(&self, lba: u64) -> &[u8] {
        &self.0[lba as usize][..]
    }

    #[inline]
    pub fn clear(&mut self, lba: u64) {
        self.0[lba as usize].fill(0);
    }

    /// Swaps in what stands at this place of the data, which then has what the volume had.
    #[inline(always)]
    pub fn write(&mut self, lba: u64, data: &mut Data, place: usize, _history: &[Entry]) {
        std::mem::swap(&mut self.0[lba as usize], &mut data.write[place]);
    }
}
