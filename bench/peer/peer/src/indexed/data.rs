//! The volume as one piece of bytes, and the data of tickets, which lies in the history alone.

use crate::model::{BLOCK, Entry, Op, Submission};

/// What a ring holds of a published entry: the place of its Publish in the history, and its own place in that batch.
#[derive(Clone, Copy)]
pub struct Waiting {
    pub publish: usize,
    pub place: usize,
}

/// What a ring holds of a batch whose Publish is to stand at this place of the history.
#[inline]
pub fn waiting(batch: &[Submission], publish: usize) -> impl Iterator<Item = Waiting> {
    (0..batch.len()).map(move |place| Waiting { publish, place })
}

/// The entry that waits.
#[inline]
pub fn submission<'a>(history: &'a [Entry], at: &'a Waiting) -> &'a Submission {
    match &history[at.publish] {
        Entry::Publish { batch, .. } => &batch[at.place],
        _ => unreachable!("a ring points at what was published"),
    }
}

/// Where the entries are whose data a ticket compares with and writes.
pub struct Data {
    compare: Waiting,
    write: Waiting,
}

#[inline]
fn block_at<'a>(history: &'a [Entry], at: &'a Waiting, place: usize) -> &'a [u8] {
    &submission(history, at).payload[BLOCK * place..][..BLOCK]
}

impl Data {
    #[inline]
    pub fn new(_op: Option<Op>, first: Waiting, second: Option<Waiting>) -> Data {
        Data { compare: first, write: second.unwrap_or(first) }
    }

    /// The block that is compared at this place.
    #[inline]
    pub fn compared<'a>(&'a self, place: usize, history: &'a [Entry]) -> &'a [u8] {
        block_at(history, &self.compare, place)
    }
}

pub struct Volume(Vec<u8>);

impl Volume {
    pub fn new(blocks: u32) -> Volume {
        Volume(vec![0; BLOCK * blocks as usize])
    }

    #[inline]
    pub fn block(&self, lba: u64) -> &[u8] {
        &self.0[BLOCK * lba as usize..][..BLOCK]
    }

    #[inline]
    fn block_mut(&mut self, lba: u64) -> &mut [u8] {
        &mut self.0[BLOCK * lba as usize..][..BLOCK]
    }

    #[inline]
    pub fn clear(&mut self, lba: u64) {
        self.block_mut(lba).fill(0);
    }

    /// Copies what stands at this place of the data.
    #[inline(always)]
    pub fn write(&mut self, lba: u64, data: &mut Data, place: usize, history: &[Entry]) {
        self.block_mut(lba).copy_from_slice(block_at(history, &data.write, place));
    }
}
