//! Steps as they lie in memory.

use peer::{Step, Submission};

/// One step: kind 0 to 5 is Publish, Fetch, Grant, Block, Post, Reap; `number` is its queue or ticket. A Publish has
/// `count` entries, from `at` on: 64 bytes each, and then `first` or `second` bytes of data.
#[derive(Clone, Copy, Debug)]
pub struct Asked {
    pub kind: u32,
    pub count: u32,
    pub number: u64,
    pub at: usize,
    pub first: usize,
    pub second: usize,
}

fn submission_at(bytes: &[u8], at: usize, length: usize) -> Option<Submission> {
    let rest = bytes.get(at..)?;
    let entry = rest.get(..64)?.try_into().ok()?;
    let payload = rest.get(64..)?.get(..length)?.to_vec();
    Some(Submission { entry, payload })
}

pub fn step_of(bytes: &[u8], asked: &Asked) -> Option<Step> {
    let queue = (asked.number % 65_536) as u16;
    Some(match asked.kind {
        0 => {
            let mut batch = Vec::with_capacity(2);
            if asked.count > 0 {
                batch.push(submission_at(bytes, asked.at, asked.first)?);
            }
            if asked.count > 1 {
                batch.push(submission_at(bytes, asked.at + 64 + asked.first, asked.second)?);
            }
            Step::Publish(queue, batch)
        }
        1 => Step::Fetch(queue),
        2 => Step::Grant(asked.number),
        3 => Step::Block(asked.number),
        4 => Step::Post(asked.number),
        _ => Step::Reap(queue),
    })
}
