//! Traces with one thing changed.

use crate::trace::{Line, Trace};
use peer::BLOCK;
use trials::lists::Random;

/// What may be done to a trace.
#[derive(Clone, Copy, Debug, PartialEq, Eq)]
pub enum Change {
    Nothing,
    Status,
    Data,
    Head,
    Phase,
    Cid,
    Field,
    Entry,
    Swapped,
    LeftOut,
    Doubled,
    Moved,
    Several,
}

impl Change {
    pub const ALL: [Change; 13] = [
        Change::Nothing,
        Change::Status,
        Change::Data,
        Change::Head,
        Change::Phase,
        Change::Cid,
        Change::Field,
        Change::Entry,
        Change::Swapped,
        Change::LeftOut,
        Change::Doubled,
        Change::Moved,
        Change::Several,
    ];

    pub fn name(self) -> &'static str {
        match self {
            Change::Nothing => "as it is",
            Change::Status => "another status",
            Change::Data => "other data of a completion",
            Change::Head => "another SQHD",
            Change::Phase => "the other phase tag",
            Change::Cid => "another CID of a completion",
            Change::Field => "another byte of a completion, or another queue",
            Change::Entry => "an entry or its data changed",
            Change::Swapped => "two completions swapped, their phase tags kept",
            Change::LeftOut => "a line left out",
            Change::Doubled => "a line doubled",
            Change::Moved => "a line moved",
            Change::Several => "two of these",
        }
    }
}

const STATUSES: [(u8, u8); 8] = [(0, 0), (0, 0), (2, 0x85), (2, 0x85), (0, 0x09), (0, 0x0A), (0, 0x03), (0, 0x80)];

// The places of the completions.
fn reaps(trace: &Trace) -> Vec<usize> {
    (0..trace.lines.len()).filter(|place| matches!(trace.lines[*place], Line::Reap(..))).collect()
}

fn one_of(places: &[usize], random: &Random) -> Option<usize> {
    (!places.is_empty()).then(|| places[random.up_to(places.len() as u64) as usize])
}

// Other data of as many blocks, or of another number.
fn change_data(data: &mut Vec<u8>, random: &Random) {
    if data.is_empty() || random.one_in(6) {
        data.resize(BLOCK * random.up_to(3) as usize, 0);
    }
    let blocks = data.len() / BLOCK;
    if blocks > 0 {
        let place = random.up_to(blocks as u64) as usize;
        data[BLOCK * place..][..BLOCK].fill([0, 0xA1, 0xB2, 0xC3, 1 + random.up_to(28) as u8][random.up_to(5) as usize]);
    }
}

fn change_completion(cqe: &mut [u8; 16], data: &mut Vec<u8>, change: Change, most: u64, random: &Random) {
    match change {
        Change::Status => {
            let (sct, sc) = STATUSES[random.up_to(8) as usize];
            let word = u16::from(cqe[14] & 1) | u16::from(sc) << 1 | u16::from(sct) << 9;
            cqe[14..].copy_from_slice(&word.to_le_bytes());
            if word > 1 {
                data.clear();
            }
        }
        Change::Data => change_data(data, random),
        Change::Head => cqe[8] = random.up_to(most + 1) as u8,
        Change::Phase => cqe[14] ^= 1,
        Change::Cid => cqe[12] = if random.one_in(2) { random.up_to(3) } else { 0x10 + random.up_to(7) } as u8,
        _ => cqe[random.up_to(16) as usize] = random.up_to(4) as u8,
    }
}

fn change_entry(trace: &mut Trace, random: &Random) {
    let places: Vec<usize> = (0..trace.lines.len()).filter(|place| !reaps(trace).contains(place)).collect();
    let Some(Line::Publish(queue, batch)) = one_of(&places, random).map(|place| &mut trace.lines[place]) else { return };
    let count = batch.len() as u64;
    let submission = &mut batch[random.up_to(count) as usize];
    match random.up_to(5) {
        0 | 1 => change_data(&mut submission.payload, random),
        2 => submission.entry[40] = random.up_to(4) as u8,
        3 => submission.entry[random.up_to(4) as usize] = random.up_to(6) as u8,
        _ => *queue = random.up_to(3) as u16,
    }
}

// Two completions change places, but for their phase tags.
fn swap(lines: &mut [Line], one: usize, other: usize) {
    let tag = |line: &Line| if let Line::Reap(_, cqe, _) = line { cqe[14] & 1 } else { 0 };
    let tags = [tag(&lines[one]), tag(&lines[other])];
    lines.swap(one, other);
    for (place, tag) in [one, other].into_iter().zip(tags) {
        if let Line::Reap(_, cqe, _) = &mut lines[place] {
            cqe[14] = cqe[14] & !1 | tag;
        }
    }
}

/// Changes a trace in this way, where it has what is to be changed.
pub fn change(trace: &mut Trace, change_by: Change, random: &Random) {
    let most = u64::from(trace.config.sq_size);
    let count = trace.lines.len() as u64;
    if count == 0 {
        return;
    }
    let any = random.up_to(count) as usize;
    match change_by {
        Change::Nothing => {}
        Change::Several => {
            for _ in 0..2 {
                change(trace, Change::ALL[1 + random.up_to(11) as usize], random);
            }
        }
        Change::Entry => change_entry(trace, random),
        Change::LeftOut => drop(trace.lines.remove(any)),
        Change::Doubled => trace.lines.insert(any, trace.lines[any].clone()),
        Change::Moved => {
            let line = trace.lines.remove(any);
            trace.lines.insert(random.up_to(count) as usize, line);
        }
        Change::Swapped => {
            let places = reaps(trace);
            if let (Some(one), Some(other)) = (one_of(&places, random), one_of(&places, random)) {
                swap(&mut trace.lines, one, other);
            }
        }
        _ => {
            if let Some(Line::Reap(queue, cqe, data)) = one_of(&reaps(trace), random).map(|place| &mut trace.lines[place]) {
                if change_by == Change::Field && random.one_in(8) {
                    *queue = random.up_to(4) as u16;
                }
                change_completion(cqe, data, change_by, most, random);
            }
        }
    }
}
