//! All that can matter of a history for what may follow it.

use peer::{Mode, Op, Status};
use std::hash::{BuildHasherDefault, Hasher};

pub const MOST_BLOCKS: usize = 4;
pub const MOST_IN_FLIGHT: usize = 4;
pub const MOST_QUEUES: usize = 2;

/// The unit that is open. Bit k is for its k-th block.
#[derive(Clone, Copy, Debug, Default, PartialEq, Eq, Hash)]
pub struct Open {
    pub slba: u8,
    pub blocks: u8,
    pub made: u8,
    pub said_equal: u8,
    pub has_effect: bool,
    pub equal: u8,
}

/// A ticket in flight.
#[derive(Clone, Copy, Debug, Default, PartialEq, Eq, Hash)]
pub struct Flight {
    pub queue: u8,
    /// The number of its first entry, and how many it has.
    pub first: u8,
    pub taken: u8,
    pub posted: u8,
    pub failed: Option<[Status; 2]>,
    /// What it does with its blocks.
    pub op: Option<Op>,
    /// The blocks that no unit was granted for yet.
    pub next: u8,
    pub left: u8,
    pub granted: u8,
    pub effects: u8,
    pub said_no: bool,
    pub differed: bool,
    pub open: Option<Open>,
    /// What it read, by its blocks.
    pub read: [u8; MOST_BLOCKS],
}

impl Flight {
    pub fn compares(&self) -> bool {
        self.op.is_some_and(Op::compares)
    }

    pub fn writes(&self) -> bool {
        self.op.is_some_and(|op| op.mode() == Mode::Exclusive)
    }
}

#[derive(Clone, Copy, Debug, Default, PartialEq, Eq, Hash)]
pub struct State {
    /// How many lines of the trace were taken.
    pub at: u8,
    /// By submission queue, and by completion queue.
    pub fetched: [u8; MOST_QUEUES],
    pub posted: [u8; MOST_QUEUES],
    pub values: [u8; MOST_BLOCKS],
    /// The tickets in flight, in the order of their entries, and how many they are.
    pub flights: [Flight; MOST_IN_FLIGHT],
    pub count: u8,
}

impl State {
    pub fn flights(&self) -> &[Flight] {
        &self.flights[..usize::from(self.count)]
    }

    pub fn add(&mut self, flight: Flight) {
        let count = usize::from(self.count);
        let place = self.flights().iter().take_while(|other| (other.queue, other.first) < (flight.queue, flight.first)).count();
        self.flights.copy_within(place..count, place + 1);
        self.flights[place] = flight;
        self.count += 1;
    }

    pub fn remove(&mut self, place: usize) {
        let count = usize::from(self.count);
        self.flights.copy_within(place + 1..count, place);
        self.flights[count - 1] = Flight::default();
        self.count -= 1;
    }
}

/// A quick hash.
#[derive(Default)]
pub struct Quick(u64);

impl Hasher for Quick {
    fn finish(&self) -> u64 {
        self.0 ^ self.0 >> 29
    }

    fn write(&mut self, bytes: &[u8]) {
        for part in bytes.chunks(8) {
            let mut word = [0; 8];
            word[..part.len()].copy_from_slice(part);
            self.write_u64(u64::from_le_bytes(word));
        }
    }

    fn write_u8(&mut self, byte: u8) {
        self.write_u64(u64::from(byte));
    }

    fn write_u64(&mut self, word: u64) {
        self.0 = (self.0.rotate_left(5) ^ word).wrapping_mul(0x9E37_79B9_7F4A_7C15);
    }

    fn write_usize(&mut self, word: usize) {
        self.write_u64(word as u64);
    }
}

pub type Hashes = BuildHasherDefault<Quick>;
