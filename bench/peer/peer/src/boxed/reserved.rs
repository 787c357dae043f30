//! The ranges of open units, by their first block, so that a conflict is found by binary search.

use crate::model::{Mode, Range};

struct Held {
    range: Range,
    ticket: u64,
    mode: Mode,
}

pub struct Reserved {
    held: Vec<Held>,
    // no range was ever longer
    longest: u64,
}

impl Reserved {
    pub fn new(_blocks: u32) -> Reserved {
        Reserved { held: Vec::new(), longest: 0 }
    }

    /// Whether a range that is held shares a block with this one, and one of the two is exclusive.
    pub fn conflicts(&self, range: Range, mode: Mode) -> bool {
        let lowest = (range.slba + 1).saturating_sub(self.longest);
        let first = self.held.partition_point(|held| held.range.slba < lowest);
        self.held[first..]
            .iter()
            .take_while(|held| held.range.slba < range.end())
            .any(|held| held.range.end() > range.slba && (mode == Mode::Exclusive || held.mode == Mode::Exclusive))
    }

    pub fn hold(&mut self, ticket: u64, range: Range, mode: Mode) {
        let place = self.held.partition_point(|held| (held.range.slba, held.ticket) < (range.slba, ticket));
        self.held.insert(place, Held { range, ticket, mode });
        self.longest = self.longest.max(u64::from(range.blocks));
    }

    pub fn release(&mut self, ticket: u64, range: Range, _mode: Mode) {
        if let Ok(place) = self.held.binary_search_by_key(&(range.slba, ticket), |held| (held.range.slba, held.ticket)) {
            self.held.remove(place);
        }
    }
}
