//! The tickets in flight: slots, found by a hash of the ticket, and linked by rising ticket.

/// The link of a slot with no other on that side.
const NONE: usize = usize::MAX;

struct Slot<J> {
    ticket: u64,
    before: usize,
    next: usize,
    job: Option<J>,
}

/// Jobs by their tickets.
pub struct Jobs<J> {
    slots: Vec<Slot<J>>,
    free: Vec<usize>,
    /// Slots by the hash of their tickets, the first free place from there on; 0 is none, and 1 is slot 0.
    table: Vec<u32>,
    first: usize,
    last: usize,
}

impl<J> Jobs<J> {
    pub fn new(limit: usize) -> Jobs<J> {
        let empty = || Slot { ticket: 0, before: NONE, next: NONE, job: None };
        Jobs {
            slots: (0..limit).map(|_| empty()).collect(),
            free: (0..limit).rev().collect(),
            table: vec![0; (4 * limit).next_power_of_two()],
            first: NONE,
            last: NONE,
        }
    }

    pub fn is_full(&self) -> bool {
        self.free.is_empty()
    }

    #[inline]
    fn home(&self, ticket: u64) -> usize {
        (ticket.wrapping_mul(0x9E37_79B9_7F4A_7C15) >> 40) as usize & (self.table.len() - 1)
    }

    #[inline]
    fn after(&self, place: usize) -> usize {
        (place + 1) & (self.table.len() - 1)
    }

    // The place of a ticket in the table.
    #[inline]
    fn place(&self, ticket: u64) -> Option<usize> {
        let mut place = self.home(ticket);
        loop {
            match self.table[place] {
                0 => return None,
                slot if self.slots[slot as usize - 1].ticket == ticket => return Some(place),
                _ => place = self.after(place),
            }
        }
    }

    #[inline]
    fn slot(&self, ticket: u64) -> Option<usize> {
        self.place(ticket).map(|place| self.table[place] as usize - 1)
    }

    /// Puts a ticket above all others in flight; there has to be a free slot.
    pub fn insert(&mut self, ticket: u64, job: J) {
        let slot = self.free.pop().expect("a free slot");
        let mut place = self.home(ticket);
        while self.table[place] != 0 {
            place = self.after(place);
        }
        self.table[place] = slot as u32 + 1;
        self.slots[slot] = Slot { ticket, before: self.last, next: NONE, job: Some(job) };
        match self.last {
            NONE => self.first = slot,
            last => self.slots[last].next = slot,
        }
        self.last = slot;
    }

    #[inline]
    pub fn get(&self, ticket: u64) -> Option<&J> {
        self.slots[self.slot(ticket)?].job.as_ref()
    }

    #[inline]
    pub fn get_mut(&mut self, ticket: u64) -> Option<&mut J> {
        let slot = self.slot(ticket)?;
        self.slots[slot].job.as_mut()
    }

    // Takes a place out of the table: what stands behind it and isn't nearer to its home moves up.
    fn clear(&mut self, place: usize) {
        let mask = self.table.len() - 1;
        let (mut gap, mut next) = (place, self.after(place));
        while self.table[next] != 0 {
            let home = self.home(self.slots[self.table[next] as usize - 1].ticket);
            if next.wrapping_sub(home) & mask >= next.wrapping_sub(gap) & mask {
                self.table[gap] = self.table[next];
                gap = next;
            }
            next = self.after(next);
        }
        self.table[gap] = 0;
    }

    pub fn remove(&mut self, ticket: u64) -> Option<J> {
        let place = self.place(ticket)?;
        let slot = self.table[place] as usize - 1;
        self.clear(place);
        let Slot { before, next, .. } = self.slots[slot];
        match before {
            NONE => self.first = next,
            before => self.slots[before].next = next,
        }
        match next {
            NONE => self.last = before,
            next => self.slots[next].before = before,
        }
        self.free.push(slot);
        self.slots[slot].job.take()
    }

    /// All by rising ticket.
    pub fn iter(&self) -> impl Iterator<Item = (u64, &J)> {
        let slot_of = |at: usize| self.slots.get(at);
        std::iter::successors(slot_of(self.first), move |slot| slot_of(slot.next))
            .filter_map(|slot| Some((slot.ticket, slot.job.as_ref()?)))
    }
}

#[cfg(test)]
mod tests {
    use super::*;

    #[test]
    fn tickets_of_one_place_in_the_table_are_told_apart() {
        let limit = 6;
        let places = Jobs::<u64>::new(limit).table.len();
        for home in [0, places - 2, places - 1] {
            let empty = Jobs::<u64>::new(limit);
            let tickets: Vec<u64> = (1..).filter(|ticket| empty.home(*ticket) == home).take(limit).collect();
            for gone in &tickets {
                let mut jobs = Jobs::new(limit);
                tickets.iter().for_each(|ticket| jobs.insert(*ticket, *ticket));
                assert_eq!(jobs.remove(*gone), Some(*gone));
                for ticket in &tickets {
                    assert_eq!(jobs.get(*ticket).is_some(), ticket != gone, "ticket {ticket} without {gone}");
                }
            }
        }
    }
}
