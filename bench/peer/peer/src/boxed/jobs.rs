//! The tickets in flight: jobs in a slab, found by an index of rising tickets.

/// Jobs by their tickets.
pub struct Jobs<J> {
    slots: Vec<Option<J>>,
    free: Vec<usize>,
    index: Vec<(u64, usize)>,
}

impl<J> Jobs<J> {
    pub fn new(limit: usize) -> Jobs<J> {
        Jobs {
            slots: (0..limit).map(|_| None).collect(),
            free: (0..limit).rev().collect(),
            index: Vec::with_capacity(limit),
        }
    }

    pub fn is_full(&self) -> bool {
        self.free.is_empty()
    }

    /// Puts a ticket above all others in flight; there has to be a free slot.
    pub fn insert(&mut self, ticket: u64, job: J) {
        let slot = self.free.pop().expect("a free slot");
        self.slots[slot] = Some(job);
        self.index.push((ticket, slot));
    }

    fn place(&self, ticket: u64) -> Option<usize> {
        self.index.binary_search_by_key(&ticket, |one| one.0).ok()
    }

    pub fn get(&self, ticket: u64) -> Option<&J> {
        let place = self.place(ticket)?;
        self.slots[self.index[place].1].as_ref()
    }

    pub fn get_mut(&mut self, ticket: u64) -> Option<&mut J> {
        let place = self.place(ticket)?;
        self.slots[self.index[place].1].as_mut()
    }

    pub fn remove(&mut self, ticket: u64) -> Option<J> {
        let place = self.place(ticket)?;
        let (_, slot) = self.index.remove(place);
        self.free.push(slot);
        self.slots[slot].take()
    }

    /// All by rising ticket.
    pub fn iter(&self) -> impl Iterator<Item = (u64, &J)> {
        self.index.iter().filter_map(|(ticket, slot)| Some((*ticket, self.slots[*slot].as_ref()?)))
    }
}
