//! The CIDs in use on a queue.

/// A list of them, in which one may stand more than once.
#[derive(Default)]
pub struct Cids(Vec<u16>);

impl Cids {
    #[inline]
    pub fn has(&self, cid: u16) -> bool {
        self.0.contains(&cid)
    }

    #[inline]
    pub fn put(&mut self, cid: u16) {
        self.0.push(cid);
    }

    #[inline]
    pub fn release(&mut self, cid: u16) {
        if let Some(place) = self.0.iter().position(|used| *used == cid) {
            self.0.swap_remove(place);
        }
    }
}
