//! The CIDs in use on a queue.

/// A bit for each, and a list of those that are in use once more. (A command that fails with a CID in use has it until
/// its own completion.)
pub struct Cids {
    bits: Box<[u64]>,
    again: Vec<u16>,
}

impl Default for Cids {
    fn default() -> Cids {
        Cids { bits: vec![0; 1024].into_boxed_slice(), again: Vec::new() }
    }
}

impl Cids {
    #[inline]
    pub fn has(&self, cid: u16) -> bool {
        self.bits[usize::from(cid) / 64] >> (cid % 64) & 1 == 1
    }

    #[inline]
    pub fn put(&mut self, cid: u16) {
        if self.has(cid) {
            self.again.push(cid);
        } else {
            self.bits[usize::from(cid) / 64] |= 1 << (cid % 64);
        }
    }

    #[inline]
    pub fn release(&mut self, cid: u16) {
        match self.again.iter().position(|one| *one == cid) {
            Some(place) => {
                self.again.swap_remove(place);
            }
            None => self.bits[usize::from(cid) / 64] &= !(1 << (cid % 64)),
        }
    }
}
