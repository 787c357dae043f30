//! Slots: locks that are blocks of a disk (docs/SLOTS.md), claimed and released by the slot host of the library.
use crate::carrier::failed;
use crate::{Carrier, Result};
use vandrexu::{Name, RemoteSlotHost, SlotReply};
use vandrexu_wire::{BLOCK, Status, put32, put64};

/// The block of a slot that is held by this name.
#[must_use]
pub fn block_of(name: Name) -> [u8; BLOCK] {
    let mut out = [0; BLOCK];
    put32(&mut out, 0, name.host);
    put64(&mut out, 8, name.serial);
    out
}

/// What the block of a slot says.
#[derive(Clone, Copy, Debug, PartialEq, Eq, Hash)]
pub enum Holder {
    /// Nobody holds it.
    Nobody,
    /// The slot is held by this name.
    Name(Name),
    /// It is no block of a slot.
    Foreign,
}

/// Blocks that are slots.
#[derive(Clone, Copy, Debug, PartialEq, Eq)]
pub struct Area {
    /// The block of slot 0.
    pub first: u64,
    /// How many slots there are.
    pub count: u32,
}

impl Area {
    /// The block of a slot, if there is such a slot.
    #[must_use]
    pub fn block(&self, slot: u32) -> Option<u64> {
        if slot < self.count { self.first.checked_add(slot.into()) } else { None }
    }
}

impl Carrier<RemoteSlotHost> {
    /// Carries until the call is over.
    fn slot_reply(&mut self) -> Result<SlotReply> {
        let told = self.told(|host| host.poll().map(|it| if it == SlotReply::Pending { None } else { Some(it) }))?;
        match told {
            SlotReply::Failed { sct, sc } => Err(failed(sct, sc)),
            told => Ok(told),
        }
    }

    /// Who holds this slot.
    ///
    /// # Errors
    /// As those of [`reply`](Carrier::reply); why the call isn't begun; the status of the Read.
    pub fn holder(&mut self, slot: u32) -> Result<Holder> {
        self.driver().ask_holder(slot)?;
        Ok(match self.slot_reply()? {
            SlotReply::Free => Holder::Nobody,
            SlotReply::Of(name) => Holder::Name(name),
            _ => Holder::Foreign,
        })
    }

    /// Claims this slot; false where somebody had it.
    ///
    /// # Errors
    /// As those of [`holder`](Carrier::holder); a status that no pair is answered.
    pub fn claim(&mut self, slot: u32) -> Result<bool> {
        self.driver().claim(slot)?;
        Ok(self.slot_reply()? == SlotReply::Held(slot))
    }

    /// Releases this slot, which this host claimed or took over; false where somebody else took it over meanwhile.
    ///
    /// # Errors
    /// As those of [`claim`](Carrier::claim).
    pub fn release(&mut self, slot: u32) -> Result<bool> {
        self.driver().release(slot)?;
        match self.slot_reply() {
            Err(crate::Error::Refused(status, _)) if status.is(Status::COMPARE_FAILURE) => Ok(false),
            told => Ok(told? == SlotReply::Released),
        }
    }

    /// Takes this slot over from the name of a host that is fenced; false where that name doesn't hold it.
    ///
    /// # Errors
    /// As those of [`claim`](Carrier::claim).
    pub fn take_over(&mut self, slot: u32, dead: Name) -> Result<bool> {
        self.driver().take_over(slot, dead)?;
        Ok(self.slot_reply()? == SlotReply::Held(slot))
    }
}

#[cfg(test)]
mod tests {
    use super::{Area, Name, block_of};

    #[test]
    fn a_name_lies_where_the_page_says() {
        let block = block_of(Name { host: 0x0102, serial: 0x0304 });
        assert_eq!((&block[..4], &block[8..16]), (&[2, 1, 0, 0][..], &[4, 3, 0, 0, 0, 0, 0, 0][..]));
        assert!(block[4..8].iter().chain(&block[16..]).all(|it| *it == 0));
        let area = Area { first: 7, count: 2 };
        assert_eq!([0, 1, 2].map(|it| area.block(it)), [Some(7), Some(8), None]);
    }
}
