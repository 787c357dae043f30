//! Slot hosts of a controller that is somewhere else.
use crate::error::{Error, Result, told};
use crate::remote::{counted, next_entry};
use crate::{Completion, Name, Outgoing, SlotReply};
use std::cell::UnsafeCell;
use std::fmt;
use vandrexu_sys as sys;

/// A slot host of a controller that is somewhere else, with a driver, and one call at a time. It is freed where it is
/// dropped, and its slots then stay held by their names.
///
/// Calls are those of a [`SlotHost`](crate::SlotHost), and are carried as those of a [`RemoteHost`](crate::RemoteHost).
///
/// ```
/// use vandrexu::{Completion, Error, RemoteSlotHost, SlotReply};
///
/// // (four slots: the blocks 2 to 5)
/// let mut host = RemoteSlotHost::new(7, 1, 2, 4, 41)?;
/// host.claim(3)?;
/// let (compare, write) = (host.outgoing()?.unwrap(), host.outgoing()?.unwrap());
/// assert_eq!((compare.entry[0], write.entry[0], compare.entry[40]), (0x05, 0x01, 5));
/// // (zeros for the name: host 7, serial 42)
/// assert_eq!(compare.data, [0; 512]);
/// assert_eq!((write.data[0], write.data[8]), (7, 42));
/// for cid in [compare.entry[2], write.entry[2]] {
///     host.incoming(Completion([0, 0, 0, 0, 0, 0, 0, 0, 2, 0, 1, 0, cid, 0, 1, 0]), &[])?;
/// }
/// assert_eq!((host.poll()?, host.poll()?), (SlotReply::Pending, SlotReply::Held(3)));
/// # Ok::<(), Error>(())
/// ```
pub struct RemoteSlotHost {
    handle: UnsafeCell<sys::vandrexu_remote_slot_host>,
}

// SAFETY: as of RemoteHost.
unsafe impl Send for RemoteSlotHost {}

impl RemoteSlotHost {
    /// A host of this number on this submission queue of the controller, which claims `count` slots from block `first`
    /// on. The serials of its names are above `serial`: a number that a host had before, in a process that ended, is given
    /// with a serial that none of its names had, as one of the clock and of chance.
    ///
    /// # Errors
    /// The first of [`Error::BadArea`] of no slot, or of one behind block 65,535, [`Error::BadNumber`] of 0 and
    /// [`Error::NoQueue`] of 0; or [`Error::NoMemory`].
    pub fn new(number: u32, queue: u16, first: u64, count: u32, serial: u64) -> Result<RemoteSlotHost> {
        let mut handle = sys::VANDREXU_REMOTE_SLOT_HOST_NONE;
        // SAFETY: the handle is new.
        told(unsafe { sys::vandrexu_remote_slot_host_new(number, queue, first, count, serial, &mut handle) })?;
        Ok(RemoteSlotHost { handle: UnsafeCell::new(handle) })
    }

    /// The handle, as that of a [`RemoteHost`].
    fn at(&self) -> *mut sys::vandrexu_remote_slot_host {
        self.handle.get()
    }

    /// Begins to claim a slot, as [`SlotHost::claim`](crate::SlotHost::claim).
    ///
    /// # Errors
    /// [`Error::InCall`], [`Error::NoSlot`]; [`Error::Held`]; [`Error::NoMemory`], [`Error::CallNoSerial`]: nothing is to
    /// be carried.
    pub fn claim(&mut self, slot: u32) -> Result<()> {
        // SAFETY: as `at` says.
        told(unsafe { sys::vandrexu_remote_slot_claim(self.at(), slot) })
    }

    /// Begins to claim the first slot that nobody has, as [`SlotHost::claim_any`](crate::SlotHost::claim_any): the claim
    /// of each further slot is to be carried behind a poll.
    ///
    /// # Errors
    /// [`Error::InCall`]; [`Error::NoMemory`], [`Error::CallNoSerial`]: nothing is to be carried.
    pub fn claim_any(&mut self) -> Result<()> {
        // SAFETY: as `at` says.
        told(unsafe { sys::vandrexu_remote_slot_claim_any(self.at()) })
    }

    /// Begins to release a slot that was claimed or taken over, as [`SlotHost::release`](crate::SlotHost::release). From
    /// then on the host has it no more, whatever comes of it.
    ///
    /// # Errors
    /// [`Error::InCall`], [`Error::NoSlot`]; [`Error::NotHeld`]; [`Error::NoMemory`]: nothing is to be carried, and the
    /// host has the slot still.
    pub fn release(&mut self, slot: u32) -> Result<()> {
        // SAFETY: as `at` says.
        told(unsafe { sys::vandrexu_remote_slot_release(self.at(), slot) })
    }

    /// Begins to take a slot over from the name of a dead host, as
    /// [`SlotHost::take_over`](crate::SlotHost::take_over). That the dead host does nothing any more is yours to see.
    ///
    /// # Errors
    /// [`Error::InCall`], [`Error::NoSlot`]; [`Error::Held`]; [`Error::BadName`] of a name with a zero in it, or of the
    /// host itself; [`Error::NoMemory`], [`Error::CallNoSerial`]: nothing is to be carried.
    pub fn take_over(&mut self, slot: u32, dead: Name) -> Result<()> {
        // SAFETY: as `at` says.
        told(unsafe { sys::vandrexu_remote_slot_take_over(self.at(), slot, dead.host, dead.serial) })
    }

    /// Begins to ask who holds a slot: to read its block.
    ///
    /// # Errors
    /// [`Error::InCall`], [`Error::NoSlot`]; [`Error::NoMemory`]: nothing is to be carried.
    pub fn ask_holder(&mut self, slot: u32) -> Result<()> {
        // SAFETY: as `at` says.
        told(unsafe { sys::vandrexu_remote_slot_ask_holder(self.at(), slot) })
    }

    /// Takes at most one of the completions that were brought, and says what became of the call, which is over but where
    /// it is pending.
    ///
    /// # Errors
    /// [`Error::NoCall`]; of a claim of any slot [`Error::NoMemory`], where the call goes on, and
    /// [`Error::CallNoSerial`], where it is over.
    pub fn poll(&mut self) -> Result<SlotReply> {
        let mut reply = sys::vandrexu_slot_reply::default();
        // SAFETY: as `at` says.
        match told(unsafe { sys::vandrexu_remote_slot_poll(self.at(), &mut reply) }) {
            Ok(()) | Err(Error::CallFailed) => Ok(SlotReply::of(&reply)),
            Err(other) => Err(other),
        }
    }

    /// The entry that was published first of those that weren't told yet; `None` where there is none.
    ///
    /// # Errors
    /// [`Error::NoMemory`]: it is the next one still.
    pub fn outgoing(&mut self) -> Result<Option<Outgoing>> {
        next_entry(|entry, out, room| {
            // SAFETY: as `at` says; so many bytes are there.
            unsafe { sys::vandrexu_remote_slot_outgoing(self.at(), entry, out, room) }
        })
    }

    /// Brings a completion, with what a successful Read read, as [`RemoteHost::incoming`](crate::RemoteHost::incoming).
    ///
    /// # Errors
    /// [`Error::NoMemory`]: it may be brought again.
    pub fn incoming(&mut self, completion: Completion, data: &[u8]) -> Result<()> {
        let cqe = completion.0;
        // SAFETY: as `at` says; 16 bytes are there, and a slice has an address that isn't null.
        told(unsafe { sys::vandrexu_remote_slot_incoming(self.at(), cqe.as_ptr(), data.as_ptr(), data.len()) })
    }

    /// How many of the completions that were brought, and taken by a poll, no call was owed.
    #[must_use]
    pub fn dropped(&self) -> u64 {
        // SAFETY: as `at` says.
        counted(|count| unsafe { sys::vandrexu_remote_slot_dropped(self.at(), count) })
    }
}

impl Drop for RemoteSlotHost {
    fn drop(&mut self) {
        // SAFETY: as `at` says; it is used no more.
        unsafe { sys::vandrexu_remote_slot_host_free(self.at()) }
    }
}

impl fmt::Debug for RemoteSlotHost {
    fn fmt(&self, f: &mut fmt::Formatter<'_>) -> fmt::Result {
        f.debug_struct("RemoteSlotHost").field("dropped", &self.dropped()).finish_non_exhaustive()
    }
}
