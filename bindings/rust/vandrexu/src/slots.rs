//! Hosts that claim the slots of a disk, release them, and take over those of a host that died.
use crate::error::{Error, Result, told};
use crate::{Config, Disk};
use std::cell::UnsafeCell;
use std::fmt;
use vandrexu_sys as sys;

impl Disk {
    /// A disk as of [`new`](Disk::new), but with `count` slots from block `first` on: slot i is block `first` + i.
    ///
    /// Only slot hosts write to the blocks of slots, by their claims, releases and takeovers.
    ///
    /// ```
    /// use vandrexu::{Config, Disk, Error};
    ///
    /// assert_eq!(Disk::with_slots(&Config::default(), 1, 2, 0).err(), Some(Error::BadArea));
    /// // (four slots: the blocks 2 to 5)
    /// let mut disk = Disk::with_slots(&Config::default(), 1, 2, 4)?;
    /// let mut host = disk.host(1, 1)?;
    /// assert_eq!(host.write(5, &[0xA1; 1024]), Err(Error::CallSlotArea));
    /// assert!(host.write(6, &[0xA1; 1024]).is_ok());
    /// # Ok::<(), Error>(())
    /// ```
    ///
    /// # Errors
    /// [`Error::BadArea`] of no slot, or of one behind block 65,535; else those of [`new`](Disk::new).
    pub fn with_slots(config: &Config, hosts: u16, first: u64, count: u32) -> Result<Disk> {
        let mut handle = sys::VANDREXU_DISK_NONE;
        // SAFETY: both are there during the call, and aren't the same.
        told(unsafe { sys::vandrexu_slot_disk_new(&config.raw(), hosts, first, count, &mut handle) })?;
        Ok(Disk { handle: UnsafeCell::new(handle) })
    }

    /// A slot host of this number, with a driver on this submission queue, and the slots of the disk.
    ///
    /// ```
    /// use vandrexu::{Config, Disk, Error};
    ///
    /// let config = Config { pairs: 2, cqs: 2, ..Config::default() };
    /// assert_eq!(Disk::new(&config, 1)?.slot_host(1, 1).err(), Some(Error::BadArea));
    /// let mut disk = Disk::with_slots(&config, 1, 2, 4)?;
    /// let one = disk.slot_host(1, 1)?;
    /// assert_eq!(disk.slot_host(1, 2).err(), Some(Error::UsedNumber));
    /// assert_eq!(disk.slot_host(2, 1).err(), Some(Error::UsedQueue));
    /// # drop(one);
    /// # Ok::<(), Error>(())
    /// ```
    ///
    /// # Errors
    /// [`Error::BadArea`] where the disk has no slots; else those of [`host`](Disk::host). What a host of either kind
    /// has used, no host of the other kind gets.
    pub fn slot_host(&mut self, number: u32, queue: u16) -> Result<SlotHost> {
        let mut handle = sys::VANDREXU_SLOT_HOST_NONE;
        // SAFETY: nobody else has the disk's handle, which isn't Sync; the host's is new.
        told(unsafe { sys::vandrexu_slot_host_new(self.handle.get(), number, queue, &mut handle) })?;
        Ok(SlotHost { handle: UnsafeCell::new(handle) })
    }
}

/// Who holds a slot: a host, by the serial of its claim or of its takeover.
///
/// A host uses each serial once.
#[derive(Clone, Copy, Debug, PartialEq, Eq, Hash)]
pub struct Name {
    /// The number of the host.
    pub host: u32,
    /// The serial, from 1.
    pub serial: u64,
}

/// What became of a slot host's call.
#[derive(Clone, Copy, Debug, PartialEq, Eq, Hash)]
#[must_use]
pub enum SlotReply {
    /// Not all its completions were reaped.
    Pending,
    /// Of a claim and of a takeover: this slot is the host's.
    Held(u32),
    /// Of a claim: somebody else has the slot. Of a takeover: it hasn't that name any more.
    Taken,
    /// Of a release: nobody has the slot by this host's name.
    Released,
    /// Of the question who holds a slot: nobody.
    Free,
    /// Of the question who holds a slot: whoever has this name.
    Of(Name),
    /// Of the question who holds a slot: its block is neither zeros nor a name, which no call brings about.
    Foreign,
    /// It failed, with this Status Code Type and Status Code.
    Failed {
        /// The Status Code Type.
        sct: u8,
        /// The Status Code.
        sc: u8,
    },
}

impl SlotReply {
    /// What a slot host's poll told.
    pub(crate) fn of(told: &sys::vandrexu_slot_reply) -> SlotReply {
        match told.kind {
            sys::VANDREXU_SLOT_PENDING => SlotReply::Pending,
            sys::VANDREXU_SLOT_HELD => SlotReply::Held(told.slot),
            sys::VANDREXU_SLOT_TAKEN => SlotReply::Taken,
            sys::VANDREXU_SLOT_RELEASED => SlotReply::Released,
            sys::VANDREXU_SLOT_FREE => SlotReply::Free,
            sys::VANDREXU_SLOT_OF_NAME => SlotReply::Of(Name { host: told.host, serial: told.serial }),
            sys::VANDREXU_SLOT_FOREIGN => SlotReply::Foreign,
            sys::VANDREXU_SLOT_FAILED => SlotReply::Failed { sct: told.sct, sc: told.sc },
            other => panic!("the archive answered the reply {other}, which this version doesn't have"),
        }
    }
}

/// A host of a [`Disk`] that claims slots and releases them, with a driver, and one call at a time. It is freed where it
/// is dropped.
///
/// A slot is a lock: one block of the disk. The block holds zeros while the slot is free, and else the [`Name`] of who
/// has it (docs/SLOTS.md). A call is begun, and then polled until it is over.
///
/// ```
/// use vandrexu::{Config, Disk, Error, SlotHost, SlotReply};
///
/// // Polls until the call is over, while the disk serves the host's queue.
/// fn over(disk: &mut Disk, queue: u16, host: &mut SlotHost) -> Result<SlotReply, Error> {
///     disk.serve(queue)?;
///     loop {
///         match host.poll()? {
///             SlotReply::Pending => {}
///             reply => return Ok(reply),
///         }
///     }
/// }
///
/// let mut disk = Disk::with_slots(&Config { pairs: 2, cqs: 2, ..Config::default() }, 2, 2, 4)?;
/// let (mut one, mut two) = (disk.slot_host(1, 1)?, disk.slot_host(2, 2)?);
/// one.claim(0)?;
/// assert_eq!(two.release(0), Err(Error::NotHeld));
/// assert_eq!(over(&mut disk, 1, &mut one)?, SlotReply::Held(0));
/// two.claim(0)?;
/// assert_eq!(over(&mut disk, 2, &mut two)?, SlotReply::Taken);
/// one.release(0)?;
/// assert_eq!(over(&mut disk, 1, &mut one)?, SlotReply::Released);
/// two.claim(0)?;
/// assert_eq!(over(&mut disk, 2, &mut two)?, SlotReply::Held(0));
/// # Ok::<(), Error>(())
/// ```
///
/// What a host has at a slot is kept in its handle. Where the handle is dropped, the slot stays held by its name, and
/// another host may [take it over](SlotHost::take_over). A host outlives its disk's handle, but is served no more.
#[must_use = "a host that is dropped takes its place on the disk with it"]
pub struct SlotHost {
    handle: UnsafeCell<sys::vandrexu_slot_host>,
}

// SAFETY: as of Disk.
unsafe impl Send for SlotHost {}

impl SlotHost {
    /// Begins to claim a slot: to swap zeros for the host's next name.
    ///
    /// # Errors
    /// [`Error::InCall`], [`Error::NoSlot`]; [`Error::Held`]; [`Error::CallNoRoom`], [`Error::Busy`],
    /// [`Error::NoMemory`], [`Error::CallNoSerial`]: nothing was published.
    pub fn claim(&mut self, slot: u32) -> Result<()> {
        // SAFETY: nobody else has the handle, which isn't Sync.
        told(unsafe { sys::vandrexu_slot_claim(self.handle.get(), slot) })
    }

    /// Begins to claim the first slot that nobody has: slot 0, and each further one by a [`poll`](SlotHost::poll), once
    /// the one before is answered to be somebody's, so the disk is served between two polls. [`SlotReply::Taken`] is
    /// told where each was, at a moment of its own.
    ///
    /// # Errors
    /// [`Error::InCall`]; [`Error::CallNoRoom`], [`Error::Busy`], [`Error::NoMemory`], [`Error::CallNoSerial`]: nothing
    /// was published.
    pub fn claim_any(&mut self) -> Result<()> {
        // SAFETY: as of claim.
        told(unsafe { sys::vandrexu_slot_claim_any(self.handle.get()) })
    }

    /// Begins to release a slot that was claimed or taken over: to swap the host's name for zeros. From then on the host
    /// has it no more, whatever comes of it.
    ///
    /// # Errors
    /// [`Error::InCall`], [`Error::NoSlot`]; [`Error::NotHeld`]; [`Error::CallNoRoom`], [`Error::Busy`],
    /// [`Error::NoMemory`]: nothing was published, and the host has the slot still.
    pub fn release(&mut self, slot: u32) -> Result<()> {
        // SAFETY: as in claim.
        told(unsafe { sys::vandrexu_slot_release(self.handle.get(), slot) })
    }

    /// Begins to take a slot over: to swap the name of a dead host for the host's next name.
    ///
    /// That the dead host does nothing any more is yours to see.
    ///
    /// ```
    /// use vandrexu::{Config, Disk, Name, SlotReply};
    ///
    /// let mut disk = Disk::with_slots(&Config { pairs: 2, cqs: 2, ..Config::default() }, 2, 2, 4)?;
    /// let (mut one, mut two) = (disk.slot_host(1, 1)?, disk.slot_host(2, 2)?);
    /// one.claim(0)?;
    /// disk.serve(1)?;
    /// drop(one);
    /// let dead = Name { host: 1, serial: 1 };
    /// two.ask_holder(0)?;
    /// disk.serve(2)?;
    /// assert_eq!(two.poll()?, SlotReply::Of(dead));
    /// two.take_over(0, dead)?;
    /// disk.serve(2)?;
    /// // (a takeover is a fused pair: it has two completions, and each poll reaps one)
    /// assert_eq!((two.poll()?, two.poll()?), (SlotReply::Pending, SlotReply::Held(0)));
    /// // (and it claims another one)
    /// two.claim(1)?;
    /// disk.serve(2)?;
    /// assert_eq!((two.poll()?, two.poll()?), (SlotReply::Pending, SlotReply::Held(1)));
    /// # Ok::<(), vandrexu::Error>(())
    /// ```
    ///
    /// # Errors
    /// [`Error::InCall`], [`Error::NoSlot`]; [`Error::Held`]; [`Error::BadName`] of a name with a zero in it, or of the
    /// host itself; [`Error::CallNoRoom`], [`Error::Busy`], [`Error::NoMemory`], [`Error::CallNoSerial`]:
    /// nothing was published.
    pub fn take_over(&mut self, slot: u32, dead: Name) -> Result<()> {
        // SAFETY: as in claim.
        told(unsafe { sys::vandrexu_slot_take_over(self.handle.get(), slot, dead.host, dead.serial) })
    }

    /// Begins to ask who holds a slot: to read its block.
    ///
    /// # Errors
    /// [`Error::InCall`], [`Error::NoSlot`]; [`Error::CallNoRoom`], [`Error::Busy`], [`Error::NoMemory`]:
    /// nothing was published.
    pub fn ask_holder(&mut self, slot: u32) -> Result<()> {
        // SAFETY: as in claim.
        told(unsafe { sys::vandrexu_slot_ask_holder(self.handle.get(), slot) })
    }

    /// Reaps at most one completion, and says what became of the call, which is over but where it is pending.
    ///
    /// # Errors
    /// [`Error::NoCall`]; [`Error::Busy`] and [`Error::NoMemory`], where the call goes on.
    pub fn poll(&mut self) -> Result<SlotReply> {
        let mut reply = sys::vandrexu_slot_reply::default();
        // SAFETY: as in claim.
        match told(unsafe { sys::vandrexu_slot_poll(self.handle.get(), &mut reply) }) {
            Ok(()) | Err(Error::CallFailed) => Ok(SlotReply::of(&reply)),
            Err(other) => Err(other),
        }
    }
}

impl Drop for SlotHost {
    fn drop(&mut self) {
        // SAFETY: nobody else has the handle; it is used no more.
        unsafe { sys::vandrexu_slot_host_free(self.handle.get()) }
    }
}

impl fmt::Debug for SlotHost {
    fn fmt(&self, f: &mut fmt::Formatter<'_>) -> fmt::Result {
        f.debug_struct("SlotHost").finish_non_exhaustive()
    }
}
