//! Hosts of a controller that is somewhere else, whose caller carries what they publish and what comes back.
use crate::calls::{begun, waiting};
use crate::error::{Error, Result, told};
use crate::hosts::last_read;
use crate::room::resize;
use crate::{CallNumber, Completion, Reply, Waiting};
use std::cell::UnsafeCell;
use std::fmt;
use vandrexu_sys as sys;

/// An entry that is to be carried to a controller.
#[derive(Clone, Debug, PartialEq, Eq)]
#[must_use = "an entry is told once"]
pub struct Outgoing {
    /// The submission queue.
    pub queue: u16,
    /// The submission queue entry.
    pub entry: [u8; 64],
    /// The data that belongs to it.
    pub data: Vec<u8>,
    /// Whether it is the first of a fused pair, whose second is the next entry.
    pub more: bool,
}

/// A host of a controller that is somewhere else, with a driver, and up to 64 commands in flight, of which a pair is two.
/// It is freed where it is dropped.
///
/// A call is begun, and then polled by its number until it is over. What calls publish is told by
/// [`outgoing`](RemoteHost::outgoing), entry by entry, and what came back is brought by
/// [`incoming`](RemoteHost::incoming). What lies between, such as a socket, is the caller's.
///
/// ```
/// use vandrexu::{Config, Controller, Entry, Error, RemoteHost, Reply};
///
/// // Carries what the host has begun to a controller, and the completions back.
/// fn carry(host: &mut RemoteHost, disk: &mut Controller) -> Result<(), Error> {
///     let mut told = vec![];
///     while let Some(it) = host.outgoing()? {
///         told.push(it);
///     }
///     // (a fused pair is one batch of two)
///     for batch in told.chunk_by(|one, _| one.more) {
///         let entries: Vec<_> = batch.iter().map(|it| Entry::raw(it.entry, &it.data)).collect();
///         disk.publish(batch[0].queue, &entries)?;
///         disk.fetch(batch[0].queue)?;
///     }
///     disk.settle()?;
///     for reaped in disk.completions(1) {
///         let reaped = reaped?;
///         host.incoming(reaped.completion, &reaped.data)?;
///     }
///     Ok(())
/// }
///
/// let mut disk = Controller::new(&Config::default())?;
/// let mut host = RemoteHost::new(7, 1, 0)?;
/// let read = host.read(3, 1)?;
/// let swap = host.compare_and_write(3, &[0; 512], &[0xA1; 512])?;
/// assert_eq!(host.poll(swap)?, Reply::Pending);
/// carry(&mut host, &mut disk)?;
/// // (each poll takes a completion, of whichever call: the Read's, and the pair's two)
/// assert_eq!((host.poll(swap)?, host.poll(swap)?), (Reply::Pending, Reply::Pending));
/// assert_eq!(host.poll(read)?, Reply::Read(vec![0; 512]));
/// assert_eq!(host.poll(swap)?, Reply::Swapped);
/// assert_eq!((host.poll(swap), host.dropped()), (Err(Error::NoCall), 0));
/// # Ok::<(), Error>(())
/// ```
///
/// A reply is what the call's own completions tell, if each completion is brought once, and none before its entry was
/// told. Whether the controller told the truth isn't known here: a log of what was carried is judged for that, by
/// [`observe_text`](crate::observe_text).
pub struct RemoteHost {
    handle: UnsafeCell<sys::vandrexu_remote>,
}

// SAFETY: a handle may be used on another thread than before, and nobody else has what it owns.
unsafe impl Send for RemoteHost {}

impl RemoteHost {
    /// A host of this number on this submission queue of the controller. A Compare and Write has at most `acwu` and one
    /// blocks.
    ///
    /// # Errors
    /// The first of [`Error::BadNumber`] of 0 and [`Error::NoQueue`] of 0; or [`Error::NoMemory`].
    pub fn new(number: u32, queue: u16, acwu: u16) -> Result<RemoteHost> {
        RemoteHost::with_slots(number, queue, acwu, 0, 0)
    }

    /// The same, of which no call writes to `count` blocks from block `first` on. Those are slots.
    ///
    /// ```
    /// use vandrexu::{Error, RemoteHost};
    ///
    /// // (four slots: the blocks 2 to 5)
    /// let mut host = RemoteHost::with_slots(1, 1, 0, 2, 4)?;
    /// assert_eq!(host.write(5, &[0xA1; 1024]), Err(Error::CallSlotArea));
    /// assert!(host.write(6, &[0xA1; 1024]).is_ok());
    /// # Ok::<(), Error>(())
    /// ```
    ///
    /// # Errors
    /// Those of [`new`](RemoteHost::new); behind [`Error::NoQueue`] [`Error::BadArea`] of a slot behind block 65,535.
    pub fn with_slots(number: u32, queue: u16, acwu: u16, first: u64, count: u32) -> Result<RemoteHost> {
        let mut handle = sys::VANDREXU_REMOTE_NONE;
        // SAFETY: the handle is new.
        told(unsafe { sys::vandrexu_remote_new(number, queue, acwu, first, count, &mut handle) })?;
        Ok(RemoteHost { handle: UnsafeCell::new(handle) })
    }

    /// The handle, which owns a host. The caller uses it for one call, during which nobody else has it: it isn't `Sync`,
    /// and no call calls back.
    fn at(&self) -> *mut sys::vandrexu_remote {
        self.handle.get()
    }

    /// Begins to read so many blocks.
    ///
    /// # Errors
    /// [`Error::CallLength`] of no block, [`Error::CallTooLong`], [`Error::CallNoRoom`] where too few of the 64 commands
    /// are free, [`Error::NoMemory`]: nothing is to be carried.
    pub fn read(&mut self, lba: u64, blocks: u32) -> Result<CallNumber> {
        // SAFETY: as `at` says.
        begun(|call| unsafe { sys::vandrexu_remote_read(self.at(), lba, blocks, call) })
    }

    /// Begins to write zeros to so many blocks.
    ///
    /// # Errors
    /// As [`read`](RemoteHost::read); [`Error::CallSlotArea`] where a slot is among the blocks.
    pub fn write_zeroes(&mut self, lba: u64, blocks: u32) -> Result<CallNumber> {
        // SAFETY: as `at` says.
        begun(|call| unsafe { sys::vandrexu_remote_write_zeroes(self.at(), lba, blocks, call) })
    }

    /// Begins to write this data, 512 bytes a block.
    ///
    /// # Errors
    /// As [`write_zeroes`](RemoteHost::write_zeroes); [`Error::CallLength`] also of data that isn't whole blocks.
    pub fn write(&mut self, lba: u64, data: &[u8]) -> Result<CallNumber> {
        // SAFETY: as `at` says; a slice has an address that isn't null.
        begun(|call| unsafe { sys::vandrexu_remote_write(self.at(), lba, data.as_ptr(), data.len(), call) })
    }

    /// Begins to compare this data, 512 bytes a block, with what is there.
    ///
    /// # Errors
    /// As [`write`](RemoteHost::write), but for [`Error::CallSlotArea`].
    pub fn compare(&mut self, lba: u64, data: &[u8]) -> Result<CallNumber> {
        // SAFETY: as in write.
        begun(|call| unsafe { sys::vandrexu_remote_compare(self.at(), lba, data.as_ptr(), data.len(), call) })
    }

    /// Begins to write the desired data where the blocks hold the expected data, as one fused pair.
    ///
    /// # Errors
    /// As [`write`](RemoteHost::write); [`Error::CallLength`] also of two data of unlike lengths, and
    /// [`Error::CallTooLong`] of more than `acwu` and one blocks.
    pub fn compare_and_write(&mut self, lba: u64, expected: &[u8], desired: &[u8]) -> Result<CallNumber> {
        let (old, new) = (expected, desired);
        // SAFETY: as in write; both are only read.
        begun(|call| unsafe {
            sys::vandrexu_remote_compare_and_write(
                self.at(),
                lba,
                old.as_ptr(),
                old.len(),
                new.as_ptr(),
                new.len(),
                call,
            )
        })
    }

    /// Takes at most one of the completions that were brought, of whichever call, and says what became of this call,
    /// which is over but where it is pending. Calls are polled in any order. Where calls were given up, one of them has its
    /// turn first, and takes one more.
    ///
    /// # Errors
    /// [`Error::NoCall`] where no call has the number; [`Error::NoMemory`] where there is none for what was read, and the
    /// call is over.
    pub fn poll(&mut self, call: CallNumber) -> Result<Reply> {
        let mut reply = sys::vandrexu_reply::default();
        // SAFETY: as `at` says.
        match told(unsafe { sys::vandrexu_remote_poll(self.at(), call.0, &mut reply) }) {
            Ok(()) | Err(Error::CallFailed) => {}
            Err(other) => return Err(other),
        }
        Reply::of(&reply, || {
            last_read(|out, room, needed| {
                // SAFETY: as `at` says; so many bytes are there.
                unsafe { sys::vandrexu_remote_data(self.at(), out, room, needed) }
            })
        })
    }

    /// Gives up a call, whose number is free then: what it asked for is done or not, and nobody is told. Its CIDs stay in
    /// use until its completions were brought, and polls have taken them.
    ///
    /// # Errors
    /// [`Error::NoCall`] where no call has the number; [`Error::NoMemory`], and the call goes on.
    pub fn give_up(&mut self, call: CallNumber) -> Result<()> {
        // SAFETY: as `at` says.
        told(unsafe { sys::vandrexu_remote_give_up(self.at(), call.0) })
    }

    /// How many calls the host waits for.
    ///
    /// ```
    /// use vandrexu::{Error, RemoteHost, Waiting};
    ///
    /// let mut host = RemoteHost::new(1, 1, 0)?;
    /// let (one, two) = (host.read(0, 1)?, host.read(1, 1)?);
    /// host.give_up(one)?;
    /// assert_eq!(host.waiting(), Waiting { calls: 1, given_up: 1 });
    /// assert_eq!(host.poll(one), Err(Error::NoCall));
    /// # let _ = two;
    /// # Ok::<(), Error>(())
    /// ```
    #[must_use]
    pub fn waiting(&self) -> Waiting {
        // SAFETY: as `at` says.
        waiting(|calls, given_up| unsafe { sys::vandrexu_remote_waiting(self.at(), calls, given_up) })
    }

    /// The entry that was published first of those that weren't told yet; `None` where there is none.
    ///
    /// # Errors
    /// [`Error::NoMemory`]: it is the next one still.
    pub fn outgoing(&mut self) -> Result<Option<Outgoing>> {
        next_entry(|entry, out, room| {
            // SAFETY: as `at` says; so many bytes are there.
            unsafe { sys::vandrexu_remote_outgoing(self.at(), entry, out, room) }
        })
    }

    /// Brings a completion, with what a successful Read read, else with no data.
    ///
    /// Its [`sqid`](Completion::sqid) is the host's queue. Command Retry Delay, More and Do Not Retry count as reserved:
    /// clear these bits where a controller sets them, else the completion is [`dropped`](RemoteHost::dropped).
    ///
    /// # Errors
    /// [`Error::NoMemory`]: it may be brought again.
    pub fn incoming(&mut self, completion: Completion, data: &[u8]) -> Result<()> {
        let cqe = completion.0;
        // SAFETY: as `at` says; 16 bytes are there, and a slice has an address that isn't null.
        told(unsafe { sys::vandrexu_remote_incoming(self.at(), cqe.as_ptr(), data.as_ptr(), data.len()) })
    }

    /// How many of the completions that were brought, and taken by a poll, no call was owed: of no command in flight, one
    /// that came twice, or one with a reserved bit.
    #[must_use]
    pub fn dropped(&self) -> u64 {
        // SAFETY: as `at` says.
        counted(|count| unsafe { sys::vandrexu_remote_dropped(self.at(), count) })
    }
}

impl Drop for RemoteHost {
    fn drop(&mut self) {
        // SAFETY: as `at` says; it is used no more.
        unsafe { sys::vandrexu_remote_free(self.at()) }
    }
}

impl fmt::Debug for RemoteHost {
    fn fmt(&self, f: &mut fmt::Formatter<'_>) -> fmt::Result {
        f.debug_struct("RemoteHost").field("dropped", &self.dropped()).finish_non_exhaustive()
    }
}

/// The next entry, with its data: asks for it with the room that is wanted.
pub(crate) fn next_entry(
    mut ask: impl FnMut(&mut sys::vandrexu_outgoing, *mut u8, usize) -> u32,
) -> Result<Option<Outgoing>> {
    let mut entry = sys::vandrexu_outgoing { bytes: [0; 64], count: 0, more: 0, queue: 0, zeros: [0; 6] };
    let mut data = Vec::new();
    loop {
        // (an empty Vec has an address that isn't null)
        match told(ask(&mut entry, data.as_mut_ptr(), data.len())) {
            Ok(()) => {
                return Ok(Some(Outgoing { queue: entry.queue, entry: entry.bytes, data, more: entry.more == 1 }));
            }
            Err(Error::TooSmall) => resize(&mut data, entry.count)?,
            Err(Error::NothingReady) => return Ok(None),
            Err(other) => return Err(other),
        }
    }
}

/// A count that a handle always has.
pub(crate) fn counted(ask: impl FnOnce(&mut u64) -> u32) -> u64 {
    let mut count = 0;
    let status = ask(&mut count);
    assert_eq!(told(status), Ok(()), "a host has its handle until it is dropped");
    count
}
