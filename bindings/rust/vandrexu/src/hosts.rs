//! A disk that hosts share, and hosts with a driver each.
use crate::calls::{begun, waiting};
use crate::error::{Error, Result, told};
use crate::iterators::{HistoryLines, Source, piece};
use crate::room::resize;
use crate::{BLOCK, CallNumber, Config, Waiting};
use std::cell::UnsafeCell;
use std::fmt;
use vandrexu_sys as sys;

/// A controller that hosts share. It is served by this handle, and freed where it and its hosts are dropped.
///
/// Nothing happens by itself: what a host asks for waits until the disk serves its submission queue. No two hosts have
/// one number, or submission queues of one completion queue. The second is refused, also where the first was dropped.
///
/// ```
/// use vandrexu::{Config, Disk, Reply};
///
/// let mut disk = Disk::new(&Config { pairs: 2, cqs: 2, ..Config::default() }, 2)?;
/// let (mut one, mut two) = (disk.host(1, 1)?, disk.host(2, 2)?);
/// let (free, mine) = ([0; 512], [0xA1; 512]);
/// let of_one = one.compare_and_write(3, &free, &mine)?;
/// let of_two = two.compare_and_write(3, &free, &[0xB2; 512])?;
/// disk.serve(2)?;
/// disk.serve(1)?;
/// // (a pair has two completions, and each poll reaps one)
/// assert_eq!((two.poll(of_two)?, two.poll(of_two)?), (Reply::Pending, Reply::Swapped));
/// assert_eq!((one.poll(of_one)?, one.poll(of_one)?), (Reply::Pending, Reply::Differs));
/// # Ok::<(), vandrexu::Error>(())
/// ```
#[must_use = "a disk that is dropped serves nobody"]
pub struct Disk {
    pub(crate) handle: UnsafeCell<sys::vandrexu_disk>,
}

// SAFETY: a handle may be used on another thread than before, and what it shares with hosts is behind a lock.
unsafe impl Send for Disk {}

impl Disk {
    /// A disk with no history, whose blocks are zeros, of which so many hosts can be made. It has no slots: those of
    /// [`with_slots`](Disk::with_slots) have some.
    ///
    /// # Errors
    /// The configuration's [`fault`](Config::fault); [`Error::NoMemory`].
    pub fn new(config: &Config, hosts: u16) -> Result<Disk> {
        let mut handle = sys::VANDREXU_DISK_NONE;
        // SAFETY: both are there during the call, and aren't the same.
        told(unsafe { sys::vandrexu_disk_new(&config.raw(), hosts, &mut handle) })?;
        Ok(Disk { handle: UnsafeCell::new(handle) })
    }

    /// A host of this number, with a driver on this submission queue.
    ///
    /// ```
    /// use vandrexu::{Config, Disk, Error};
    ///
    /// let mut disk = Disk::new(&Config { pairs: 2, cqs: 2, ..Config::default() }, 1)?;
    /// assert_eq!(disk.host(0, 1).err(), Some(Error::BadNumber));
    /// assert_eq!(disk.host(1, 3).err(), Some(Error::NoQueue));
    /// let one = disk.host(1, 1)?;
    /// assert_eq!(disk.host(1, 2).err(), Some(Error::UsedNumber));
    /// assert_eq!(disk.host(2, 1).err(), Some(Error::UsedQueue));
    /// assert_eq!(disk.host(2, 2).err(), Some(Error::NoHost));
    /// # drop(one);
    /// # Ok::<(), Error>(())
    /// ```
    ///
    /// # Errors
    /// The first of [`Error::BadNumber`] of 0, [`Error::NoQueue`], [`Error::UsedNumber`] and [`Error::UsedQueue`]; or
    /// [`Error::NoHost`], or [`Error::NoMemory`].
    pub fn host(&mut self, number: u32, queue: u16) -> Result<Host> {
        let mut handle = sys::VANDREXU_HOST_NONE;
        // SAFETY: nobody else has this handle, which isn't Sync; the host's is new.
        told(unsafe { sys::vandrexu_host_new(self.handle.get(), number, queue, &mut handle) })?;
        Ok(Host { handle: UnsafeCell::new(handle) })
    }

    /// Ends a host: the disk keeps its number, its submission queue and the CIDs of calls that were given up, until
    /// [`again`](Disk::again) asks for it. Where it isn't ended, the host is given back with the cause.
    ///
    /// ```
    /// use vandrexu::{Config, Disk, Error, Reply};
    ///
    /// let mut disk = Disk::new(&Config::default(), 1)?;
    /// let mut host = disk.host(1, 1)?;
    /// for _ in 0..3 {
    ///     // it dies, and nobody knows whether its command is served
    ///     let write = host.write(3, &[0xA1; 512])?;
    ///     host.give_up(write)?;
    ///     disk.end(host).map_err(|(_, why)| why)?;
    ///     disk.serve(1)?;
    ///     host = disk.again(1)?;
    ///     // (a poll takes what came since)
    ///     assert_eq!(host.poll(write), Err(Error::NoCall));
    /// }
    /// let read = host.read(3, 1)?;
    /// disk.serve(1)?;
    /// assert_eq!(host.poll(read)?, Reply::Read(vec![0xA1; 512]));
    /// # Ok::<(), Error>(())
    /// ```
    ///
    /// # Errors
    /// [`Error::InCall`] where a call wasn't given up, [`Error::OtherHost`] where no host of its number, made of this disk,
    /// lives.
    pub fn end(&mut self, host: Host) -> std::result::Result<(), (Host, Error)> {
        // SAFETY: nobody else has these handles, which aren't Sync, and they aren't the same.
        let status = unsafe { sys::vandrexu_host_end(self.handle.get(), host.handle.get()) };
        told(status).map_err(|why| (host, why))
    }

    /// The host of this number that ended, on its submission queue, as it was. It takes none of the hosts that are left,
    /// so a host may end and be made again for ever.
    ///
    /// # Errors
    /// [`Error::OtherHost`] where none ended; [`Error::NoMemory`], and it can be asked for again.
    pub fn again(&mut self, number: u32) -> Result<Host> {
        let mut handle = sys::VANDREXU_HOST_NONE;
        // SAFETY: as in host.
        told(unsafe { sys::vandrexu_host_again(self.handle.get(), number, &mut handle) })?;
        Ok(Host { handle: UnsafeCell::new(handle) })
    }

    /// How many hosts, of either kind, can be made of it yet.
    ///
    /// ```
    /// use vandrexu::{Config, Disk};
    ///
    /// let mut disk = Disk::new(&Config { pairs: 2, cqs: 2, ..Config::default() }, 2)?;
    /// let one = disk.host(1, 1)?;
    /// assert_eq!(disk.hosts_left(), 1);
    /// # drop(one);
    /// # Ok::<(), vandrexu::Error>(())
    /// ```
    #[must_use]
    pub fn hosts_left(&self) -> usize {
        let mut count = 0;
        // SAFETY: as in host.
        let status = unsafe { sys::vandrexu_disk_hosts_left(self.handle.get(), &mut count) };
        assert_eq!(told(status), Ok(()), "a disk has its handle until it is dropped");
        count
    }

    /// Fetches the next command of a submission queue, or a fused pair, and makes all that it has to do.
    ///
    /// # Errors
    /// [`Error::NoEntry`], [`Error::NoQueue`], [`Error::JobsFull`]; [`Error::CqFull`], [`Error::NoMemory`] and
    /// [`Error::Busy`], where what was fetched is kept: the next call goes on with it, whichever queue it names.
    pub fn serve(&mut self, queue: u16) -> Result<()> {
        // SAFETY: as in host.
        told(unsafe { sys::vandrexu_disk_serve(self.handle.get(), queue) })
    }

    /// Fetches the next command of a submission queue, or a fused pair, and keeps what has to be done.
    ///
    /// # Errors
    /// Those of [`serve`](Disk::serve); [`Error::Unfinished`] where something is kept.
    pub fn fetch(&mut self, queue: u16) -> Result<()> {
        // SAFETY: as in host.
        told(unsafe { sys::vandrexu_disk_fetch(self.handle.get(), queue) })
    }

    /// Makes the next step of what is kept, and says whether there was one.
    ///
    /// ```
    /// use vandrexu::{Config, Disk};
    ///
    /// let mut disk = Disk::new(&Config::default(), 1)?;
    /// let mut host = disk.host(1, 1)?;
    /// host.read(3, 1)?;
    /// disk.fetch(1)?;
    /// let mut steps = 0;
    /// while disk.task()? {
    ///     steps += 1;
    /// }
    /// assert_eq!(steps, 3);
    /// # Ok::<(), vandrexu::Error>(())
    /// ```
    ///
    /// # Errors
    /// [`Error::CqFull`], [`Error::NoMemory`], [`Error::Busy`].
    pub fn task(&mut self) -> Result<bool> {
        // SAFETY: as in host.
        match told(unsafe { sys::vandrexu_disk_task(self.handle.get()) }) {
            Ok(()) => Ok(true),
            Err(Error::NothingReady) => Ok(false),
            Err(other) => Err(other),
        }
    }

    /// Forgets the steps of the disk's history before a place, the k-th step's being k: their memory is used again.
    /// `u64::MAX` is for all so far. Nothing that a host or the disk is answered changes by it.
    ///
    /// # Errors
    /// [`Error::Busy`].
    pub fn forget(&mut self, place: u64) -> Result<()> {
        // SAFETY: as in host.
        told(unsafe { sys::vandrexu_disk_forget(self.handle.get(), place) })
    }
}

impl Disk {
    /// How many steps were made.
    ///
    /// # Errors
    /// [`Error::Busy`].
    pub fn history_count(&self) -> Result<u64> {
        let mut count = 0;
        // SAFETY: as in host.
        told(unsafe { sys::vandrexu_disk_history_count(self.handle.get(), &mut count) })?;
        Ok(count)
    }

    /// The lines of the history from a place on, as of [`Controller::history`](crate::Controller::history). Each
    /// [`Error::Busy`] ends it.
    ///
    /// ```
    /// use vandrexu::{Checker, Config, Disk, SlotChecker};
    ///
    /// let config = Config { pairs: 2, cqs: 2, ..Config::default() };
    /// let mut disk = Disk::with_slots(&config, 1, 2, 4)?;
    /// let mut one = disk.slot_host(1, 1)?;
    /// one.claim(0)?;
    /// disk.serve(1)?;
    /// let (mut legal, mut slots) = (Checker::new(&config)?, SlotChecker::new(&config, 2, 4)?);
    /// for line in disk.history(1) {
    ///     let line = line?;
    ///     legal.take_line(&line)?;
    ///     slots.take_line(&line)?;
    /// }
    /// assert_eq!(disk.history_count()?, 7);
    /// assert_eq!(disk.medium(2)?[0], 1);
    /// # Ok::<(), vandrexu::Error>(())
    /// ```
    pub fn history(&self, from: u64) -> HistoryLines<'_> {
        HistoryLines::of(Source::Disk(self), from)
    }

    /// A piece of the history in this room: its length, and the place behind it.
    pub(crate) fn piece(&self, from: u64, room: &mut Vec<u8>) -> Result<(usize, u64)> {
        piece(room, |out, length, needed, next| {
            // SAFETY: as in host; so many bytes are there.
            unsafe { sys::vandrexu_disk_history(self.handle.get(), from, out, length, needed, next) }
        })
    }

    /// The block as it lies in the volume, also in the middle of a unit.
    ///
    /// # Errors
    /// [`Error::NoBlock`], [`Error::Busy`].
    pub fn medium(&self, lba: u64) -> Result<[u8; BLOCK]> {
        let mut block = [0; BLOCK];
        // SAFETY: as in host; 512 bytes are there.
        told(unsafe { sys::vandrexu_disk_medium(self.handle.get(), lba, block.as_mut_ptr()) })?;
        Ok(block)
    }
}

impl Drop for Disk {
    fn drop(&mut self) {
        // SAFETY: nobody else has the handle; it is used no more.
        unsafe { sys::vandrexu_disk_free(self.handle.get()) }
    }
}

impl fmt::Debug for Disk {
    fn fmt(&self, f: &mut fmt::Formatter<'_>) -> fmt::Result {
        f.debug_struct("Disk").finish_non_exhaustive()
    }
}

/// What became of a host's call.
#[derive(Clone, Debug, PartialEq, Eq)]
#[must_use]
pub enum Reply {
    /// Not all its completions were reaped.
    Pending,
    /// It read this.
    Read(Vec<u8>),
    /// It wrote, also zeros.
    Written,
    /// A Compare's data was on the blocks.
    Equal,
    /// The data of a Compare, or of a Compare and Write, wasn't on the blocks.
    Differs,
    /// A Compare and Write's data was on the blocks, and they were written.
    Swapped,
    /// It failed, with this Status Code Type and Status Code.
    Failed {
        /// The Status Code Type.
        sct: u8,
        /// The Status Code.
        sc: u8,
    },
}

impl Reply {
    /// What a host's poll told; of a Read with what was read.
    pub(crate) fn of(told: &sys::vandrexu_reply, read: impl FnOnce() -> Result<Vec<u8>>) -> Result<Reply> {
        Ok(match told.kind {
            sys::VANDREXU_REPLY_PENDING => Reply::Pending,
            sys::VANDREXU_REPLY_READ => Reply::Read(read()?),
            sys::VANDREXU_REPLY_WRITTEN => Reply::Written,
            sys::VANDREXU_REPLY_EQUAL => Reply::Equal,
            sys::VANDREXU_REPLY_DIFFERS => Reply::Differs,
            sys::VANDREXU_REPLY_SWAPPED => Reply::Swapped,
            sys::VANDREXU_REPLY_FAILED => Reply::Failed { sct: told.sct, sc: told.sc },
            other => panic!("the archive answered the reply {other}, which this version doesn't have"),
        })
    }
}

/// What a host read last: asks for it with the room that is wanted.
pub(crate) fn last_read(mut ask: impl FnMut(*mut u8, usize, *mut usize) -> u32) -> Result<Vec<u8>> {
    let (mut data, mut needed) = (Vec::new(), 0);
    loop {
        // (an empty Vec has an address that isn't null)
        match told(ask(data.as_mut_ptr(), data.len(), &mut needed)) {
            Ok(()) => return Ok(data),
            Err(Error::TooSmall) => resize(&mut data, needed)?,
            Err(other) => return Err(other),
        }
    }
}

/// A host of a [`Disk`], with a driver, and up to 64 commands in flight, of which a pair is two. It is freed where it is
/// dropped.
///
/// A call is begun, and then polled by its number until it is over. A host outlives its disk's handle, but is served no
/// more.
///
/// ```
/// use vandrexu::{Config, Disk, Error, Reply};
///
/// let mut disk = Disk::new(&Config::default(), 1)?;
/// let mut host = disk.host(1, 1)?;
/// let write = host.write(3, &[0xA1; 1024])?;
/// let zeroes = host.write_zeroes(3, 1)?;
/// assert_eq!(host.poll(write)?, Reply::Pending);
/// disk.serve(1)?;
/// disk.serve(1)?;
/// // (each poll reaps a completion, of whichever call)
/// assert_eq!((host.poll(zeroes)?, host.poll(zeroes)?), (Reply::Pending, Reply::Written));
/// assert_eq!((host.poll(write)?, host.poll(write)), (Reply::Written, Err(Error::NoCall)));
/// let read = host.read(3, 2)?;
/// disk.serve(1)?;
/// assert_eq!(host.poll(read)?, Reply::Read([[0; 512], [0xA1; 512]].concat()));
/// # Ok::<(), Error>(())
/// ```
#[must_use = "a host that is dropped takes its place on the disk with it"]
pub struct Host {
    handle: UnsafeCell<sys::vandrexu_host>,
}

// SAFETY: as of Disk.
unsafe impl Send for Host {}

impl Host {
    /// Begins to read so many blocks.
    ///
    /// # Errors
    /// [`Error::CallLength`] of no block, [`Error::CallTooLong`], [`Error::CallNoRoom`] where too few of the 64 commands
    /// are free, or the submission queue is full, [`Error::Busy`], [`Error::NoMemory`]: nothing was published.
    pub fn read(&mut self, lba: u64, blocks: u32) -> Result<CallNumber> {
        // SAFETY: nobody else has the handle, which isn't Sync.
        begun(|call| unsafe { sys::vandrexu_host_read(self.handle.get(), lba, blocks, call) })
    }

    /// Begins to write zeros to so many blocks.
    ///
    /// # Errors
    /// As [`read`](Host::read); [`Error::CallSlotArea`] where a slot of the disk is among the blocks.
    pub fn write_zeroes(&mut self, lba: u64, blocks: u32) -> Result<CallNumber> {
        // SAFETY: as in read.
        begun(|call| unsafe { sys::vandrexu_host_write_zeroes(self.handle.get(), lba, blocks, call) })
    }

    /// Begins to write this data, 512 bytes a block.
    ///
    /// # Errors
    /// As [`write_zeroes`](Host::write_zeroes); [`Error::CallLength`] also of data that isn't whole blocks.
    pub fn write(&mut self, lba: u64, data: &[u8]) -> Result<CallNumber> {
        // SAFETY: as in read; a slice has an address that isn't null.
        begun(|call| unsafe { sys::vandrexu_host_write(self.handle.get(), lba, data.as_ptr(), data.len(), call) })
    }

    /// Begins to compare this data, 512 bytes a block, with what is there.
    ///
    /// # Errors
    /// As [`write`](Host::write), but for [`Error::CallSlotArea`].
    pub fn compare(&mut self, lba: u64, data: &[u8]) -> Result<CallNumber> {
        // SAFETY: as in write.
        begun(|call| unsafe { sys::vandrexu_host_compare(self.handle.get(), lba, data.as_ptr(), data.len(), call) })
    }

    /// Begins to write the desired data where the blocks hold the expected data, as one fused pair.
    ///
    /// # Errors
    /// As [`write`](Host::write); [`Error::CallLength`] also of two data of unlike lengths, and [`Error::CallTooLong`] of
    /// more than `acwu` and one blocks.
    pub fn compare_and_write(&mut self, lba: u64, expected: &[u8], desired: &[u8]) -> Result<CallNumber> {
        let (old, new) = (expected, desired);
        // SAFETY: as in write; both are only read.
        begun(|call| unsafe {
            sys::vandrexu_host_compare_and_write(
                self.handle.get(),
                lba,
                old.as_ptr(),
                old.len(),
                new.as_ptr(),
                new.len(),
                call,
            )
        })
    }

    /// Reaps at most one completion, of whichever call, and says what became of this call, which is over but where it is
    /// pending. Calls are polled in any order. Where calls were given up, one of them has its turn first, and reaps one
    /// more.
    ///
    /// # Errors
    /// [`Error::NoCall`] where no call has the number; [`Error::Busy`] and [`Error::NoMemory`], where the call goes on.
    pub fn poll(&mut self, call: CallNumber) -> Result<Reply> {
        let mut reply = sys::vandrexu_reply::default();
        // SAFETY: as in read.
        match told(unsafe { sys::vandrexu_host_poll(self.handle.get(), call.0, &mut reply) }) {
            Ok(()) | Err(Error::CallFailed) => {}
            Err(other) => return Err(other),
        }
        Reply::of(&reply, || {
            last_read(|out, room, needed| {
                // SAFETY: as in read; so many bytes are there.
                unsafe { sys::vandrexu_host_data(self.handle.get(), out, room, needed) }
            })
        })
    }
    /// Gives up a call, whose number is free then: what it asked for is done or not, and nobody is told. Its CIDs stay in
    /// use until its completions came, and polls have reaped them.
    ///
    /// # Errors
    /// [`Error::NoCall`] where no call has the number; [`Error::NoMemory`], and the call goes on.
    pub fn give_up(&mut self, call: CallNumber) -> Result<()> {
        // SAFETY: as in read.
        told(unsafe { sys::vandrexu_host_give_up(self.handle.get(), call.0) })
    }

    /// How many calls the host waits for.
    ///
    /// ```
    /// use vandrexu::{Config, Disk, Error, Reply, Waiting};
    ///
    /// let mut disk = Disk::new(&Config::default(), 1)?;
    /// let mut host = disk.host(1, 1)?;
    /// let (one, two) = (host.read(0, 1)?, host.read(1, 1)?);
    /// host.give_up(one)?;
    /// assert_eq!(host.waiting(), Waiting { calls: 1, given_up: 1 });
    /// assert_eq!(host.poll(one), Err(Error::NoCall));
    /// disk.serve(1)?;
    /// // (the call that was given up has its turn)
    /// assert_eq!(host.poll(two)?, Reply::Pending);
    /// assert_eq!(host.waiting(), Waiting { calls: 1, given_up: 0 });
    /// # Ok::<(), Error>(())
    /// ```
    #[must_use]
    pub fn waiting(&self) -> Waiting {
        // SAFETY: as in read.
        waiting(|calls, given_up| unsafe { sys::vandrexu_host_waiting(self.handle.get(), calls, given_up) })
    }
}

impl Drop for Host {
    fn drop(&mut self) {
        // SAFETY: nobody else has the handle; it is used no more.
        unsafe { sys::vandrexu_host_free(self.handle.get()) }
    }
}

impl fmt::Debug for Host {
    fn fmt(&self, f: &mut fmt::Formatter<'_>) -> fmt::Result {
        f.debug_struct("Host").finish_non_exhaustive()
    }
}
