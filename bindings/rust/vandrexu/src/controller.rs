//! The controller.
use crate::answers::{Blocked, Completion, Granted, Made, Reaped, Step, Work};
use crate::error::{Error, Result, told};
use crate::iterators::{Completions, HistoryLines, Source, Steps, piece};
use crate::room::{room, zeros};
use crate::{BLOCK, Config, Entry};
use std::cell::UnsafeCell;
use std::fmt;
use vandrexu_sys as sys;

/// A controller in memory, with its volume, its queues and its history. It is freed where it is dropped.
///
/// Each call makes one step, or none and answers why. Nothing happens by itself: a published entry waits until it is
/// fetched, and a ticket goes on by [`grant`](Controller::grant), [`block`](Controller::block) and
/// [`post`](Controller::post), or by [`settle`](Controller::settle).
///
/// It isn't called from a signal handler, nor in a child that a process with threads forked.
pub struct Controller {
    // (also what only looks is given a handle that could be written, so no reference to it is made)
    handle: UnsafeCell<sys::vandrexu_controller>,
}

// SAFETY: a handle may be used on another thread than before, and nobody else has what it owns.
unsafe impl Send for Controller {}

impl Controller {
    /// A controller with no history, whose blocks are zeros.
    ///
    /// ```
    /// use vandrexu::{Config, Controller, Error};
    ///
    /// let disk = Controller::new(&Config::default())?;
    /// assert_eq!(disk.history_count(), 0);
    /// assert_eq!(disk.medium(1023)?, [0; 512]);
    /// assert!(matches!(Controller::new(&Config { blocks: 0, ..Config::default() }), Err(Error::BadBlocks)));
    /// # Ok::<(), Error>(())
    /// ```
    ///
    /// # Errors
    /// The configuration's [`fault`](Config::fault); [`Error::NoMemory`].
    pub fn new(config: &Config) -> Result<Controller> {
        let mut handle = sys::VANDREXU_CONTROLLER_NONE;
        // SAFETY: both are there during the call, and aren't the same.
        told(unsafe { sys::vandrexu_controller_new(&config.raw(), &mut handle) })?;
        Ok(Controller { handle: UnsafeCell::new(handle) })
    }

    /// The handle, which owns a controller. The caller uses it for one call, during which nobody else has it: it isn't
    /// `Sync`, and no call calls back.
    fn at(&self) -> *mut sys::vandrexu_controller {
        self.handle.get()
    }

    /// Makes the memory of so many Grants, Blocks and Reaps that come next, so that none of them says
    /// [`Error::NoMemory`].
    ///
    /// # Errors
    /// [`Error::NoMemory`]: no less is promised than before.
    pub fn reserve(&mut self, more: usize) -> Result<()> {
        // SAFETY: as `at` says.
        told(unsafe { sys::vandrexu_controller_reserve(self.at(), more) })
    }

    /// Publishes all these entries to a submission queue, or none.
    ///
    /// ```
    /// use vandrexu::{Config, Controller, Entry, Error};
    ///
    /// let mut disk = Controller::new(&Config { sq_size: 2, ..Config::default() })?;
    /// assert_eq!(disk.publish(1, &[]), Err(Error::BadBatch));
    /// assert_eq!(disk.publish(2, &[Entry::flush(1)]), Err(Error::NoQueue));
    /// disk.publish(1, &[Entry::flush(1)])?;
    /// assert_eq!(disk.publish(1, &[Entry::flush(2)]), Err(Error::NoRoom));
    /// # Ok::<(), Error>(())
    /// ```
    ///
    /// # Errors
    /// [`Error::NoQueue`], [`Error::NoRoom`], [`Error::BadBatch`] of no entry, [`Error::NoMemory`].
    pub fn publish(&mut self, queue: u16, entries: &[Entry<'_>]) -> Result<()> {
        let mut data = room(entries.iter().map(|it| it.data.len()).sum())?;
        let mut raw = room(entries.len())?;
        for it in entries {
            data.extend_from_slice(it.data);
            raw.push(sys::vandrexu_entry { bytes: it.bytes, count: it.data.len() });
        }
        // SAFETY: as `at` says; an empty Vec has an address that isn't null.
        told(unsafe {
            sys::vandrexu_controller_publish(self.at(), queue, raw.as_ptr(), raw.len(), data.as_ptr(), data.len())
        })
    }

    /// Takes the next command of a submission queue, or a fused pair, as the next ticket.
    ///
    /// ```
    /// use vandrexu::{Config, Controller, Entry, Op, Task};
    ///
    /// let mut disk = Controller::new(&Config::default())?;
    /// disk.publish(1, &[Entry::read(7, 3), Entry::read(7, 3), Entry::flush(8)])?;
    /// assert_eq!(disk.fetch(1)?.task, Task::Units { op: Op::Read, slba: 3, blocks: 1 });
    /// assert_eq!(disk.fetch(1)?.task, Task::Failed { statuses: 1 }); // its CID is in use
    /// assert_eq!(disk.fetch(1)?.task, Task::Flush);
    /// # Ok::<(), vandrexu::Error>(())
    /// ```
    ///
    /// # Errors
    /// [`Error::NoQueue`], [`Error::NoEntry`], [`Error::JobsFull`], [`Error::NoMemory`].
    pub fn fetch(&mut self, queue: u16) -> Result<Work> {
        let mut work = sys::vandrexu_work::default();
        // SAFETY: as `at` says.
        told(unsafe { sys::vandrexu_controller_fetch(self.at(), queue, &mut work) })?;
        Ok(work.into())
    }

    /// The ticket's next unit begins, and holds its blocks.
    ///
    /// # Errors
    /// [`Error::NoTicket`], [`Error::WrongState`], [`Error::Conflict`], [`Error::NoMemory`].
    pub fn grant(&mut self, ticket: u64) -> Result<Granted> {
        let mut granted = sys::vandrexu_granted::default();
        // SAFETY: as `at` says.
        told(unsafe { sys::vandrexu_controller_grant(self.at(), ticket, &mut granted) })?;
        Ok(granted.into())
    }

    /// The next block of the ticket's open unit is read, compared or written.
    ///
    /// ```
    /// use vandrexu::{Config, Controller, Entry, Found, Mode};
    ///
    /// let mut disk = Controller::new(&Config::default())?;
    /// disk.publish(1, &[Entry::compare(7, 3, &[0xA1; 512])])?;
    /// let ticket = disk.fetch(1)?.ticket;
    /// assert_eq!(disk.grant(ticket)?.mode, Mode::Shared);
    /// let block = disk.block(ticket)?;
    /// assert_eq!((block.lba, block.found, block.effect, block.ended), (3, Found::Differs, true, true));
    /// assert_eq!(disk.post(ticket)?.status(), (2, 0x85));
    /// # Ok::<(), vandrexu::Error>(())
    /// ```
    ///
    /// # Errors
    /// [`Error::NoTicket`], [`Error::WrongState`], [`Error::NoMemory`].
    pub fn block(&mut self, ticket: u64) -> Result<Blocked> {
        let mut blocked = sys::vandrexu_blocked::default();
        // SAFETY: as `at` says.
        told(unsafe { sys::vandrexu_controller_block(self.at(), ticket, &mut blocked) })?;
        Ok(blocked.into())
    }

    /// The next completion that the ticket owes goes into its completion queue.
    ///
    /// # Errors
    /// [`Error::NoTicket`], [`Error::WrongState`], [`Error::CqFull`], [`Error::NoMemory`].
    pub fn post(&mut self, ticket: u64) -> Result<Completion> {
        let mut completion = Completion([0; 16]);
        // SAFETY: as `at` says; 16 bytes are there.
        told(unsafe { sys::vandrexu_controller_post(self.at(), ticket, completion.0.as_mut_ptr()) })?;
        Ok(completion)
    }

    /// Makes a Grant, Block or Post.
    ///
    /// # Errors
    /// Those of the step.
    pub fn step(&mut self, step: Step) -> Result<Made> {
        match step {
            Step::Grant(ticket) => self.grant(ticket).map(Made::Granted),
            Step::Block(ticket) => self.block(ticket).map(Made::Blocked),
            Step::Post(ticket) => self.post(ticket).map(Made::Posted),
        }
    }

    /// The step of the least ticket that can go on. It isn't made.
    #[must_use]
    pub fn ready(&self) -> Option<Step> {
        let mut step = sys::vandrexu_step::default();
        // SAFETY: as `at` says.
        match told(unsafe { sys::vandrexu_controller_ready(self.at(), &mut step) }) {
            Ok(()) => Some(step.into()),
            Err(Error::NothingReady) => None,
            Err(other) => unreachable!("{other}"),
        }
    }

    /// Makes each step that is ready, as it is asked for, until nothing is.
    ///
    /// ```
    /// use vandrexu::{Config, Controller, Entry, Made, Step};
    ///
    /// let mut disk = Controller::new(&Config::default())?;
    /// disk.publish(1, &[Entry::write(7, 3, &[0xA1; 512])])?;
    /// disk.fetch(1)?;
    /// let steps = disk.steps().map(|it| it.map(|(step, _)| step)).collect::<Result<Vec<_>, _>>()?;
    /// assert_eq!(steps, [Step::Grant(1), Step::Block(1), Step::Post(1)]);
    /// # Ok::<(), vandrexu::Error>(())
    /// ```
    pub fn steps(&mut self) -> Steps<'_> {
        Steps::of(self)
    }

    /// Makes what is ready until nothing is.
    ///
    /// # Errors
    /// [`Error::NoMemory`]: the steps before are made.
    pub fn settle(&mut self) -> Result<()> {
        // SAFETY: as `at` says.
        told(unsafe { sys::vandrexu_settle(self.at()) })
    }

    /// Takes the next completion of a completion queue, with what a successful Read read.
    ///
    /// # Errors
    /// [`Error::NoQueue`], [`Error::NoCompletion`], [`Error::NoMemory`]. Where there is no memory for what was read, the
    /// completion is taken all the same: [`Controller::reap_completion`] takes none for it.
    pub fn reap(&mut self, queue: u16) -> Result<Reaped> {
        let (completion, count) = self.reap_completion(queue)?;
        let mut data = zeros(count)?;
        self.data(&mut data)?;
        Ok(Reaped { completion, data })
    }

    /// Takes the next completion of a completion queue, and says how many bytes it read: [`Controller::data`] has them
    /// until the next completion is taken.
    ///
    /// ```
    /// use vandrexu::{Config, Controller, Entry, Error};
    ///
    /// let mut disk = Controller::new(&Config::default())?;
    /// disk.publish(1, &[Entry::read(7, 3)])?;
    /// disk.fetch(1)?;
    /// disk.settle()?;
    /// let mut room = [1; 600];
    /// let (completion, count) = disk.reap_completion(1)?;
    /// assert_eq!((completion.cid(), count), (7, 512));
    /// assert_eq!(disk.data(&mut room[..511]), Err(Error::TooSmall));
    /// assert_eq!(disk.data(&mut room), Ok(512));
    /// assert_eq!((room[511], room[512]), (0, 1));
    /// # Ok::<(), Error>(())
    /// ```
    ///
    /// # Errors
    /// [`Error::NoQueue`], [`Error::NoCompletion`], [`Error::NoMemory`].
    pub fn reap_completion(&mut self, queue: u16) -> Result<(Completion, usize)> {
        let (mut completion, mut count) = (Completion([0; 16]), 0);
        // SAFETY: as `at` says; 16 bytes are there.
        told(unsafe { sys::vandrexu_controller_reap(self.at(), queue, completion.0.as_mut_ptr(), &mut count) })?;
        Ok((completion, count))
    }

    /// Copies what the completion that was taken last had read, and says how many bytes that is.
    ///
    /// # Errors
    /// [`Error::TooSmall`] where the room is: nothing is copied.
    pub fn data(&self, room: &mut [u8]) -> Result<usize> {
        let mut count = 0;
        // SAFETY: as `at` says; so many bytes are there, and a slice has an address that isn't null.
        told(unsafe { sys::vandrexu_controller_data(self.at(), room.as_mut_ptr(), room.len(), &mut count) })?;
        Ok(count)
    }

    /// Takes completions of a completion queue, as they are asked for, until none is there.
    ///
    /// ```
    /// use vandrexu::{Config, Controller, Entry};
    ///
    /// let mut disk = Controller::new(&Config::default())?;
    /// disk.publish(1, &[Entry::write(7, 3, &[0xA1; 512]), Entry::read(8, 3)])?;
    /// disk.fetch(1)?;
    /// disk.settle()?;
    /// disk.fetch(1)?;
    /// disk.settle()?;
    /// let reaped = disk.completions(1).collect::<Result<Vec<_>, _>>()?;
    /// assert_eq!(reaped.iter().map(|it| it.completion.cid()).collect::<Vec<_>>(), [7, 8]);
    /// assert_eq!(reaped[1].data, [0xA1; 512]);
    /// # Ok::<(), vandrexu::Error>(())
    /// ```
    pub fn completions(&mut self, queue: u16) -> Completions<'_> {
        Completions::of(self, queue)
    }

    /// The block as it lies in the volume, also in the middle of a unit.
    ///
    /// # Errors
    /// [`Error::NoBlock`].
    pub fn medium(&self, lba: u64) -> Result<[u8; BLOCK]> {
        let mut block = [0; BLOCK];
        // SAFETY: as `at` says; 512 bytes are there.
        told(unsafe { sys::vandrexu_controller_medium(self.at(), lba, block.as_mut_ptr()) })?;
        Ok(block)
    }

    /// How many steps were made.
    #[must_use]
    pub fn history_count(&self) -> u64 {
        let mut count = 0;
        // SAFETY: as `at` says.
        let status = unsafe { sys::vandrexu_controller_history_count(self.at(), &mut count) };
        assert_eq!(told(status), Ok(()), "a controller has its handle until it is dropped");
        count
    }

    /// Forgets the steps before a place, which counts as in [`Controller::history`]: their memory is used again, and the
    /// places of the others stay. What was forgotten before stays so.
    ///
    /// ```
    /// use vandrexu::{Config, Controller, Entry, Error};
    ///
    /// let mut disk = Controller::new(&Config::default())?;
    /// disk.publish(1, &[Entry::flush(7)])?;
    /// disk.fetch(1)?;
    /// disk.forget(2);
    /// assert_eq!(disk.history(1).next(), Some(Err(Error::Forgotten)));
    /// assert_eq!(disk.history(2).next(), Some(Ok("fetch 1 1 1 ok".into())));
    /// # Ok::<(), vandrexu::Error>(())
    /// ```
    pub fn forget(&mut self, place: u64) {
        // SAFETY: as `at` says.
        let status = unsafe { sys::vandrexu_controller_forget(self.at(), place) };
        assert_eq!(told(status), Ok(()), "a controller has its handle until it is dropped");
    }

    /// Makes the step of the next line of a history once more. So a new controller that is given all lines of a history
    /// but the first, its configuration's, goes on from there; or it says at which step a controller of this kind would
    /// have done something else.
    ///
    /// ```
    /// use vandrexu::{Config, Controller, Entry, Error};
    ///
    /// let mut disk = Controller::new(&Config::default())?;
    /// disk.publish(1, &[Entry::write(7, 3, &[0xA1; 512])])?;
    /// disk.fetch(1)?;
    /// let mut again = Controller::new(&Config::default())?;
    /// for line in disk.history(1) {
    ///     again.replay(line?)?;
    /// }
    /// again.settle()?;
    /// assert_eq!(again.medium(3), Ok([0xA1; 512]));
    /// assert_eq!(again.replay("reap 1 00000000000000000100010007000000"), Err(Error::OtherEntry));
    /// # Ok::<(), Error>(())
    /// ```
    ///
    /// # Errors
    /// [`Error::OtherEntry`] where the step was made and has another line, which is now the last of the history; those of
    /// the step, [`Error::BadLine`] and [`Error::NoMemory`], where it wasn't made.
    pub fn replay(&mut self, line: impl AsRef<[u8]>) -> Result<()> {
        let line = line.as_ref();
        // SAFETY: as `at` says; a slice has an address that isn't null.
        told(unsafe { sys::vandrexu_controller_replay(self.at(), line.as_ptr(), line.len()) })
    }

    /// The lines of the history from a place on, without their line feeds. Place 0 is the configuration's line, and place
    /// k the k-th step's; what stands before costs nothing. A step that was forgotten gives [`Error::Forgotten`].
    ///
    /// ```
    /// use vandrexu::{Config, Controller, Entry};
    ///
    /// let mut disk = Controller::new(&Config::default())?;
    /// disk.publish(1, &[Entry::flush(7)])?;
    /// disk.fetch(1)?;
    /// let lines = disk.history(0).collect::<Result<Vec<_>, _>>()?;
    /// assert_eq!(lines[0], Config::default().to_string());
    /// assert_eq!(lines[2], "fetch 1 1 1 ok");
    /// disk.settle()?;
    /// assert_eq!(disk.history(3).next(), Some(Ok("post 1 00000000000000000100010007000100 -".into())));
    /// # Ok::<(), vandrexu::Error>(())
    /// ```
    pub fn history(&self, from: u64) -> HistoryLines<'_> {
        HistoryLines::of(Source::Controller(self), from)
    }

    /// A piece of the history in this room: its length, and the place behind it.
    pub(crate) fn piece(&self, from: u64, room: &mut Vec<u8>) -> Result<(usize, u64)> {
        piece(room, |out, length, needed, next| {
            // SAFETY: as `at` says; so many bytes are there.
            unsafe { sys::vandrexu_controller_history(self.at(), from, out, length, needed, next) }
        })
    }
}

impl Drop for Controller {
    fn drop(&mut self) {
        // SAFETY: as `at` says; it is used no more.
        unsafe { sys::vandrexu_controller_free(self.at()) }
    }
}

impl fmt::Debug for Controller {
    fn fmt(&self, f: &mut fmt::Formatter<'_>) -> fmt::Result {
        f.debug_struct("Controller").field("history_count", &self.history_count()).finish_non_exhaustive()
    }
}
