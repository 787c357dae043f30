//! The checker of the discipline of slots.
use crate::Config;
use crate::error::{Error, Result, told};
use crate::room::{resize, text, zeros};
use std::cell::UnsafeCell;
use std::fmt;
use vandrexu_sys as sys;

/// Checks whether the hosts of a legal history keep the discipline of their slots, line by line, and keeps no line. It is
/// freed where it is dropped.
///
/// The lines are those of docs/CHECKING.md, as of a [`Checker`](crate::Checker). The history of a disk is legal. Of one
/// that isn't nothing is said: give the lines of others to a [`Checker`](crate::Checker), too.
///
/// ```
/// use vandrexu::{Config, Disk, Error, SlotChecker};
///
/// let config = Config::default();
/// let mut disk = Disk::new(&config, 1)?;
/// let mut host = disk.host(1, 1)?;
/// host.write(3, &[0xA1; 512])?;
/// // (two slots: the blocks 3 and 4)
/// let mut slots = SlotChecker::new(&config, 3, 2)?;
/// let line = disk.history(1).next().expect("a Publish")?;
/// assert_eq!(slots.why()?, None);
/// assert_eq!(slots.take_line(line), Err(Error::SlotsMisused));
/// let fault = slots.why()?.expect("a wrong line");
/// assert_eq!((fault.place, fault.block), (1, 3));
/// assert_eq!(fault.words, "a write in the slots that is no claim, release or takeover");
/// # Ok::<(), Error>(())
/// ```
pub struct SlotChecker {
    // (also `why` is given a handle that could be written, so no reference to it is made)
    handle: UnsafeCell<sys::vandrexu_slot_checker>,
}

// SAFETY: a handle may be used on another thread than before, and nobody else has what it owns.
unsafe impl Send for SlotChecker {}

/// The first line of a history that breaks the discipline of slots.
#[derive(Clone, Debug, PartialEq, Eq)]
pub struct SlotFault {
    /// Its place, from 1.
    pub place: u64,
    /// The block of the slot.
    pub block: u64,
    /// The words of the rule that it breaks first.
    pub words: String,
}

impl SlotChecker {
    /// A checker of so many slots from block `first` on, for histories of this configuration, which has taken no line.
    ///
    /// # Errors
    /// [`Error::BadArea`] of no slot, or of one behind block 65,535; else the configuration's [`fault`](Config::fault);
    /// [`Error::NoMemory`].
    pub fn new(config: &Config, first: u64, count: u32) -> Result<SlotChecker> {
        let mut handle = sys::VANDREXU_SLOT_CHECKER_NONE;
        // SAFETY: both are there during the call, and aren't the same.
        told(unsafe { sys::vandrexu_slot_checker_new(&config.raw(), first, count, &mut handle) })?;
        Ok(SlotChecker { handle: UnsafeCell::new(handle) })
    }

    /// Takes the next line of the history.
    ///
    /// # Errors
    /// [`Error::SlotsMisused`] where the history with it doesn't keep the discipline, and from then on for each;
    /// [`Error::BadLine`] and [`Error::NoMemory`], where it isn't taken.
    pub fn take_line(&mut self, line: impl AsRef<[u8]>) -> Result<()> {
        let line = line.as_ref();
        // SAFETY: nobody else has the handle, which isn't Sync; a slice has an address that isn't null.
        told(unsafe { sys::vandrexu_slot_checker_take_line(self.handle.get(), line.as_ptr(), line.len()) })
    }

    /// The first of the lines that were taken that breaks the discipline, and `None` where none does.
    ///
    /// # Errors
    /// [`Error::NoMemory`].
    pub fn why(&self) -> Result<Option<SlotFault>> {
        let mut words = zeros(128)?;
        loop {
            let (mut place, mut block, mut needed) = (0, 0, 0);
            // SAFETY: as in take_line; so much room is there.
            let status = unsafe {
                sys::vandrexu_slot_checker_why(
                    self.handle.get(),
                    &mut place,
                    &mut block,
                    words.as_mut_ptr(),
                    words.len(),
                    &mut needed,
                )
            };
            match told(status) {
                Ok(()) => return Ok(None),
                Err(Error::SlotsMisused) => {
                    let words = text(&words[..needed])?;
                    return Ok(Some(SlotFault { place, block, words }));
                }
                Err(Error::TooSmall) => resize(&mut words, needed)?,
                Err(other) => return Err(other),
            }
        }
    }
}

impl Drop for SlotChecker {
    fn drop(&mut self) {
        // SAFETY: nobody else has the handle; it is used no more.
        unsafe { sys::vandrexu_slot_checker_free(self.handle.get()) }
    }
}

impl fmt::Debug for SlotChecker {
    fn fmt(&self, f: &mut fmt::Formatter<'_>) -> fmt::Result {
        f.debug_struct("SlotChecker").finish_non_exhaustive()
    }
}
