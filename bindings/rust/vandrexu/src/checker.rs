//! The checker of histories.
use crate::Config;
use crate::error::{Error, Result, told};
use crate::room::{resize, text, zeros};
use std::cell::UnsafeCell;
use std::fmt;
use vandrexu_sys as sys;

/// Checks the history of a controller line by line, and keeps no line. It is freed where it is dropped.
///
/// The lines are those of docs/CHECKING.md, without their line feeds. The configuration line, with which a history's
/// file begins, is no step: it is what [`Checker::new`] is given.
///
/// ```
/// use vandrexu::{Checker, Config, Error};
///
/// let mut checker = Checker::new(&Config::default())?;
/// checker.take_line(format!("publish 1 0000070001{} -", "0".repeat(118)))?;
/// checker.take_line("fetch 1 1 1 ok")?;
/// assert_eq!(checker.why("fetch 1 2 1 ok")?.as_deref(), Some("refused 3: no entry to fetch"));
/// assert_eq!(checker.take_line("fetch 1 2 1 ok"), Err(Error::NotLegal));
/// # Ok::<(), Error>(())
/// ```
pub struct Checker {
    // (also `why` is given a handle that could be written, so no reference to it is made)
    handle: UnsafeCell<sys::vandrexu_checker>,
}

// SAFETY: a handle may be used on another thread than before, and nobody else has what it owns.
unsafe impl Send for Checker {}

impl Checker {
    /// A checker of histories of this configuration, which has taken no line.
    ///
    /// # Errors
    /// The configuration's [`fault`](Config::fault); [`Error::NoMemory`].
    pub fn new(config: &Config) -> Result<Checker> {
        let mut handle = sys::VANDREXU_CHECKER_NONE;
        // SAFETY: both are there during the call, and aren't the same.
        told(unsafe { sys::vandrexu_checker_new(&config.raw(), &mut handle) })?;
        Ok(Checker { handle: UnsafeCell::new(handle) })
    }

    /// Takes the next line of the history.
    ///
    /// # Errors
    /// [`Error::NotLegal`] where the history with it isn't legal, and from then on for each;
    /// [`Error::BadLine`] and [`Error::NoMemory`], where it isn't taken.
    pub fn take_line(&mut self, line: impl AsRef<[u8]>) -> Result<()> {
        let line = line.as_ref();
        // SAFETY: nobody else has the handle, which isn't Sync; a slice has an address that isn't null.
        told(unsafe { sys::vandrexu_checker_take_line(self.handle.get(), line.as_ptr(), line.len()) })
    }

    /// The words of the first rule that the next line would break, and `None` where the history with it would be legal.
    /// The line isn't taken.
    ///
    /// # Errors
    /// [`Error::BadLine`], [`Error::NoMemory`].
    pub fn why(&self, line: impl AsRef<[u8]>) -> Result<Option<String>> {
        let line = line.as_ref();
        let mut words = zeros(128)?;
        loop {
            let mut needed = 0;
            // SAFETY: as in take_line; so much room is there.
            let status = unsafe {
                sys::vandrexu_checker_why(
                    self.handle.get(),
                    line.as_ptr(),
                    line.len(),
                    words.as_mut_ptr(),
                    words.len(),
                    &mut needed,
                )
            };
            match told(status) {
                Ok(()) => return Ok(None),
                Err(Error::NotLegal) => return Ok(Some(text(&words[..needed])?)),
                Err(Error::TooSmall) => resize(&mut words, needed)?,
                Err(other) => return Err(other),
            }
        }
    }
}

impl Drop for Checker {
    fn drop(&mut self) {
        // SAFETY: nobody else has the handle; it is used no more.
        unsafe { sys::vandrexu_checker_free(self.handle.get()) }
    }
}

impl fmt::Debug for Checker {
    fn fmt(&self, f: &mut fmt::Formatter<'_>) -> fmt::Result {
        f.debug_struct("Checker").finish_non_exhaustive()
    }
}
