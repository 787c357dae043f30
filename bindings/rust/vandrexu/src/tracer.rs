//! What hosts see of a history.
use crate::Config;
use crate::error::{Error, Result, told};
use crate::room::{resize, text, zeros};
use std::cell::UnsafeCell;
use std::fmt;
use vandrexu_sys as sys;

/// Makes the trace of a legal history (docs/OBSERVING.md), line by line, and keeps no line but the last. It is freed where
/// it is dropped.
///
/// The trace begins with the configuration's line, and has the lines that [`take_line`](Tracer::take_line) gives. The
/// history of a controller or a disk here is legal; of one that isn't nothing is said.
///
/// ```
/// use vandrexu::{Config, Disk, Tracer, observe_text};
///
/// let config = Config::default();
/// let mut disk = Disk::new(&config, 1)?;
/// let mut host = disk.host(1, 1)?;
/// let read = host.read(3, 1)?;
/// disk.serve(1)?;
/// let _ = host.poll(read)?;
/// let (mut tracer, mut trace) = (Tracer::new(&config)?, vec![config.to_string()]);
/// for line in disk.history(1) {
///     trace.extend(tracer.take_line(line?)?);
/// }
/// assert_eq!(trace.len(), 3);
/// assert!(trace[2].starts_with("reap 1 ") && trace[2].ends_with(" 00"));
/// assert!(observe_text(trace.join("\n") + "\n", 1000).is_ok());
/// # Ok::<(), vandrexu::Error>(())
/// ```
pub struct Tracer {
    handle: UnsafeCell<sys::vandrexu_tracer>,
}

// SAFETY: a handle may be used on another thread than before, and nobody else has what it owns.
unsafe impl Send for Tracer {}

impl Tracer {
    /// A tracer of histories of this configuration, which has taken no line.
    ///
    /// # Errors
    /// The configuration's [`fault`](Config::fault); [`Error::NoMemory`].
    pub fn new(config: &Config) -> Result<Tracer> {
        let mut handle = sys::VANDREXU_TRACER_NONE;
        // SAFETY: both are there during the call, and aren't the same.
        told(unsafe { sys::vandrexu_tracer_new(&config.raw(), &mut handle) })?;
        Ok(Tracer { handle: UnsafeCell::new(handle) })
    }

    /// Takes the next line of the history, and gives the line of the trace that it adds; `None` where hosts see nothing of
    /// it.
    ///
    /// # Errors
    /// [`Error::BadLine`] and [`Error::NoMemory`], where it isn't taken; but a line that it adds may be so long that there
    /// is no memory for it when it was taken.
    pub fn take_line(&mut self, line: impl AsRef<[u8]>) -> Result<Option<String>> {
        let (line, mut seen) = (line.as_ref(), zeros(256)?);
        // SAFETY: nobody else has the handle, which isn't Sync; a slice has an address that isn't null.
        told(unsafe { sys::vandrexu_tracer_take_line(self.handle.get(), line.as_ptr(), line.len()) })?;
        loop {
            let mut needed = 0;
            // SAFETY: as before; so much room is there.
            let status =
                unsafe { sys::vandrexu_tracer_seen(self.handle.get(), seen.as_mut_ptr(), seen.len(), &mut needed) };
            match told(status) {
                Ok(()) => return seen[..needed].strip_suffix(b"\n").map(text).transpose(),
                Err(Error::TooSmall) => resize(&mut seen, needed)?,
                Err(other) => return Err(other),
            }
        }
    }
}

impl Drop for Tracer {
    fn drop(&mut self) {
        // SAFETY: nobody else has the handle; it is used no more.
        unsafe { sys::vandrexu_tracer_free(self.handle.get()) }
    }
}

impl fmt::Debug for Tracer {
    fn fmt(&self, f: &mut fmt::Formatter<'_>) -> fmt::Result {
        f.debug_struct("Tracer").finish_non_exhaustive()
    }
}
