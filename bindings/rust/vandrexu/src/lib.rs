//! An NVM Express controller in memory, around the fused Compare and Write, hosts with a driver each, also of a controller
//! that is somewhere else, slots that hosts claim and release, and a checker of histories.
//!
//! Whoever tests firmware, or builds locks over Compare and Write, has both in a program of their own. The controller
//! makes one step at a time, when it is asked; the checker says of each line of a log whether the controller that wrote
//! it did right.
//!
//! ```
//! use vandrexu::{Config, Controller, Entry};
//!
//! let mut disk = Controller::new(&Config::of_line("config 8 1 1 0 0 2 4 4 8")?)?;
//! let (free, mine) = ([0; 512], [0xA1; 512]);
//! disk.publish(1, &[Entry::compare(7, 3, &free).first(), Entry::write(8, 3, &mine).second()])?;
//! disk.fetch(1)?;
//! disk.settle()?;
//! assert!(disk.completions(1).all(|it| it.is_ok_and(|it| it.completion.is_success())));
//! assert_eq!(disk.medium(3)?, mine);
//! # Ok::<(), vandrexu::Error>(())
//! ```
//!
//! It stands on the archive libvandrexu_c.a, each function of which is proved; this crate is only tested
//! (docs/LIBRARY.md). A handle goes to another thread, and is used by one at a time:
//!
//! ```
//! fn goes<T: Send>() {}
//! goes::<vandrexu::Controller>();
//! goes::<vandrexu::Checker>();
//! goes::<vandrexu::Disk>();
//! goes::<vandrexu::Host>();
//! goes::<vandrexu::SlotHost>();
//! goes::<vandrexu::RemoteHost>();
//! goes::<vandrexu::RemoteSlotHost>();
//! goes::<vandrexu::SlotChecker>();
//! goes::<vandrexu::Tracer>();
//! ```
//!
//! ```compile_fail,E0277
//! fn is_shared<T: Sync>() {}
//! is_shared::<vandrexu::Controller>();
//! ```
//!
//! ```compile_fail,E0277
//! fn is_shared<T: Sync>() {}
//! is_shared::<vandrexu::Checker>();
//! ```
//!
//! ```compile_fail,E0277
//! fn is_shared<T: Sync>() {}
//! is_shared::<vandrexu::Disk>();
//! ```
//!
//! ```compile_fail,E0277
//! fn is_shared<T: Sync>() {}
//! is_shared::<vandrexu::Host>();
//! ```
//!
//! ```compile_fail,E0277
//! fn is_shared<T: Sync>() {}
//! is_shared::<vandrexu::SlotHost>();
//! ```
//!
//! ```compile_fail,E0277
//! fn is_shared<T: Sync>() {}
//! is_shared::<vandrexu::RemoteHost>();
//! ```
//!
//! ```compile_fail,E0277
//! fn is_shared<T: Sync>() {}
//! is_shared::<vandrexu::RemoteSlotHost>();
//! ```
mod answers;
mod calls;
mod checker;
mod config;
mod controller;
mod entry;
mod error;
mod hosts;
mod iterators;
mod remote;
mod remote_slots;
mod room;
mod slot_checker;
mod slots;
mod texts;
mod tracer;

pub use answers::{Blocked, Completion, Found, Granted, Made, Mode, Op, Reaped, Step, Task, Work};
pub use calls::{CallNumber, Waiting};
pub use checker::Checker;
pub use config::Config;
pub use controller::Controller;
pub use entry::Entry;
pub use error::{Error, Result};
pub use hosts::{Disk, Host, Reply};
pub use iterators::{Completions, HistoryLines, Steps};
pub use remote::{Outgoing, RemoteHost};
pub use remote_slots::RemoteSlotHost;
pub use slot_checker::{SlotChecker, SlotFault};
pub use slots::{Name, SlotHost, SlotReply};
pub use texts::{Lines, TextError, certify_text, check_text, observe_text, refute_text, run_text};
pub use tracer::Tracer;

/// The version of the archive's header.
pub const VERSION: &str = vandrexu_sys::VANDREXU_VERSION;

/// How many bytes a block of the volume has.
pub const BLOCK: usize = 512;

/// Lets all that this crate's types own together have so many bytes of memory at the most, from now on, in this process.
/// What wants more is answered [`Error::NoMemory`], and what is there stays; `usize::MAX` is for no limit.
///
/// ```
/// use vandrexu::{Config, Controller, Error};
///
/// vandrexu::heap_limit(vandrexu::heap_used() + 1000);
/// assert_eq!(Controller::new(&Config::default()).map(drop), Err(Error::NoMemory));
/// vandrexu::heap_limit(usize::MAX);
/// assert!(Controller::new(&Config::default()).is_ok());
/// ```
pub fn heap_limit(bytes: usize) {
    // SAFETY: it takes a number, and any thread may call it.
    unsafe { vandrexu_sys::vandrexu_heap_limit(bytes) }
}

/// How many bytes that is now. What Rust's own allocator gave, as for a [`Reaped`], doesn't count.
#[must_use]
pub fn heap_used() -> usize {
    // SAFETY: it takes nothing, and any thread may call it.
    unsafe { vandrexu_sys::vandrexu_heap_used() }
}
