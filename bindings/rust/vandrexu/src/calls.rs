//! The calls of a host by their numbers.
use crate::error::{Result, told};

/// The number of a call of a [`Host`](crate::Host) or a [`RemoteHost`](crate::RemoteHost). Once the call is over, or given
/// up, the next one may have it.
#[derive(Clone, Copy, Debug, PartialEq, Eq, Hash)]
pub struct CallNumber(pub(crate) u32);

/// How many calls a host waits for.
#[derive(Clone, Copy, Debug, PartialEq, Eq)]
pub struct Waiting {
    /// Those that have a number.
    pub calls: usize,
    /// Those that were given up, and keep their CIDs.
    pub given_up: usize,
}

/// The number of a call that was begun.
pub(crate) fn begun(ask: impl FnOnce(&mut u32) -> u32) -> Result<CallNumber> {
    let mut call = 0;
    told(ask(&mut call))?;
    Ok(CallNumber(call))
}

/// How many calls a handle that has a host waits for.
pub(crate) fn waiting(ask: impl FnOnce(&mut usize, &mut usize) -> u32) -> Waiting {
    let mut waiting = Waiting { calls: 0, given_up: 0 };
    let status = ask(&mut waiting.calls, &mut waiting.given_up);
    assert_eq!(told(status), Ok(()), "a host has its handle until it is dropped");
    waiting
}
