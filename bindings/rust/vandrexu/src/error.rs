//! What a call answers where it didn't do what it says.
use std::fmt;

/// What a call answers.
pub type Result<T> = std::result::Result<T, Error>;

macro_rules! errors {
    ($($(#[$about:meta])* $name:ident = $status:ident $(or $call:ident)?, $words:literal;)*) => {
        /// Why a call did nothing: all but what a call says otherwise is as before.
        ///
        /// ```
        /// use vandrexu::{Config, Controller, Error};
        ///
        /// let mut disk = Controller::new(&Config::default())?;
        /// assert_eq!(disk.fetch(1), Err(Error::NoEntry));
        /// assert_eq!(Error::NoEntry.to_string(), "no entry to fetch");
        /// assert_eq!(Error::NoEntry.status(), 3);
        /// # Ok::<(), Error>(())
        /// ```
        #[derive(Clone, Copy, Debug, PartialEq, Eq, Hash)]
        #[non_exhaustive]
        pub enum Error {
            $($(#[$about])* #[doc = concat!("Status ", stringify!($status), ": ", $words, ".")] $name,)*
            /// A status that vandrexu.h doesn't have: the archive isn't of this version.
            Unknown(u32),
        }

        impl Error {
            /// Each error but [`Error::Unknown`], in the order of their statuses.
            pub const ALL: &[Error] = &[$(Error::$name),*];

            /// The number of vandrexu.h, for an error of two numbers the first.
            #[must_use]
            pub fn status(self) -> u32 {
                match self {
                    $(Error::$name => vandrexu_sys::$status,)*
                    Error::Unknown(status) => status,
                }
            }

            /// The error of this number.
            fn of(status: u32) -> Error {
                match status {
                    $(vandrexu_sys::$status $(| vandrexu_sys::$call)? => Error::$name,)*
                    other => Error::Unknown(other),
                }
            }
        }

        impl fmt::Display for Error {
            fn fmt(&self, f: &mut fmt::Formatter<'_>) -> fmt::Result {
                match self {
                    $(Error::$name => f.write_str($words),)*
                    Error::Unknown(status) => write!(f, "status {status}, which this version doesn't have"),
                }
            }
        }
    };
}

errors! {
    NoQueue = VANDREXU_NO_QUEUE, "no such queue";
    NoRoom = VANDREXU_NO_ROOM, "no room in the submission queue";
    NoEntry = VANDREXU_NO_ENTRY, "no entry to fetch";
    JobsFull = VANDREXU_JOBS_FULL, "as many tickets in flight as may be";
    NoTicket = VANDREXU_NO_TICKET, "no such ticket in flight";
    Conflict = VANDREXU_CONFLICT, "conflict with an open unit";
    WrongState = VANDREXU_WRONG_STATE, "not the ticket's turn";
    CqFull = VANDREXU_CQ_FULL, "completion queue full";
    NoCompletion = VANDREXU_NO_COMPLETION, "no completion to reap";
    BadBatch = VANDREXU_BAD_BATCH, "no entry to publish";
    /// (Also 46, of a host's call.)
    NoMemory = VANDREXU_NO_MEMORY or VANDREXU_CALL_NO_MEMORY, "no memory";
    /// (Also 45, of a host's call. Nothing was done: ask again.)
    Busy = VANDREXU_BUSY or VANDREXU_CALL_BUSY, "another handle of the disk had the controller";
    AwunTooLarge = VANDREXU_AWUN_TOO_LARGE, "AWUN is above 255";
    AcwuTooLarge = VANDREXU_ACWU_TOO_LARGE, "ACWU is above 255";
    BoundaryBelowUnit = VANDREXU_BOUNDARY_BELOW_UNIT, "NABSN isn't 0, and AWUN or ACWU is above it";
    OffsetPastBoundary = VANDREXU_OFFSET_PAST_BOUNDARY, "NABO is above NABSN";
    BadBlocks = VANDREXU_BAD_BLOCKS, "BLOCKS isn't 1 to 65,536";
    BadPairs = VANDREXU_BAD_PAIRS, "PAIRS isn't 1 to 16";
    BadSqSize = VANDREXU_BAD_SQ_SIZE, "SQ isn't 2 to 1,024";
    BadCqSize = VANDREXU_BAD_CQ_SIZE, "CQ isn't 2 to 1,024";
    BadJobs = VANDREXU_BAD_JOBS, "JOBS isn't 1 to 256";
    BadCqs = VANDREXU_BAD_CQS, "CQS is 0 or above PAIRS";
    CallLength = VANDREXU_CALL_LENGTH, "no block, or data that isn't whole blocks, or two data of unlike lengths";
    CallTooLong = VANDREXU_CALL_TOO_LONG, "more blocks than a call may have";
    CallNoRoom = VANDREXU_CALL_NO_ROOM, "no room in the submission queue for a call";
    /// ([`Reply::Failed`](crate::Reply::Failed) or [`SlotReply::Failed`](crate::SlotReply::Failed) in place of it.)
    CallFailed = VANDREXU_CALL_FAILED, "the call failed";
    CallSlotArea = VANDREXU_CALL_SLOT_AREA,
        "a Write, a Write Zeroes or a Compare and Write that touches a slot of the disk";
    CallNoSerial = VANDREXU_CALL_NO_SERIAL, "the host has used the last serial";
    /// (What is made owns something until it is dropped.)
    NoHandle = VANDREXU_NO_HANDLE, "the handle owns nothing";
    /// (Each handle of this crate is made once.)
    InUse = VANDREXU_IN_USE, "the handle owns something already";
    /// (This crate asks again with the room that is wanted.)
    TooSmall = VANDREXU_TOO_SMALL, "the room is too small";
    NoBlock = VANDREXU_NO_BLOCK, "the volume has no such block";
    /// (`None` of [`Controller::ready`](crate::Controller::ready) and of
    /// [`RemoteHost::outgoing`](crate::RemoteHost::outgoing).)
    NothingReady = VANDREXU_NOTHING_READY, "no ticket can go on by itself";
    /// (An [`Entry`](crate::Entry) has its data with it.)
    BadEntry = VANDREXU_BAD_ENTRY, "the data aren't just those of the entries";
    BadLine = VANDREXU_BAD_LINE, "no line of a history";
    NotLegal = VANDREXU_NOT_LEGAL, "the history with this line isn't legal";
    NotExplained = VANDREXU_NOT_EXPLAINED, "the trace isn't explained";
    BadHistory = VANDREXU_BAD_HISTORY, "what stands beside the trace has a line that is none";
    OtherConfig = VANDREXU_OTHER_CONFIG, "a trace and a history that don't belong together";
    GaveUp = VANDREXU_GAVE_UP, "the steps of the search were used up";
    Unfinished = VANDREXU_UNFINISHED, "what was fetched before isn't finished";
    NoHost = VANDREXU_NO_HOST, "as many hosts were made as the disk was made for";
    BadNumber = VANDREXU_BAD_NUMBER, "a host has no number 0";
    InCall = VANDREXU_IN_CALL, "the host has a call";
    NoCall = VANDREXU_NO_CALL, "the host has no such call";
    NoSlot = VANDREXU_NO_SLOT, "no such slot";
    NotHeld = VANDREXU_NOT_HELD, "the host hasn't the slot";
    Held = VANDREXU_HELD, "the host has the slot";
    BadName = VANDREXU_BAD_NAME, "the name has a zero in it, or is of the host itself";
    BadArea = VANDREXU_BAD_AREA, "there would be no slot, or one behind block 65,535";
    /// (Also where that host was dropped.)
    UsedNumber = VANDREXU_USED_NUMBER, "a host of the disk had the number before";
    /// (Also where that host was dropped.)
    UsedQueue = VANDREXU_USED_QUEUE, "a host of the disk had the completion queue of this submission queue before";
    NotFound = VANDREXU_NOT_FOUND, "neither a history nor a refutation was found";
    NotRefuted = VANDREXU_NOT_REFUTED, "the trace isn't refuted by this";
    SlotsMisused = VANDREXU_SLOTS_MISUSED, "the history with this line doesn't keep the discipline of slots";
    Forgotten = VANDREXU_FORGOTTEN, "the step at this place was forgotten";
    OtherHost = VANDREXU_OTHER_HOST, "no host of this number, made of the disk, lives, or none ended";
    /// (The step was made, and stays.)
    OtherEntry = VANDREXU_OTHER_ENTRY, "the step's line isn't the one that was given";
}

impl std::error::Error for Error {}

/// What a status says: Ok of VANDREXU_DONE alone.
pub(crate) fn told(status: u32) -> Result<()> {
    if status == vandrexu_sys::VANDREXU_DONE { Ok(()) } else { Err(Error::of(status)) }
}

#[cfg(test)]
mod tests {
    use super::{Error, told};

    const SCRIPTS: &str = include_str!("../../../../docs/SCRIPTS.md");
    const CHECKING: &str = include_str!("../../../../docs/CHECKING.md");
    const HEADER: &str = include_str!("../../../../include/vandrexu.h");
    const HOSTS: &str = include_str!("../../../../include/vandrexu_hosts.h");
    const SLOTS: &str = include_str!("../../../../include/vandrexu_slots.h");

    /// The numbers of an enum of a header.
    fn numbers_of(header: &str, name: &str) -> Vec<u32> {
        let (_, behind) = header.split_once(&format!("enum {name} {{")).expect("the statuses");
        let lines = behind.split('}').next().unwrap_or_default().lines();
        lines
            .filter_map(|line| line.split_once(" = "))
            .map(|(_, behind)| behind.split([',', ' ', '\n']).next().unwrap_or_default())
            .map(|number| number.parse().expect("a number"))
            .collect()
    }

    #[test]
    fn each_status_of_the_headers_is_an_error_with_this_number() {
        let mut numbers = [
            numbers_of(HEADER, "vandrexu_status"),
            numbers_of(HOSTS, "vandrexu_host_status"),
            numbers_of(SLOTS, "vandrexu_slot_status"),
        ]
        .concat();
        numbers.sort_unstable();
        assert_eq!(numbers[0], 0);
        let of_calls = [vandrexu_sys::VANDREXU_CALL_BUSY, vandrexu_sys::VANDREXU_CALL_NO_MEMORY];
        assert_eq!(of_calls.map(told), [Err(Error::Busy), Err(Error::NoMemory)]);
        numbers.retain(|it| !of_calls.contains(it));
        assert_eq!(Error::ALL.iter().map(|it| it.status()).collect::<Vec<_>>(), numbers[1..]);
        for error in Error::ALL {
            assert_eq!(told(error.status()), Err(*error));
        }
        assert_eq!(told(0), Ok(()));
        assert_eq!(told(99), Err(Error::Unknown(99)));
        assert_eq!(Error::Unknown(99).to_string(), "status 99, which this version doesn't have");
    }

    #[test]
    fn the_words_are_those_of_the_pages() {
        for error in Error::ALL {
            match error.status() {
                number @ 1..=10 => assert!(CHECKING.contains(&format!("| {number} | `{error}` |")), "{error}"),
                number @ 21..=30 => assert!(SCRIPTS.contains(&format!("| {number} | {error} |")), "{error}"),
                _ => {}
            }
        }
    }
}
