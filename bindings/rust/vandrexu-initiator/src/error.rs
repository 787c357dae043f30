//! Why a call of the initiator failed.
use std::{fmt, io};
use vandrexu_wire::{Fault, Status};

/// Why a call failed.
#[derive(Debug)]
pub enum Error {
    /// The connection failed, or the target closed it.
    Connection(io::Error),
    /// The target ended the connection: the Fatal Error Status, and the offset of a field.
    Ended(u16, u32),
    /// The target sent what a target doesn't send.
    Target(&'static str),
    /// A command of the set-up was answered by this status, and these first eight bytes; or a call by this status.
    Refused(Status, u64),
    /// The driver began no call, or has no memory.
    Driver(vandrexu::Error),
}

/// What a call answers.
pub type Result<T> = std::result::Result<T, Error>;

impl fmt::Display for Error {
    fn fmt(&self, f: &mut fmt::Formatter<'_>) -> fmt::Result {
        match self {
            Error::Connection(error) => write!(f, "the connection failed: {error}"),
            Error::Ended(status, offset) => {
                write!(f, "the target ended the connection: fatal error status {status}, offset {offset}")
            }
            Error::Target(what) => write!(f, "the target sent {what}"),
            Error::Refused(status, _) => {
                let (kind, code) = status.code();
                write!(f, "the target refused: status {kind}/{code:02X}")
            }
            Error::Driver(error) => error.fmt(f),
        }
    }
}

impl std::error::Error for Error {}

impl From<io::Error> for Error {
    fn from(error: io::Error) -> Error {
        Error::Connection(error)
    }
}

impl From<vandrexu::Error> for Error {
    fn from(error: vandrexu::Error) -> Error {
        Error::Driver(error)
    }
}

impl From<Fault> for Error {
    fn from(fault: Fault) -> Error {
        match fault {
            Fault::Closed => Error::Connection(io::ErrorKind::UnexpectedEof.into()),
            Fault::Failed(error) => Error::Connection(error),
            Fault::Broken(..) => Error::Target("a PDU with a wrong header"),
        }
    }
}
