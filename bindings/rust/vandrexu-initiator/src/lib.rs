//! An NVMe/TCP host: it connects to a target, sends commands and fused pairs, and logs what it saw as a trace
//! (docs/OBSERVING.md). For tests of vandrexu-target, and for whoever tests another target.
//!
//! A [`Carrier`] is an I/O queue with a driver of the library, which is proved: what the driver publishes is sent, and what
//! comes is brought to it. A [`Queue`] by itself sends whatever it is told to, also what is wrong. Nothing of it is proved,
//! nor of what carries. Where a connection is lost, connect again and make a new driver: of what the first had in flight each
//! was served or not, as a Read tells.
//!
//! ```no_run
//! use vandrexu::{RemoteHost, Reply};
//! use vandrexu_initiator::{Dial, Host};
//!
//! let mut host = Host::connect(&Dial::to("127.0.0.1:4420".parse()?), 1)?;
//! let mut carrier = host.carrier(|queue| RemoteHost::new(1, queue, 7))?;
//! let read = carrier.driver().read(3, 1)?;
//! let swap = carrier.driver().compare_and_write(4, &[0; 512], &[0xA1; 512])?;
//! assert_eq!(carrier.reply(swap)?, Reply::Swapped);
//! assert_eq!(carrier.reply(read)?, Reply::Read(vec![0; 512]));
//! # Ok::<(), Box<dyn std::error::Error>>(())
//! ```
//!
//! ```no_run
//! use vandrexu_initiator::{Command, Dial, Host, opcode};
//!
//! let mut host = Host::connect(&Dial::to("127.0.0.1:4420".parse()?), 1)?;
//! let answer = host.queues[0].call(Command::blocks(opcode::READ, 3, 1), &[], 512)?;
//! assert_eq!((answer.status().code(), answer.data.len()), ((0, 0), 512));
//! # Ok::<(), Box<dyn std::error::Error>>(())
//! ```
mod carrier;
mod error;
mod host;
mod queue;
mod slots;
mod trace;

pub use carrier::{Carried, Carrier};
pub use error::{Error, Result};
pub use host::{Dial, Host};
pub use queue::{Answer, Queue};
pub use slots::{Area, Holder, block_of};
pub use trace::{Trace, TraceOfQueue};
pub use vandrexu_wire::{
    BLOCK, Command, Completion, DISCOVERY, Format, Status, fabrics, kind, opcode, u16_at, u32_at, u64_at,
};
