//! NVMe/TCP as bytes, for the target and the initiator of this workspace: PDUs with their digests, submission and
//! completion queue entries, and the lines of traces. There is no socket here, and nothing is proved.
mod bytes;
mod crc;
mod entry;
mod pdu;
mod reader;
mod text;

pub use bytes::{put16, put32, put64, u16_at, u32_at, u64_at};
pub use crc::crc32c;
pub use entry::{Command, Completion, Status, fabrics, opcode};
pub use pdu::{Fatal, Format, IC_LENGTH, Pdu, kind};
pub use reader::{Fault, Reader, Side};
pub use text::{data_text, entry_text, hex_text};

/// How many bytes a block has.
pub const BLOCK: usize = 512;

/// The name of the discovery subsystem.
pub const DISCOVERY: &str = "nqn.2014-08.org.nvmexpress.discovery";
