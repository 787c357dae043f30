//! Submission and completion queue entries.
use crate::{put16, put32, put64, u16_at, u32_at, u64_at};

/// Opcodes of commands that are served.
pub mod opcode {
    /// Flush.
    pub const FLUSH: u8 = 0x00;
    /// Write.
    pub const WRITE: u8 = 0x01;
    /// Read.
    pub const READ: u8 = 0x02;
    /// Compare.
    pub const COMPARE: u8 = 0x05;
    /// Write Zeroes.
    pub const WRITE_ZEROES: u8 = 0x08;
    /// Get Log Page, of the admin queue.
    pub const GET_LOG_PAGE: u8 = 0x02;
    /// Identify, of the admin queue.
    pub const IDENTIFY: u8 = 0x06;
    /// Abort, of the admin queue.
    pub const ABORT: u8 = 0x08;
    /// Set Features, of the admin queue.
    pub const SET_FEATURES: u8 = 0x09;
    /// Get Features, of the admin queue.
    pub const GET_FEATURES: u8 = 0x0A;
    /// Asynchronous Event Request, of the admin queue.
    pub const ASYNC_EVENT: u8 = 0x0C;
    /// Keep Alive, of the admin queue.
    pub const KEEP_ALIVE: u8 = 0x18;
    /// Any Fabrics command.
    pub const FABRICS: u8 = 0x7F;
}

/// Types of Fabrics commands.
pub mod fabrics {
    /// Property Set.
    pub const PROPERTY_SET: u8 = 0x00;
    /// Connect.
    pub const CONNECT: u8 = 0x01;
    /// Property Get.
    pub const PROPERTY_GET: u8 = 0x04;
    /// Disconnect.
    pub const DISCONNECT: u8 = 0x08;
}

/// A status field: its type, its code, and Do Not Retry.
#[derive(Clone, Copy, Debug, PartialEq, Eq)]
pub struct Status(
    /// The 15 bits above the phase tag.
    pub u16,
);

impl Status {
    /// Successful Completion.
    pub const SUCCESS: Status = Status(0);
    /// Invalid Command Opcode.
    pub const INVALID_OPCODE: Status = Status(0x01);
    /// Invalid Field in Command.
    pub const INVALID_FIELD: Status = Status(0x02);
    /// Command ID Conflict.
    pub const CID_CONFLICT: Status = Status(0x03);
    /// Internal Error.
    pub const INTERNAL: Status = Status(0x06);
    /// Command Aborted due to Failed Fused Command.
    pub const FAILED_FUSED: Status = Status(0x09);
    /// Command Aborted due to Missing Fused Command.
    pub const MISSING_FUSED: Status = Status(0x0A);
    /// Invalid Namespace or Format.
    pub const INVALID_NAMESPACE: Status = Status(0x0B);
    /// Command Sequence Error.
    pub const SEQUENCE: Status = Status(0x0C);
    /// Data SGL Length Invalid.
    pub const DATA_LENGTH: Status = Status(0x0F);
    /// SGL Descriptor Type Invalid.
    pub const SGL_TYPE: Status = Status(0x11);
    /// SGL Offset Invalid.
    pub const SGL_OFFSET: Status = Status(0x16);
    /// Transient Transport Error.
    pub const TRANSPORT: Status = Status(0x22);
    /// LBA Out of Range.
    pub const LBA_OUT_OF_RANGE: Status = Status(0x80);
    /// Asynchronous Event Request Limit Exceeded.
    pub const TOO_MANY_EVENTS: Status = Status(0x105);
    /// Invalid Log Page.
    pub const INVALID_LOG: Status = Status(0x109);
    /// Feature Identifier Not Saveable.
    pub const NOT_SAVEABLE: Status = Status(0x10D);
    /// Feature Not Changeable.
    pub const NOT_CHANGEABLE: Status = Status(0x10E);
    /// Connect Incompatible Format.
    pub const CONNECT_FORMAT: Status = Status(0x180);
    /// Connect Controller Busy.
    pub const CONNECT_BUSY: Status = Status(0x181);
    /// Connect Invalid Parameters.
    pub const CONNECT_PARAMETERS: Status = Status(0x182);
    /// Connect Invalid Host.
    pub const CONNECT_HOST: Status = Status(0x184);
    /// Invalid Queue Type.
    pub const QUEUE_TYPE: Status = Status(0x185);
    /// Compare Failure.
    pub const COMPARE_FAILURE: Status = Status(0x285);

    const DNR: u16 = 0x4000;

    /// The same, with Do Not Retry.
    #[must_use]
    pub fn no_retry(self) -> Status {
        Status(self.0 | Status::DNR)
    }

    /// Whether Do Not Retry is set.
    #[must_use]
    pub fn is_final(self) -> bool {
        self.0 & Status::DNR != 0
    }

    /// The status code type and the status code.
    #[must_use]
    pub fn code(self) -> (u8, u8) {
        ((self.0 >> 8) as u8 & 7, self.0 as u8)
    }

    /// Whether it has the type and the code of another.
    #[must_use]
    pub fn is(self, other: Status) -> bool {
        self.code() == other.code()
    }
}

/// A submission queue entry.
#[derive(Clone, Copy, Debug, PartialEq, Eq)]
pub struct Command(
    /// The entry.
    pub [u8; 64],
);

impl Command {
    /// An entry with this opcode, and zeros.
    #[must_use]
    pub fn new(opcode: u8) -> Command {
        let mut bytes = [0; 64];
        bytes[0] = opcode;
        Command(bytes)
    }

    /// A command of namespace 1, with its first block and its blocks. A Flush has neither.
    #[must_use]
    pub fn blocks(opcode: u8, slba: u64, count: usize) -> Command {
        let mut it = Command::new(opcode);
        put32(&mut it.0, 4, 1);
        if opcode != opcode::FLUSH {
            put64(&mut it.0, 40, slba);
            put16(&mut it.0, 48, (count as u16).wrapping_sub(1));
        }
        it
    }

    /// A Fabrics command of this type.
    #[must_use]
    pub fn fabrics(kind: u8) -> Command {
        let mut it = Command::new(opcode::FABRICS);
        it.0[4] = kind;
        it
    }

    /// The same, with this dword.
    #[must_use]
    pub fn with(mut self, dword: usize, value: u32) -> Command {
        put32(&mut self.0, dword * 4, value);
        self
    }

    /// The same, as the first (1) or second (2) of a fused pair.
    #[must_use]
    pub fn fused(mut self, fuse: u8) -> Command {
        self.0[1] = self.0[1] & !3 | fuse;
        self
    }

    /// The opcode.
    #[must_use]
    pub fn opcode(&self) -> u8 {
        self.0[0]
    }

    /// How it is fused: 0, 1 or 2.
    #[must_use]
    pub fn fuse(&self) -> u8 {
        self.0[1] & 3
    }

    /// The command identifier.
    #[must_use]
    pub fn cid(&self) -> u16 {
        u16_at(&self.0, 2)
    }

    /// A dword.
    #[must_use]
    pub fn dword(&self, at: usize) -> u32 {
        u32_at(&self.0, at * 4)
    }

    /// How many blocks it says that it has.
    #[must_use]
    pub fn count(&self) -> usize {
        usize::from(u16_at(&self.0, 48)) + 1
    }

    /// Whether its data goes to the target.
    #[must_use]
    pub fn is_outgoing(&self) -> bool {
        let kind = if self.opcode() == opcode::FABRICS { self.0[4] } else { self.opcode() };
        kind & 3 == 1
    }

    /// How many bytes its data descriptor names, where they begin, and its type.
    #[must_use]
    pub fn sgl(&self) -> (usize, u64, u8) {
        (self.dword(8) as usize, u64_at(&self.0, 24), self.0[39])
    }
}

/// A completion queue entry.
#[derive(Clone, Copy, Debug, PartialEq, Eq)]
pub struct Completion(
    /// The entry.
    pub [u8; 16],
);

impl Completion {
    /// A completion with phase 0.
    #[must_use]
    pub fn new(cid: u16, status: Status, result: u64) -> Completion {
        let mut it = Completion([0; 16]);
        put64(&mut it.0, 0, result);
        put16(&mut it.0, 12, cid);
        put16(&mut it.0, 14, status.0 << 1);
        it
    }

    /// The same, of this queue with this head.
    #[must_use]
    pub fn of_queue(mut self, sqid: u16, sqhd: u16) -> Completion {
        put16(&mut self.0, 8, sqhd);
        put16(&mut self.0, 10, sqid);
        self
    }

    /// The same, of this command.
    #[must_use]
    pub fn of_command(mut self, cid: u16) -> Completion {
        put16(&mut self.0, 12, cid);
        self
    }

    /// The same, with this status and the phase tag that it has.
    #[must_use]
    pub fn with(mut self, status: Status) -> Completion {
        let phase = u16::from(self.0[14] & 1);
        put16(&mut self.0, 14, status.0 << 1 | phase);
        self
    }

    /// Its first eight bytes.
    #[must_use]
    pub fn result(&self) -> u64 {
        u64_at(&self.0, 0)
    }

    /// The head of the submission queue.
    #[must_use]
    pub fn sqhd(&self) -> u16 {
        u16_at(&self.0, 8)
    }

    /// The number of the submission queue.
    #[must_use]
    pub fn sqid(&self) -> u16 {
        u16_at(&self.0, 10)
    }

    /// The command identifier.
    #[must_use]
    pub fn cid(&self) -> u16 {
        u16_at(&self.0, 12)
    }

    /// The status.
    #[must_use]
    pub fn status(&self) -> Status {
        Status(u16_at(&self.0, 14) >> 1)
    }
}
