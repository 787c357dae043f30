//! What steps answer.
use vandrexu_sys as sys;

/// A fetched ticket, and what it has to do.
#[derive(Clone, Copy, Debug, PartialEq, Eq)]
pub struct Work {
    /// The ticket, numbered from 1.
    pub ticket: u64,
    /// What it has to do.
    pub task: Task,
}

/// What a ticket has to do.
#[derive(Clone, Copy, Debug, PartialEq, Eq)]
pub enum Task {
    /// Its checks failed: it owes so many statuses, 1 or 2, and has no unit.
    Failed {
        /// How many it owes.
        statuses: u32,
    },
    /// A Flush, which has no unit.
    Flush,
    /// A command by itself, in units.
    Units {
        /// What its units do.
        op: Op,
        /// Its first block.
        slba: u64,
        /// How many blocks it has.
        blocks: u32,
    },
    /// A fused pair, which is one unit.
    Pair {
        /// Its first block.
        slba: u64,
        /// How many blocks it has.
        blocks: u32,
    },
}

/// What the units of a command do.
#[derive(Clone, Copy, Debug, PartialEq, Eq)]
pub enum Op {
    /// They read.
    Read,
    /// They compare.
    Compare,
    /// They write.
    Write,
    /// They write zeros.
    WriteZeroes,
}

/// A unit that began.
#[derive(Clone, Copy, Debug, PartialEq, Eq)]
pub struct Granted {
    /// Which unit of the ticket it is, from 0.
    pub unit: u64,
    /// Its first block.
    pub slba: u64,
    /// How many blocks it has.
    pub blocks: u32,
    /// How it holds them.
    pub mode: Mode,
}

/// How a unit holds its blocks.
#[derive(Clone, Copy, Debug, PartialEq, Eq)]
pub enum Mode {
    /// Beside others that read.
    Shared,
    /// Alone.
    Exclusive,
}

/// A block of a unit that was made.
#[derive(Clone, Copy, Debug, PartialEq, Eq)]
pub struct Blocked {
    /// The block of the volume.
    pub lba: u64,
    /// What was done or found there.
    pub found: Found,
    /// Whether the unit takes effect by this step.
    pub effect: bool,
    /// Whether the unit has ended.
    pub ended: bool,
}

/// What was done or found at a block.
#[derive(Clone, Copy, Debug, PartialEq, Eq)]
pub enum Found {
    /// It was read.
    Read,
    /// It was compared, and is equal.
    Equal,
    /// It was compared, and differs.
    Differs,
    /// It was written.
    Written,
}

/// A completion queue entry.
///
/// ```
/// let failed = vandrexu::Completion([0, 0, 0, 0, 0, 0, 0, 0, 2, 0, 1, 0, 7, 0, 0x0B, 0x05]);
/// assert_eq!((failed.sqhd(), failed.sqid(), failed.cid(), failed.phase()), (2, 1, 7, true));
/// assert_eq!(failed.status(), (2, 0x85));
/// assert!(!failed.is_success());
/// ```
#[derive(Clone, Copy, Debug, PartialEq, Eq, Hash)]
pub struct Completion(
    /// The entry.
    pub [u8; 16],
);

impl Completion {
    fn word(self, at: usize) -> u16 {
        u16::from_le_bytes([self.0[at], self.0[at + 1]])
    }

    /// How many entries of the submission queue were fetched, modulo its size.
    #[must_use]
    pub fn sqhd(self) -> u16 {
        self.word(8)
    }

    /// The number of the submission queue.
    #[must_use]
    pub fn sqid(self) -> u16 {
        self.word(10)
    }

    /// The command identifier.
    #[must_use]
    pub fn cid(self) -> u16 {
        self.word(12)
    }

    /// The phase tag.
    #[must_use]
    pub fn phase(self) -> bool {
        self.0[14] & 1 == 1
    }

    /// The status code type and the status code.
    #[must_use]
    pub fn status(self) -> (u8, u8) {
        let field = self.word(14) >> 1;
        ((field >> 8) as u8 & 7, field as u8)
    }

    /// Whether the status is Successful Completion, 0/00.
    #[must_use]
    pub fn is_success(self) -> bool {
        self.status() == (0, 0)
    }
}

/// A completion that was reaped.
#[derive(Clone, Debug, PartialEq, Eq)]
pub struct Reaped {
    /// The completion.
    pub completion: Completion,
    /// What a successful Read read, else nothing.
    pub data: Vec<u8>,
}

/// A step that a ticket makes.
#[derive(Clone, Copy, Debug, PartialEq, Eq)]
pub enum Step {
    /// The next unit of this ticket begins.
    Grant(u64),
    /// The next block of this ticket's open unit is made.
    Block(u64),
    /// The next completion of this ticket is posted.
    Post(u64),
}

/// What a step of a ticket answered.
#[derive(Clone, Copy, Debug, PartialEq, Eq)]
pub enum Made {
    /// A unit began.
    Granted(Granted),
    /// A block was made.
    Blocked(Blocked),
    /// A completion was posted.
    Posted(Completion),
}

/// A number that vandrexu.h doesn't have: the archive isn't of this version.
fn stranger(what: &str, number: u32) -> ! {
    panic!("the archive answered {what} {number}, which this version doesn't have")
}

impl From<sys::vandrexu_work> for Work {
    fn from(raw: sys::vandrexu_work) -> Work {
        let sys::vandrexu_work { ticket, slba, blocks, kind, op, statuses } = raw;
        let task = match kind {
            sys::VANDREXU_FAILED => Task::Failed { statuses },
            sys::VANDREXU_FLUSH => Task::Flush,
            sys::VANDREXU_UNITS => Task::Units { op: op_of(op), slba, blocks },
            sys::VANDREXU_PAIR => Task::Pair { slba, blocks },
            other => stranger("the kind", other),
        };
        Work { ticket, task }
    }
}

fn op_of(op: u32) -> Op {
    match op {
        sys::VANDREXU_READ => Op::Read,
        sys::VANDREXU_COMPARE => Op::Compare,
        sys::VANDREXU_WRITE => Op::Write,
        sys::VANDREXU_WRITE_ZEROES => Op::WriteZeroes,
        other => stranger("the operation", other),
    }
}

impl From<sys::vandrexu_granted> for Granted {
    fn from(raw: sys::vandrexu_granted) -> Granted {
        let sys::vandrexu_granted { unit, slba, blocks, mode } = raw;
        let mode = match mode {
            sys::VANDREXU_SHARED => Mode::Shared,
            sys::VANDREXU_EXCLUSIVE => Mode::Exclusive,
            other => stranger("the mode", other),
        };
        Granted { unit, slba, blocks, mode }
    }
}

impl From<sys::vandrexu_blocked> for Blocked {
    fn from(raw: sys::vandrexu_blocked) -> Blocked {
        let found = match raw.found {
            sys::VANDREXU_FOUND_READ => Found::Read,
            sys::VANDREXU_EQUAL => Found::Equal,
            sys::VANDREXU_DIFFERS => Found::Differs,
            sys::VANDREXU_WRITTEN => Found::Written,
            other => stranger("the finding", other),
        };
        Blocked { lba: raw.lba, found, effect: raw.effect == 1, ended: raw.ended == 1 }
    }
}

impl From<sys::vandrexu_step> for Step {
    fn from(raw: sys::vandrexu_step) -> Step {
        match raw.kind {
            sys::VANDREXU_STEP_GRANT => Step::Grant(raw.ticket),
            sys::VANDREXU_STEP_BLOCK => Step::Block(raw.ticket),
            sys::VANDREXU_STEP_POST => Step::Post(raw.ticket),
            other => stranger("the step", other),
        }
    }
}
