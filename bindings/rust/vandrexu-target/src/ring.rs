//! The capsules of a connection that wait: for their data, or for the second of their pair.
use crate::identify::IN_CAPSULE;
use crate::outlet::Outlet;
use std::collections::VecDeque;
use vandrexu_wire::{BLOCK, Command, Fatal, Pdu, Status, opcode, u16_at, u32_at};

/// The most bytes of data of a command: 256 blocks.
pub(crate) const MOST: usize = 256 * BLOCK;

/// How many bytes are asked for at once, or one command's.
const WINDOW: usize = 8 * MOST;

/// A command with its data, as the engine takes it.
#[derive(Clone, Debug)]
pub(crate) struct Capsule {
    /// The entry.
    pub command: Command,
    /// What it writes or compares.
    pub data: Vec<u8>,
    /// The target answers it by this status, and the controller doesn't see it.
    pub verdict: Option<Status>,
}

/// A capsule that may wait for data.
#[derive(Debug)]
struct Waiting {
    capsule: Capsule,
    wants: usize,
    has: usize,
    tag: Option<u16>,
}

impl Waiting {
    fn is_whole(&self) -> bool {
        self.has == self.wants
    }
}

/// The capsules, in the order in which they came.
#[derive(Debug, Default)]
pub(crate) struct Ring {
    waiting: VecDeque<Waiting>,
    last_tag: u16,
}

impl Ring {
    /// Whether data is asked for that didn't come.
    pub(crate) fn wants_data(&self) -> bool {
        self.waiting.iter().any(|it| it.tag.is_some() && !it.is_whole())
    }

    /// Takes a capsule in. What its descriptor can't be followed for is answered by the target.
    pub(crate) fn push(&mut self, pdu: &Pdu, served: bool) {
        let command = Command(pdu.entry());
        let (length, offset, kind) = command.sgl();
        let takes_data = served && command.is_outgoing() && length > 0;
        let mut it = Waiting { capsule: Capsule { command, data: vec![], verdict: None }, wants: 0, has: 0, tag: None };
        match kind {
            _ if !pdu.is_intact => it.capsule.verdict = Some(Status::TRANSPORT),
            // (more than any command may have: what the controller says of it needs no data)
            _ if !takes_data || length > MOST => {}
            0x01 => match inside(pdu, offset, length) {
                Ok(data) => it.capsule.data = data.to_vec(),
                Err(status) => it.capsule.verdict = Some(status.no_retry()),
            },
            0x5A => it.wants = length,
            _ => it.capsule.verdict = Some(Status::SGL_TYPE.no_retry()),
        }
        self.waiting.push_back(it);
    }

    /// Asks for data, as far as there is room for it.
    pub(crate) fn ask(&mut self, out: &Outlet) {
        let asked = |it: &&Waiting| it.tag.is_some() && !it.is_whole();
        let mut room = WINDOW.saturating_sub(self.waiting.iter().filter(asked).map(|it| it.wants).sum());
        for it in self.waiting.iter_mut().filter(|it| it.tag.is_none() && !it.is_whole()) {
            if it.wants > room {
                break;
            }
            room -= it.wants;
            self.last_tag = self.last_tag.wrapping_add(1);
            it.tag = Some(self.last_tag);
            it.capsule.data = vec![0; it.wants];
            out.send(out.format.ready(it.capsule.command.cid(), self.last_tag, it.wants as u32));
        }
    }

    /// Takes data that was asked for.
    ///
    /// # Errors
    /// It wasn't asked for, or lies elsewhere.
    pub(crate) fn data(&mut self, pdu: &Pdu) -> Result<(), Fatal> {
        let (header, data) = (pdu.header(), pdu.data());
        let (cid, tag, at) = (u16_at(header, 8), u16_at(header, 10), u32_at(header, 12) as usize);
        let is_it = |it: &&mut Waiting| it.tag == Some(tag) && !it.is_whole();
        let it = self.waiting.iter_mut().find(is_it).ok_or(Fatal::field(10))?;
        if it.capsule.command.cid() != cid {
            return Err(Fatal::field(8));
        }
        if u32_at(header, 16) as usize != data.len() {
            return Err(Fatal::field(16));
        }
        let end = at + data.len();
        if at != it.has || end > it.wants || data.is_empty() || pdu.is_last() != (end == it.wants) {
            return Err(Fatal::OUT_OF_RANGE);
        }
        it.capsule.data[at..end].copy_from_slice(data);
        it.has = end;
        if !pdu.is_intact {
            it.capsule.verdict = Some(Status::TRANSPORT);
        }
        Ok(())
    }

    /// The next capsule that is whole.
    pub(crate) fn next(&mut self) -> Option<Capsule> {
        if !self.waiting.front()?.is_whole() {
            return None;
        }
        self.waiting.pop_front().map(|it| it.capsule)
    }

    /// Whether a first is all that waits, so nothing but time can show that it has no second.
    pub(crate) fn has_lone_first(&self) -> bool {
        self.waiting.len() == 1 && self.waiting[0].is_whole() && is_first(&self.waiting[0])
    }

    /// What the controller takes next, together: a pair, or a command by itself. The first of a pair waits for the capsule
    /// behind it, unless it has waited long enough.
    pub(crate) fn group(&mut self, is_late: bool) -> Option<Vec<Capsule>> {
        let first = self.waiting.front()?;
        if is_first(first) && first.is_whole() {
            match self.waiting.get(1) {
                None if !is_late => return None,
                Some(second) if !second.is_whole() => return None,
                Some(second) if second.capsule.command.fuse() == 2 && second.capsule.verdict.is_none() => {
                    return Some(vec![self.next()?, self.next()?]);
                }
                _ => {}
            }
        }
        self.next().map(|it| vec![it])
    }
}

fn is_first(it: &Waiting) -> bool {
    it.capsule.command.fuse() == 1 && it.capsule.verdict.is_none()
}

/// Data in a capsule.
fn inside(pdu: &Pdu, offset: u64, length: usize) -> Result<&[u8], Status> {
    let data = pdu.data();
    if data.len() > IN_CAPSULE {
        return Err(Status::DATA_LENGTH);
    }
    let at = usize::try_from(offset).ok().filter(|it| *it <= data.len()).ok_or(Status::SGL_OFFSET)?;
    data.get(at..at + length).ok_or(Status::DATA_LENGTH)
}

/// Whether the controller takes data with this I/O command.
pub(crate) fn has_data(command: &Command) -> bool {
    matches!(command.opcode(), opcode::WRITE | opcode::COMPARE)
}
