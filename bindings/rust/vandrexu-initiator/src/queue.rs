//! One connection, which is one queue.
use crate::{Dial, Error, Result, TraceOfQueue};
use std::collections::HashMap;
use std::io::{Read, Write};
use std::net::{Shutdown, TcpStream};
use std::time::{Duration, Instant};
use vandrexu_wire::{
    BLOCK, Command, Completion, Fatal, Format, Pdu, Reader, Side, Status, fabrics, kind, opcode, put16, put32, u16_at,
    u32_at,
};

/// The most bytes of one data PDU.
const LIMIT: usize = 1 << 20;

/// How long it takes at the most to leave.
const LEAVING: Duration = Duration::from_secs(3);

/// What a target sends that answers twice, or what nobody asked for.
pub(crate) const NO_COMMAND: &str = "a completion of no command";

/// A command that wasn't answered yet.
#[derive(Debug)]
pub(crate) struct Sent {
    command: Command,
    /// The CID that it had before.
    own: u16,
    data: Vec<u8>,
    read: Vec<u8>,
    came: usize,
}

impl Sent {
    /// A command with its data, and with room for what it may read.
    pub(crate) fn new(command: Command, data: Vec<u8>, room: usize) -> Sent {
        Sent { command, own: command.cid(), data, read: vec![0; room], came: 0 }
    }
}

/// What a command was answered.
#[derive(Clone, Debug, PartialEq, Eq)]
pub struct Answer {
    /// The completion, as it came.
    pub completion: Completion,
    /// What was read, of a command that succeeded.
    pub data: Vec<u8>,
}

impl Answer {
    /// Its status.
    #[must_use]
    pub fn status(&self) -> Status {
        self.completion.status()
    }

    /// Whether the command succeeded.
    #[must_use]
    pub fn is_success(&self) -> bool {
        self.status().is(Status::SUCCESS)
    }
}

/// A completion that came.
#[derive(Debug)]
pub(crate) struct Came {
    pub(crate) answer: Answer,
    /// The CID that its command had before it was sent, if a command waited for it.
    pub(crate) own: Option<u16>,
    /// Whether all came that a Read reads.
    pub(crate) is_whole: bool,
}

/// A queue of a target.
#[derive(Debug)]
pub struct Queue {
    to: TcpStream,
    from: Reader<TcpStream>,
    format: Format,
    most: usize,
    in_capsule: usize,
    number: u16,
    slots: u16,
    next: u16,
    sent: HashMap<u16, Sent>,
    /// Where this queue logs what it sees.
    pub trace: Option<TraceOfQueue>,
}

impl Queue {
    /// Opens a connection and agrees on digests. The queue isn't connected yet.
    ///
    /// # Errors
    /// A failed connection; a target that says no.
    pub fn open(dial: &Dial) -> Result<Queue> {
        let to = TcpStream::connect(dial.address)?;
        to.set_nodelay(true)?;
        to.set_read_timeout(Some(dial.patience))?;
        let mut from = Reader::new(to.try_clone()?, Side::Host, LIMIT);
        let wanted =
            Format { header_digest: dial.header_digest, data_digest: dial.data_digest, alignment: dial.alignment };
        (&to).write_all(&wanted.initialize(kind::IC_REQ, 0))?;
        let pdu = next(&mut from)?;
        if pdu.kind() != kind::IC_RESP {
            return Err(unexpected(&pdu));
        }
        let answer = pdu.header();
        let format = Format {
            header_digest: answer[11] & 1 != 0,
            data_digest: answer[11] & 2 != 0,
            alignment: (usize::from(answer[10]) + 1) * 4,
        };
        from.format = format;
        let most = u32_at(answer, 12) as usize;
        let (in_capsule, slots, sent) = (dial.in_capsule, dial.slots, HashMap::new());
        Ok(Queue { to, from, format, most, in_capsule, number: 0, slots, next: 0, sent, trace: None })
    }

    /// Connects it as the queue of this number. For the admin queue, 0, the controller is FFFFh.
    ///
    /// # Errors
    /// A failed connection.
    pub fn connect(&mut self, dial: &Dial, qid: u16, controller: u16) -> Result<Answer> {
        self.send_connect(dial, qid, controller)?;
        self.receive()
    }

    /// Sends Connect, and waits for nothing.
    ///
    /// # Errors
    /// A failed connection.
    pub fn send_connect(&mut self, dial: &Dial, qid: u16, controller: u16) -> Result<u16> {
        let mut data = [0; 1024];
        data[..16].copy_from_slice(&dial.identifier());
        put16(&mut data, 16, controller);
        data[256..256 + dial.subsystem.len()].copy_from_slice(dial.subsystem.as_bytes());
        data[512..512 + dial.host.len()].copy_from_slice(dial.host.as_bytes());
        self.number = qid;
        let mut command = Command::fabrics(fabrics::CONNECT);
        put16(&mut command.0, 42, qid);
        put16(&mut command.0, 44, dial.slots - 1);
        put32(&mut command.0, 48, dial.keep_alive);
        self.send(command, &data, 0)
    }

    /// Sends bytes as they are, for tests of targets.
    ///
    /// # Errors
    /// A failed connection.
    pub fn send_bytes(&mut self, bytes: &[u8]) -> Result<()> {
        Ok(self.to.write_all(bytes)?)
    }

    /// Sends a command with its data, and gives its CID. `room` is how many bytes a Read may bring.
    ///
    /// # Errors
    /// A failed connection.
    pub fn send(&mut self, command: Command, data: &[u8], room: usize) -> Result<u16> {
        Ok(self.send_all(&[(command, data)], room)?[0])
    }

    /// Sends a fused pair over as many blocks as it has data, and gives the two CIDs.
    ///
    /// # Errors
    /// A failed connection.
    pub fn send_pair(&mut self, slba: u64, expected: &[u8], desired: &[u8]) -> Result<(u16, u16)> {
        let compare = Command::blocks(opcode::COMPARE, slba, expected.len() / BLOCK).fused(1);
        let write = Command::blocks(opcode::WRITE, slba, desired.len() / BLOCK).fused(2);
        let cids = self.send_all(&[(compare, expected), (write, desired)], 0)?;
        Ok((cids[0], cids[1]))
    }

    /// Sends commands in one piece, as the ring of one doorbell.
    ///
    /// # Errors
    /// A failed connection.
    pub fn send_all(&mut self, commands: &[(Command, &[u8])], room: usize) -> Result<Vec<u16>> {
        self.hand_over(commands.iter().map(|(command, data)| Sent::new(*command, data.to_vec(), room)).collect())
    }

    /// Sends commands in one piece, each under the next CID that is free, and gives these. So a CID that was used isn't used
    /// again soon, and a completion that comes twice is found out.
    pub(crate) fn hand_over(&mut self, mut commands: Vec<Sent>) -> Result<Vec<u16>> {
        let (mut bytes, mut cids) = (vec![], vec![]);
        for sent in &mut commands {
            let cid = self.free_cid();
            put16(&mut sent.command.0, 2, cid);
            bytes.extend(self.capsule(sent));
            cids.push(cid);
        }
        if let Some(trace) = &self.trace {
            let told: Vec<(Command, &[u8])> = commands.iter().map(|it| (it.command, &it.data[..])).collect();
            trace.publish(&told)?;
        }
        self.sent.extend(cids.iter().copied().zip(commands));
        self.to.write_all(&bytes)?;
        Ok(cids)
    }

    /// Sends a capsule with the data descriptor that its entry has, right or wrong, and gives its CID; for tests of targets.
    /// Where the target asks for data it gets the second.
    ///
    /// # Errors
    /// A failed connection.
    pub fn send_as_it_is(&mut self, command: Command, inside: &[u8], asked: &[u8]) -> Result<u16> {
        let (cid, mut command) = (self.free_cid(), command);
        put16(&mut command.0, 2, cid);
        self.sent.insert(cid, Sent::new(command, asked.to_vec(), LIMIT));
        self.to.write_all(&self.format.command(&command.0, inside))?;
        Ok(cid)
    }

    /// Waits for an R2T and gives its tag, and leaves it unanswered; for tests of targets.
    ///
    /// # Errors
    /// As those of `receive`.
    pub fn receive_tag(&mut self) -> Result<u16> {
        let pdu = next(&mut self.from)?;
        if pdu.kind() == kind::R2T { Ok(u16_at(pdu.header(), 10)) } else { Err(unexpected(&pdu)) }
    }

    /// How this queue's PDUs are made.
    #[must_use]
    pub fn format(&self) -> Format {
        self.format
    }

    /// Its number.
    #[must_use]
    pub fn number(&self) -> u16 {
        self.number
    }

    /// How many commands it takes at once.
    pub(crate) fn most_in_flight(&self) -> usize {
        usize::from(self.slots) - 1
    }

    /// A capsule with the data descriptor of a transport: data in the capsule where it fits, else by R2T.
    fn capsule(&self, sent: &Sent) -> Vec<u8> {
        let (data, room) = (&sent.data[..], sent.read.len());
        let inside = !data.is_empty() && data.len() <= self.in_capsule;
        let mut entry = sent.command.0;
        entry[1] |= 0x40;
        put32(&mut entry, 32, if data.is_empty() { room } else { data.len() } as u32);
        entry[39] = if inside { 0x01 } else { 0x5A };
        self.format.command(&entry, if inside { data } else { &[] })
    }

    fn free_cid(&mut self) -> u16 {
        loop {
            self.next = (self.next + 1) % 4096;
            if !self.sent.contains_key(&self.next) {
                return self.next;
            }
        }
    }

    /// How many commands weren't answered yet.
    #[must_use]
    pub fn in_flight(&self) -> usize {
        self.sent.len()
    }

    /// Waits for the next completion.
    ///
    /// # Errors
    /// A failed connection, one that the target ended, and what a target doesn't send.
    pub fn receive(&mut self) -> Result<Answer> {
        let came = self.next_answer()?;
        if came.own.is_some() { Ok(came.answer) } else { Err(Error::Target(NO_COMMAND)) }
    }

    /// Waits for the next completion, also for one that no command is owed.
    pub(crate) fn next_answer(&mut self) -> Result<Came> {
        loop {
            let pdu = next(&mut self.from)?;
            match pdu.kind() {
                kind::C2H_DATA => self.take_data(&pdu)?,
                kind::R2T => self.give_data(&pdu)?,
                kind::RESPONSE => return self.answer(&pdu),
                _ => return Err(unexpected(&pdu)),
            }
        }
    }

    fn take_data(&mut self, pdu: &Pdu) -> Result<()> {
        let (cid, at) = (u16_at(pdu.header(), 8), u32_at(pdu.header(), 12) as usize);
        let data = pdu.data();
        // (the completion of no command comes behind it, and is told)
        let Some(sent) = self.sent.get_mut(&cid) else { return Ok(()) };
        if !pdu.is_intact {
            return Err(Error::Target("data with a wrong digest"));
        }
        let place = sent.read.get_mut(at..at + data.len()).ok_or(Error::Target("more data than there is room for"))?;
        place.copy_from_slice(data);
        sent.came += data.len();
        Ok(())
    }

    fn give_data(&mut self, pdu: &Pdu) -> Result<()> {
        let header = pdu.header();
        let (cid, tag) = (u16_at(header, 8), u16_at(header, 10));
        let (begin, length) = (u32_at(header, 12) as usize, u32_at(header, 16) as usize);
        let sent = self.sent.get(&cid).ok_or(Error::Target("R2T of no command"))?;
        let wanted = sent.data.get(begin..begin + length).ok_or(Error::Target("R2T of more than there is"))?;
        let mut at = begin;
        for piece in wanted.chunks(self.most.max(1)) {
            let is_last = at + piece.len() == begin + length;
            self.to.write_all(&self.format.data(kind::H2C_DATA, cid, tag, at as u32, piece, is_last))?;
            at += piece.len();
        }
        Ok(())
    }

    fn answer(&mut self, pdu: &Pdu) -> Result<Came> {
        let completion = Completion(pdu.header()[8..24].try_into().expect("16 bytes"));
        let sent = self.sent.remove(&completion.cid());
        let own = sent.as_ref().map(|it| it.own);
        let is_read = |it: &Sent| completion.status().is(Status::SUCCESS) && it.command.0[0] & 3 == 2;
        let read = sent.filter(is_read);
        let is_whole = read.as_ref().is_none_or(|it| it.came == it.read.len());
        let data = read.map_or(vec![], |it| it.read);
        // (one that no command is owed was seen, too)
        if let Some(trace) = &mut self.trace {
            trace.reap(&completion, &data)?;
        }
        Ok(Came { answer: Answer { completion, data }, own, is_whole })
    }

    /// Sends a command and waits for its completion; no other is in flight.
    ///
    /// # Errors
    /// As those of `send` and `receive`.
    pub fn call(&mut self, command: Command, data: &[u8], room: usize) -> Result<Answer> {
        self.send(command, data, room)?;
        self.receive()
    }

    /// Compares and writes as one. True where the blocks held the first, and now hold the second.
    ///
    /// # Errors
    /// As those of `send` and `receive`; two statuses that no pair is answered.
    pub fn compare_and_write(&mut self, slba: u64, expected: &[u8], desired: &[u8]) -> Result<bool> {
        let (first, _) = self.send_pair(slba, expected, desired)?;
        let (one, other) = (self.receive()?, self.receive()?);
        let (compare, write) = if one.completion.cid() == first { (one, other) } else { (other, one) };
        match (compare.status().code(), write.status().code()) {
            ((0, 0), (0, 0)) => Ok(true),
            ((2, 0x85), (0, 9)) => Ok(false),
            ((0, 0), _) => Err(Error::Refused(write.status(), 0)),
            _ => Err(Error::Refused(compare.status(), 0)),
        }
    }
}

impl Drop for Queue {
    /// Leaves. Once this is done the target has seen it, and the queue is free, unless that takes longer than three seconds.
    fn drop(&mut self) {
        let end = Instant::now() + LEAVING;
        let _ = self.to.shutdown(Shutdown::Write);
        let mut bytes = [0; 4096];
        loop {
            let left = end.saturating_duration_since(Instant::now());
            // (0 is no timeout that can be set)
            if self.to.set_read_timeout(Some(left)).is_err() || !matches!(self.to.read(&mut bytes), Ok(1..)) {
                return;
            }
        }
    }
}

/// Waits for the next PDU.
fn next(from: &mut Reader<TcpStream>) -> Result<Pdu> {
    from.take()?.ok_or_else(|| Error::Connection(std::io::ErrorKind::TimedOut.into()))
}

/// What a PDU says that isn't expected: the end of the connection, or nothing that a target may say.
fn unexpected(pdu: &Pdu) -> Error {
    if pdu.kind() != kind::C2H_TERM {
        return Error::Target("a PDU that isn't expected");
    }
    let why = Fatal { status: u16_at(pdu.header(), 8), offset: u32_at(pdu.header(), 10) };
    Error::Ended(why.status, why.offset)
}
