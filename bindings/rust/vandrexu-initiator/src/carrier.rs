//! An I/O queue with a driver of the library, whose entries go into capsules and whose completions come out of them.
use crate::queue::{Came, NO_COMMAND, Sent};
use crate::{Error, Host, Queue, Result};
use std::mem::{replace, take};
use vandrexu::{CallNumber, Outgoing, RemoteHost, RemoteSlotHost, Reply};
use vandrexu_wire::{BLOCK, Command, Completion, Status, opcode};

/// A driver that a [`Carrier`] carries for.
pub trait Carried {
    /// The next entry that is to be sent.
    ///
    /// # Errors
    /// No memory.
    fn outgoing(&mut self) -> vandrexu::Result<Option<Outgoing>>;

    /// Brings a completion, with what was read.
    ///
    /// # Errors
    /// No memory.
    fn incoming(&mut self, completion: vandrexu::Completion, data: &[u8]) -> vandrexu::Result<()>;

    /// How many completions no call was owed.
    fn dropped(&self) -> u64;
}

impl Carried for RemoteHost {
    fn outgoing(&mut self) -> vandrexu::Result<Option<Outgoing>> {
        RemoteHost::outgoing(self)
    }

    fn incoming(&mut self, completion: vandrexu::Completion, data: &[u8]) -> vandrexu::Result<()> {
        RemoteHost::incoming(self, completion, data)
    }

    fn dropped(&self) -> u64 {
        RemoteHost::dropped(self)
    }
}

impl Carried for RemoteSlotHost {
    fn outgoing(&mut self) -> vandrexu::Result<Option<Outgoing>> {
        RemoteSlotHost::outgoing(self)
    }

    fn incoming(&mut self, completion: vandrexu::Completion, data: &[u8]) -> vandrexu::Result<()> {
        RemoteSlotHost::incoming(self, completion, data)
    }

    fn dropped(&self) -> u64 {
        RemoteSlotHost::dropped(self)
    }
}

/// An I/O queue with a driver: a [`RemoteHost`], or a [`RemoteSlotHost`]. [`Host::carrier`] makes one.
#[derive(Debug)]
pub struct Carrier<H> {
    queue: Queue,
    driver: H,
    /// The command or the fused pair that is sent next, as far as the driver has told it.
    batch: Vec<Outgoing>,
    /// What came, and wasn't brought yet.
    came: Option<Came>,
    dropped: u64,
    /// What it is if the driver drops what was brought last.
    is_wrong: &'static str,
}

/// The CID of a completion that no command waits for, as the driver is told: it gives none such.
const NOBODYS: u16 = u16::MAX;

/// What a driver drops though a command waited for it.
const RESERVED: &str = "a completion with a reserved bit";

impl Host {
    /// Gives the first of the I/O queues a driver, which is made for the queue's number. The queue is none of
    /// [`queues`](Host::queues) any more; keep the host while it is used.
    ///
    /// # Errors
    /// `NoQueue` where there is none; `InCall` where a command of it wasn't answered; why the driver isn't made.
    pub fn carrier<H: Carried>(&mut self, make: impl FnOnce(u16) -> vandrexu::Result<H>) -> Result<Carrier<H>> {
        let queue = self.queues.first().ok_or(vandrexu::Error::NoQueue)?;
        let driver = driver_of(queue, make)?;
        Ok(Carrier::new(self.queues.remove(0), driver))
    }
}

/// A driver for a queue, all of whose commands are answered.
fn driver_of<H>(queue: &Queue, make: impl FnOnce(u16) -> vandrexu::Result<H>) -> vandrexu::Result<H> {
    if queue.in_flight() > 0 { Err(vandrexu::Error::InCall) } else { make(queue.number()) }
}

impl<H: Carried> Carrier<H> {
    fn new(queue: Queue, driver: H) -> Carrier<H> {
        let dropped = driver.dropped();
        Carrier { queue, driver, batch: vec![], came: None, dropped, is_wrong: RESERVED }
    }

    /// The driver, whose calls are begun by it and ended by the carrier.
    pub fn driver(&mut self) -> &mut H {
        &mut self.driver
    }

    /// Gives the queue another driver in place of this one, which is made for the queue's number.
    ///
    /// # Errors
    /// `InCall` where a command wasn't answered; why the driver isn't made.
    pub fn with<K: Carried>(self, make: impl FnOnce(u16) -> vandrexu::Result<K>) -> Result<Carrier<K>> {
        if !self.batch.is_empty() {
            return Err(vandrexu::Error::InCall.into());
        }
        let driver = driver_of(&self.queue, make)?;
        Ok(Carrier::new(self.queue, driver))
    }

    /// Sends what the driver published, as far as the queue has room; a fused pair in one piece.
    ///
    /// # Errors
    /// A failed connection; no memory; `NoRoom` of a pair and a queue that never has room for two.
    pub fn send(&mut self) -> Result<()> {
        loop {
            while self.batch.last().is_none_or(|it| it.more) {
                match self.driver.outgoing()? {
                    Some(it) => self.batch.push(it),
                    None => return Ok(()),
                }
            }
            let most = self.queue.most_in_flight();
            if self.batch.len() > most {
                return Err(vandrexu::Error::NoRoom.into());
            }
            if self.queue.in_flight() + self.batch.len() > most {
                return Ok(());
            }
            self.queue.hand_over(take(&mut self.batch).into_iter().map(sent).collect())?;
        }
    }

    /// Waits for the next completion, and brings it to the driver, which drops and counts one that no command waits for. The
    /// next call brings it, where there is no memory.
    fn receive(&mut self) -> Result<()> {
        let came = match self.came.take() {
            Some(came) => came,
            None => self.queue.next_answer()?,
        };
        if !came.is_whole {
            return Err(Error::Target("less data than a Read asked for"));
        }
        self.is_wrong = if came.own.is_some() { RESERVED } else { NO_COMMAND };
        let cid = came.own.unwrap_or(NOBODYS);
        let completion = as_the_controllers(&came.answer.completion, self.queue.number(), cid);
        let brought = self.driver.incoming(completion, &came.answer.data);
        if brought.is_err() {
            self.came = Some(came);
        }
        Ok(brought?)
    }

    /// Carries until a poll tells something.
    pub(crate) fn told<T>(&mut self, mut poll: impl FnMut(&mut H) -> vandrexu::Result<Option<T>>) -> Result<T> {
        loop {
            self.send()?;
            // (each poll takes the one completion that was brought, so none is left while it waits for the next)
            if let Some(told) = poll(&mut self.driver)? {
                return Ok(told);
            }
            let before = replace(&mut self.dropped, self.driver.dropped());
            if self.dropped > before {
                return Err(Error::Target(self.is_wrong));
            }
            self.receive()?;
        }
    }
}

/// An entry as a command of a queue, with room for what it may read.
fn sent(entry: Outgoing) -> Sent {
    let command = Command(entry.entry);
    let room = if command.opcode() == opcode::READ { command.count() * BLOCK } else { 0 };
    Sent::new(command, entry.data, room)
}

/// A completion as the driver takes it: of its queue, which a target needn't say over a connection, and of the CID that it
/// gave the command; without Command Retry Delay, More and Do Not Retry.
fn as_the_controllers(completion: &Completion, queue: u16, cid: u16) -> vandrexu::Completion {
    let mut it = completion.of_queue(queue, completion.sqhd()).of_command(cid);
    it.0[15] &= 0x0F;
    vandrexu::Completion(it.0)
}

impl Carrier<RemoteHost> {
    /// Carries until this call is over, and says what became of it.
    ///
    /// # Errors
    /// As those of [`send`](Carrier::send); what a target doesn't send, as a completion that no command is owed, behind which
    /// the call may be asked for again; `NoCall`.
    pub fn reply(&mut self, call: CallNumber) -> Result<Reply> {
        self.told(|host| host.poll(call).map(|it| if it == Reply::Pending { None } else { Some(it) }))
    }

    /// Compares and writes as one. True where the blocks held the first, and now hold the second.
    ///
    /// # Errors
    /// As those of [`reply`](Carrier::reply); why the call isn't begun; a status that no pair is answered.
    pub fn compare_and_write(&mut self, lba: u64, expected: &[u8], desired: &[u8]) -> Result<bool> {
        let call = self.driver.compare_and_write(lba, expected, desired)?;
        match self.reply(call)? {
            Reply::Swapped => Ok(true),
            Reply::Failed { sct, sc } => Err(failed(sct, sc)),
            _ => Ok(false),
        }
    }
}

/// A call that was answered with this status.
pub(crate) fn failed(sct: u8, sc: u8) -> Error {
    Error::Refused(Status(u16::from(sct) << 8 | u16::from(sc)), 0)
}

#[cfg(test)]
mod tests {
    use super::{Completion, Status, as_the_controllers};

    #[test]
    fn what_a_transport_leaves_out_or_adds_is_made_good() {
        let mut came = Completion::new(4000, Status::COMPARE_FAILURE.no_retry(), 0).of_queue(0, 9);
        // (More and Command Retry Delay)
        came.0[15] |= 0x70;
        let told = as_the_controllers(&came, 3, 5);
        assert_eq!((told.sqid(), told.cid(), told.status()), (3, 5, (2, 0x85)));
        assert_eq!(told.0[15] & 0xF0, 0);
    }
}
