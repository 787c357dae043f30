//! The one thread that has the controller: it publishes, fetches, makes steps and reaps, and answers hosts.
use crate::completions::Reply;
use crate::faults::{Plan, Planner};
use crate::outlet::Outlet;
use crate::pairs::{Pair, Queue};
use crate::records::{History, Trace};
use crate::ring::Capsule;
use crate::{Image, Options};
use std::collections::{HashMap, VecDeque};
use std::sync::mpsc::{Receiver, RecvTimeoutError, Sender};
use std::time::{Duration, Instant};
use vandrexu::{BLOCK, Blocked, Config, Controller, Entry, Error, Found, Made, Result as Step, Task};
use vandrexu_wire::Completion;

/// What connections tell the engine.
#[derive(Debug)]
pub(crate) enum Message {
    /// A connection becomes an I/O queue; the answer is whether a pair was free.
    Open {
        /// The connection.
        id: u64,
        /// The host's name.
        host: String,
        /// Its number for the host.
        qid: u16,
        /// Its slots.
        slots: u16,
        /// Where its responses go.
        out: Outlet,
        /// Where the answer goes.
        answer: Sender<bool>,
    },
    /// Commands and pairs of an I/O queue, in order.
    Take {
        /// The connection.
        id: u64,
        /// The commands, those of a pair together.
        groups: Vec<Vec<Capsule>>,
    },
    /// The connection of an I/O queue ended.
    Close {
        /// The connection.
        id: u64,
    },
    /// The target ends.
    End,
}

/// A command that the controller is given later.
#[derive(Debug)]
pub(crate) struct Later {
    /// Which pair.
    pub at: usize,
    /// The command.
    pub capsule: Capsule,
    /// What is done about its completion.
    pub plan: Plan,
    /// When.
    pub due: Instant,
}

/// A ticket that is in flight.
#[derive(Debug)]
struct Ticket {
    number: u64,
    /// How many completions it owes.
    owes: u32,
    /// The unit that is open: its first block, its blocks, and whether it wrote.
    unit: (u64, u32, bool),
}

/// The engine.
#[derive(Debug)]
pub(crate) struct Engine {
    pub(crate) disk: Controller,
    pub(crate) config: Config,
    pub(crate) strict: bool,
    pub(crate) transport_only: bool,
    pub(crate) pairs: Vec<Pair>,
    pub(crate) planner: Planner,
    pub(crate) trace: Trace,
    /// What is answered once it is written down what was done.
    pub(crate) replies: Vec<Reply>,
    /// What the controller is given later, by a fault.
    pub(crate) later: VecDeque<Later>,
    /// What blocks held before the last Write, where that is wanted.
    pub(crate) past: HashMap<u64, [u8; BLOCK]>,
    pub(crate) memory: Memory,
    history: History,
    image: Option<Image>,
    by_id: HashMap<u64, usize>,
    tickets: Vec<Ticket>,
    random: Option<u64>,
    /// Whether a step had no memory.
    is_starved: bool,
}

/// The most resident memory of the process.
#[derive(Debug)]
pub(crate) struct Memory {
    most: Option<u64>,
    asked: u32,
    is_over: bool,
}

impl Memory {
    /// Whether there is more than may be. The system is asked once in a while.
    pub(crate) fn is_over(&mut self) -> bool {
        let Some(most) = self.most else { return false };
        if self.asked.is_multiple_of(16) {
            let pages = std::fs::read_to_string("/proc/self/statm").unwrap_or_default();
            let resident = pages.split(' ').nth(1).and_then(|it| it.parse::<u64>().ok()).unwrap_or(0);
            self.is_over = resident * 4096 > most;
        }
        self.asked = self.asked.wrapping_add(1);
        self.is_over
    }
}

/// How many steps are made between two looks at what hosts send, where they interleave.
const STEPS: usize = 8;

/// How long the engine waits where it can do nothing but wait.
const PAUSE: Duration = Duration::from_millis(2);

impl Engine {
    /// A controller whose volume is the image's.
    pub(crate) fn new(options: &Options, image: Option<Image>) -> Result<Engine, String> {
        let config = options.config;
        if config.sq_size < 3 {
            return Err("a submission queue of 2 slots has no room for a pair".into());
        }
        let disk = Controller::new(&config).map_err(|it| it.to_string())?;
        let planner = Planner::new(options.naive, options.fault);
        let option = if planner.keeps_heads() { "" } else { "\nobserve ignore SQHD" };
        let pairs = (0..config.pairs).map(|_| Pair::default()).collect();
        let mut it = Engine {
            disk,
            config,
            strict: options.strict,
            transport_only: options.transport_only,
            pairs,
            planner,
            trace: Trace::create(options.trace.as_deref(), &format!("{config}{option}"))?,
            replies: vec![],
            later: VecDeque::new(),
            past: HashMap::new(),
            memory: Memory { most: options.memory, asked: 0, is_over: false },
            history: History::create(options.history.as_deref())?,
            image,
            by_id: HashMap::new(),
            tickets: vec![],
            random: options.seed.map(|it| it.wrapping_mul(2) | 1),
            is_starved: false,
        };
        it.load().map_err(|it| format!("the image can't be read into the controller: {it}"))?;
        it.write_down().map_err(|it| it.to_string())?;
        Ok(it)
    }

    /// Fills the volume by Writes, since nothing else gives a controller its contents.
    fn load(&mut self) -> Result<(), Box<dyn std::error::Error>> {
        let Some(image) = &self.image else { return Ok(()) };
        let (mut slba, blocks) = (0, u64::from(self.config.blocks));
        while slba < blocks {
            let mut data = vec![0; 256.min(blocks - slba) as usize * BLOCK];
            image.read(slba, &mut data)?;
            if data.iter().any(|it| *it != 0) {
                let entry = Entry::write(0, slba, &data).blocks((data.len() / BLOCK) as u16);
                let command = vandrexu_wire::Command(entry.bytes);
                self.disk.publish(1, &[entry])?;
                self.trace.publish(self.trace.publication(1, [(&command, &data[..])].into_iter()))?;
                self.disk.fetch(1)?;
                self.disk.settle()?;
                let reaped = self.disk.reap(1)?;
                self.pairs[0].head = reaped.completion.sqhd();
                self.trace.reap(1, &Completion(reaped.completion.0), &[])?;
            }
            slba += 256;
        }
        Ok(())
    }

    /// Works until the target ends.
    pub(crate) fn run(mut self, messages: &Receiver<Message>) -> Result<(), String> {
        loop {
            let mut next = match self.wait(messages) {
                Ok(message) => Some(message),
                Err(RecvTimeoutError::Timeout) => None,
                Err(RecvTimeoutError::Disconnected) => return Ok(()),
            };
            while let Some(message) = next {
                if matches!(message, Message::End) {
                    return Ok(());
                }
                self.take(message);
                next = messages.try_recv().ok();
            }
            self.turn().map_err(|it| it.to_string())?;
        }
    }

    /// The next message. The engine waits for it where it has nothing to do.
    fn wait(&mut self, messages: &Receiver<Message>) -> Result<Message, RecvTimeoutError> {
        if std::mem::take(&mut self.is_starved) {
            return messages.recv_timeout(PAUSE);
        }
        if !self.tickets.is_empty() || self.pairs.iter().any(|it| it.unfetched > 0) {
            return messages.try_recv().map_err(|_| RecvTimeoutError::Timeout);
        }
        let waits = |it: &Pair| it.queue.as_ref().is_some_and(|it| !it.backlog.is_empty());
        if !self.later.is_empty() || self.pairs.iter().any(waits) {
            return messages.recv_timeout(PAUSE);
        }
        messages.recv().map_err(|_| RecvTimeoutError::Disconnected)
    }

    fn take(&mut self, message: Message) {
        match message {
            Message::Open { id, host, qid, slots, out, answer } => {
                let free = self.pair_for(&host, qid);
                if let Some(at) = free {
                    self.pairs[at].queue = Some(Queue::new(qid, slots, out));
                    self.pairs[at].owner = Some((host, qid));
                    self.by_id.insert(id, at);
                }
                // (a connection that ended meanwhile says so next)
                let _ = answer.send(free.is_some());
            }
            Message::Take { id, groups } => {
                if let Some(queue) = self.by_id.get(&id).and_then(|at| self.pairs[*at].queue.as_mut()) {
                    queue.backlog.extend(groups);
                }
            }
            Message::Close { id } => {
                if let Some(queue) = self.by_id.remove(&id).and_then(|at| self.pairs[at].queue.as_mut()) {
                    queue.out = None;
                    queue.backlog.clear();
                }
            }
            Message::End => {}
        }
    }

    /// The pair that a queue of a host gets: the one that it had before, and left; else one that nobody had; else one that is
    /// free. So hosts that come and go have a pair each in the history, as long as there are enough.
    fn pair_for(&self, host: &str, qid: u16) -> Option<usize> {
        let find = |is: &dyn Fn(&Pair) -> bool| self.pairs.iter().position(is);
        match find(&|it| it.is_of(host, qid) && !it.is_live()) {
            // (it may have to be drained first)
            Some(own) => self.pairs[own].is_free().then_some(own),
            None => find(&|it| it.owner.is_none() && it.is_free()).or_else(|| find(&Pair::is_free)),
        }
    }

    /// Does what there is to do, writes down what was done, and answers hosts then.
    fn turn(&mut self) -> Result<(), Box<dyn std::error::Error>> {
        self.hand_over()?;
        self.fetch()?;
        if self.random.is_some() {
            self.interleave()?
        } else {
            self.settle()?
        }
        if let Some(image) = &mut self.image {
            image.commit()?;
        }
        self.reap()?;
        self.write_down()?;
        self.reply();
        Ok(())
    }

    fn write_down(&mut self) -> std::io::Result<()> {
        self.history.write(&mut self.disk)?;
        self.trace.flush()
    }

    /// Takes what is published, a command or a pair of each queue in turn, as far as tickets go.
    fn fetch(&mut self) -> Step<()> {
        loop {
            let mut was_one = false;
            for at in 0..self.pairs.len() {
                if self.pairs[at].unfetched == 0 {
                    continue;
                }
                let work = match self.disk.fetch(at as u16 + 1) {
                    Ok(work) => work,
                    Err(Error::JobsFull) => return Ok(()),
                    Err(other) => return self.lacking(other),
                };
                let owes = match work.task {
                    Task::Failed { statuses } => statuses,
                    Task::Pair { .. } => 2,
                    Task::Flush | Task::Units { .. } => 1,
                };
                self.pairs[at].unfetched -= owes as usize;
                self.tickets.push(Ticket { number: work.ticket, owes, unit: (0, 0, false) });
                was_one = true;
            }
            if !was_one {
                return Ok(());
            }
        }
    }

    /// Makes each step that is ready.
    fn settle(&mut self) -> Step<()> {
        while let Some(step) = self.disk.ready() {
            let (vandrexu::Step::Grant(number) | vandrexu::Step::Block(number) | vandrexu::Step::Post(number)) = step;
            match self.disk.step(step) {
                Ok(made) => self.made(number, made)?,
                Err(other) => return self.lacking(other),
            }
        }
        Ok(())
    }

    /// Makes some steps, each of a ticket that chance names.
    fn interleave(&mut self) -> Step<()> {
        let (mut made, mut refused) = (0, 0);
        while made < STEPS && refused < 8 + 4 * self.tickets.len() && !self.tickets.is_empty() {
            let at = self.below(self.tickets.len());
            let number = self.tickets[at].number;
            match self.advance(number) {
                Ok(it) => {
                    self.made(number, it)?;
                    (made, refused) = (made + 1, 0);
                }
                Err(Error::Conflict | Error::CqFull) => refused += 1,
                Err(other) => return self.lacking(other),
            }
        }
        Ok(())
    }

    /// A step that had no memory is made later; no other refusal is due.
    pub(crate) fn lacking(&mut self, error: Error) -> Step<()> {
        self.is_starved = error == Error::NoMemory;
        if self.is_starved { Ok(()) } else { Err(error) }
    }

    /// The next step of a ticket, whatever it is.
    fn advance(&mut self, number: u64) -> Step<Made> {
        match self.disk.block(number).map(Made::Blocked) {
            Err(Error::WrongState) => {}
            made => return made,
        }
        match self.disk.grant(number).map(Made::Granted) {
            Err(Error::WrongState) => self.disk.post(number).map(Made::Posted),
            made => made,
        }
    }

    /// A number below this one, by the seed.
    fn below(&mut self, count: usize) -> usize {
        let mut it = self.random.unwrap_or(1);
        it ^= it << 13;
        it ^= it >> 7;
        it ^= it << 17;
        self.random = Some(it);
        (it % count as u64) as usize
    }

    /// Notes a step: what a unit wrote goes to the image once the unit has ended.
    fn made(&mut self, number: u64, made: Made) -> Step<()> {
        let Some(at) = self.tickets.iter().position(|it| it.number == number) else { return Ok(()) };
        let ticket = &mut self.tickets[at];
        match made {
            Made::Granted(it) => ticket.unit = (it.slba, it.blocks, false),
            Made::Blocked(Blocked { found, ended, .. }) => {
                ticket.unit.2 |= found == Found::Written;
                let (slba, blocks, wrote) = ticket.unit;
                if ended && wrote {
                    self.note(slba, blocks)?;
                }
            }
            Made::Posted(_) => {
                ticket.owes -= 1;
                if ticket.owes == 0 {
                    self.tickets.swap_remove(at);
                }
            }
        }
        Ok(())
    }

    fn note(&mut self, slba: u64, blocks: u32) -> Step<()> {
        let Some(image) = &mut self.image else { return Ok(()) };
        let mut data = Vec::with_capacity(blocks as usize * BLOCK);
        for lba in slba..slba + u64::from(blocks) {
            data.extend_from_slice(&self.disk.medium(lba)?);
        }
        image.note(slba, &data);
        Ok(())
    }
}
