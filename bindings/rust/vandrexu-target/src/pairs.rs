//! The controller's queue pairs, and the hosts' queues that have them for a while.
use crate::faults::Plan;
use crate::outlet::Outlet;
use crate::ring::Capsule;
use std::collections::{HashMap, VecDeque};
use vandrexu_wire::{Command, Completion};

/// A command that the controller has.
#[derive(Debug)]
pub(crate) struct Sent {
    /// As the host gave it.
    pub command: Command,
    /// How many bytes a Read brings.
    pub reads: usize,
    /// What is done about its completion.
    pub plan: Plan,
}

/// A host's queue.
#[derive(Debug)]
pub(crate) struct Queue {
    /// Its number for the host.
    pub qid: u16,
    /// Its slots.
    pub slots: u16,
    /// Where its responses go; nowhere, once its connection has ended.
    pub out: Option<Outlet>,
    /// What waits for room.
    pub backlog: VecDeque<Vec<Capsule>>,
    /// What the controller has, by CID.
    pub sent: HashMap<u16, VecDeque<Sent>>,
    /// How many commands that is.
    pub outstanding: usize,
    /// How many bytes their Reads bring.
    pub reading: usize,
    /// How many entries were taken from it.
    pub fetched: u64,
}

/// How many bytes of what was read may wait for a host that is slow to take them.
const SLOW: usize = 8 << 20;

impl Queue {
    /// A new one.
    pub(crate) fn new(qid: u16, slots: u16, out: Outlet) -> Queue {
        let (backlog, sent) = (VecDeque::new(), HashMap::new());
        Queue { qid, slots, out: Some(out), backlog, sent, outstanding: 0, reading: 0, fetched: 0 }
    }

    /// Whether the host is too slow to be read for.
    pub(crate) fn is_slow(&self) -> bool {
        self.out.as_ref().map_or(0, Outlet::waiting) + self.reading > SLOW
    }

    /// Notes a command that the controller is given.
    pub(crate) fn note(&mut self, sent: Sent, cid: u16) {
        self.outstanding += 1;
        self.reading += sent.reads;
        self.sent.entry(cid).or_default().push_back(sent);
    }

    /// The command that this completion is of. Of two with one CID the later one is refused for it.
    pub(crate) fn taken(&mut self, cid: u16, is_conflict: bool) -> Option<Sent> {
        let all = self.sent.get_mut(&cid)?;
        let found = if is_conflict { all.pop_back() } else { all.pop_front() }?;
        if all.is_empty() {
            self.sent.remove(&cid);
        }
        self.outstanding -= 1;
        self.reading -= found.reads;
        Some(found)
    }

    /// A completion as the host's queue has it: its own number and head, and the phase tag that was right as 0. The head
    /// counts the entry of Connect as well. `skew` makes it wrong on purpose.
    pub(crate) fn on_the_wire(&self, completion: &Completion, right_phase: u8, skew: u16) -> Completion {
        let head = (1 + self.fetched + u64::from(skew)) % u64::from(self.slots);
        let mut it = completion.of_queue(self.qid, head as u16);
        it.0[14] ^= right_phase;
        it
    }
}

/// A queue pair of the controller.
#[derive(Debug, Default)]
pub(crate) struct Pair {
    /// Who has it.
    pub queue: Option<Queue>,
    /// How many of its entries weren't fetched.
    pub unfetched: usize,
    /// The head that the last completion told.
    pub head: u16,
    /// Which queue of which host has it, or had it last.
    pub owner: Option<(String, u16)>,
}

impl Pair {
    /// Whether this queue of this host has it, or had it last.
    pub(crate) fn is_of(&self, host: &str, qid: u16) -> bool {
        self.owner.as_ref().is_some_and(|it| (it.0.as_str(), it.1) == (host, qid))
    }

    /// Whether a connection has it.
    pub(crate) fn is_live(&self) -> bool {
        self.queue.as_ref().is_some_and(|it| it.out.is_some())
    }

    /// Whether another queue may have it: nothing of the last one is in it.
    pub(crate) fn is_free(&self) -> bool {
        match &self.queue {
            None => self.unfetched == 0,
            Some(queue) => queue.out.is_none() && queue.outstanding == 0 && self.unfetched == 0,
        }
    }
}
