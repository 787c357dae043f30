//! The hosts that are connected: one controller for each admin connection, and its I/O queues.
use crate::features::Features;
use std::collections::{BTreeMap, HashMap};
use std::net::{Shutdown, TcpStream};
use vandrexu_wire::Status;

/// What a host has of the target.
#[derive(Debug)]
pub(crate) struct Controller {
    /// The host's name.
    pub host: String,
    /// The Host Identifier.
    pub identifier: [u8; 16],
    /// Whether it is of the discovery subsystem.
    pub is_discovery: bool,
    /// Controller Configuration.
    pub configuration: u32,
    /// Controller Status.
    pub status: u32,
    /// Asynchronous Event Requests that are held.
    pub events: Vec<u16>,
    /// Features that were set.
    pub features: Features,
    /// How many I/O queues are kept for it.
    pub queues: u16,
    /// The connections of its I/O queues.
    open: BTreeMap<u16, u64>,
}

impl Controller {
    /// Whether it is enabled.
    pub(crate) fn is_enabled(&self) -> bool {
        self.configuration & 1 == 1
    }

    /// Whether it has an I/O queue.
    pub(crate) fn has_queues(&self) -> bool {
        !self.open.is_empty()
    }
}

/// A connection.
#[derive(Debug)]
struct Known {
    socket: TcpStream,
    /// The host's name, once its Connect came.
    host: String,
}

/// All of them.
#[derive(Debug, Default)]
pub(crate) struct Hosts {
    controllers: BTreeMap<u16, Controller>,
    known: HashMap<u64, Known>,
    last: u16,
}

/// Whether a connection may come.
#[derive(Clone, Copy, Debug, PartialEq, Eq)]
pub(crate) enum Admitted {
    /// It may.
    Yes,
    /// It is one too many: its Connect is answered so.
    ToBeRefused,
    /// It is closed.
    No,
}

/// How many connections too many are answered at a time.
const ANSWERED: usize = 16;

/// The numbers of controllers end here.
const LAST: u16 = 0xFFEF;

impl Hosts {
    /// Notes a connection, unless there are so many that it can't even be answered.
    pub(crate) fn admit(&mut self, id: u64, socket: TcpStream, most: usize) -> Admitted {
        let before = self.known.len();
        if before >= most + ANSWERED {
            return Admitted::No;
        }
        self.known.insert(id, Known { socket, host: String::new() });
        if before >= most { Admitted::ToBeRefused } else { Admitted::Yes }
    }

    /// How many connections there are.
    pub(crate) fn connections(&self) -> usize {
        self.known.len()
    }

    /// Notes whose connection this is.
    pub(crate) fn name(&mut self, id: u64, host: &str) {
        self.known.get_mut(&id).into_iter().for_each(|it| host.clone_into(&mut it.host));
    }

    /// Whether a connection is of this host.
    pub(crate) fn has(&self, host: &str) -> bool {
        self.known.values().any(|it| it.host == host)
    }

    /// Ends all connections.
    pub(crate) fn end_all(&self) {
        self.known.values().for_each(end);
    }

    /// A new controller: its number.
    pub(crate) fn add(&mut self, host: String, identifier: [u8; 16], is_discovery: bool) -> Option<u16> {
        let next = |it: u16| if it >= LAST { 1 } else { it + 1 };
        let mut number = next(self.last);
        for _ in 0..LAST {
            if !self.controllers.contains_key(&number) {
                break;
            }
            number = next(number);
        }
        if self.controllers.contains_key(&number) {
            return None;
        }
        self.last = number;
        let (features, open, events) = (Features::default(), BTreeMap::new(), vec![]);
        let new = Controller {
            host,
            identifier,
            is_discovery,
            configuration: 0,
            status: 0,
            events,
            features,
            queues: 0,
            open,
        };
        self.controllers.insert(number, new);
        Some(number)
    }

    /// The controller of this number.
    pub(crate) fn controller(&mut self, number: u16) -> Option<&mut Controller> {
        self.controllers.get_mut(&number)
    }

    /// The numbers of all controllers that are no discovery controllers.
    pub(crate) fn numbers(&self) -> Vec<u16> {
        self.controllers.iter().filter(|(_, it)| !it.is_discovery).map(|(number, _)| *number).collect()
    }

    /// Keeps I/O queues for a controller, as many as it wants and the target has, and gives their number.
    pub(crate) fn keep_queues(&mut self, number: u16, wanted: u16, pairs: u16) -> u16 {
        let others: u16 = self.controllers.iter().filter(|(it, _)| **it != number).map(|(_, it)| it.queues).sum();
        let given = wanted.min(pairs.saturating_sub(others));
        if let Some(it) = self.controllers.get_mut(&number) {
            it.queues = given;
        }
        given
    }

    /// Takes an I/O queue's connection in.
    ///
    /// # Errors
    /// The queue is open.
    pub(crate) fn open_queue(&mut self, number: u16, qid: u16, connection: u64) -> Result<(), Status> {
        match self.controllers.get_mut(&number) {
            Some(it) if !it.open.contains_key(&qid) => {
                it.open.insert(qid, connection);
                Ok(())
            }
            _ => Err(Status::SEQUENCE),
        }
    }

    /// Ends the connections of a controller's I/O queues.
    pub(crate) fn end_queues(&mut self, number: u16) {
        let Some(it) = self.controllers.get_mut(&number) else { return };
        for connection in it.open.values() {
            self.known.get(connection).into_iter().for_each(end);
        }
        it.open.clear();
    }

    /// Forgets a connection.
    pub(crate) fn forget(&mut self, id: u64) {
        self.known.remove(&id);
    }

    /// Forgets a queue of a connection; with the admin queue goes its controller.
    pub(crate) fn forget_queue(&mut self, id: u64, number: u16, qid: u16) {
        if qid == 0 {
            self.end_queues(number);
            self.controllers.remove(&number);
        } else if let Some(it) = self.controllers.get_mut(&number)
            && it.open.get(&qid) == Some(&id)
        {
            it.open.remove(&qid);
        }
    }
}

// (a socket that is closed already can't be shut down, which is as well)
fn end(it: &Known) {
    let _ = it.socket.shutdown(Shutdown::Both);
}
