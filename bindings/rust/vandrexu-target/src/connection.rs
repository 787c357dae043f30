//! One connection: it reads PDUs, and hands on what they ask for.
use crate::engine::Message;
use crate::hosts::Admitted;
use crate::identify::IN_CAPSULE;
use crate::outlet::Outlet;
use crate::ring::{Capsule, MOST, Ring, has_data};
use crate::target::Shared;
use std::net::TcpStream;
use std::sync::Arc;
use std::time::Instant;
use vandrexu_wire::{
    Command, Completion, Fatal, Fault, Format, Pdu, Reader, Side, Status, fabrics, kind, opcode, u16_at,
};

/// What a connection is.
#[derive(Clone, Copy, Debug, PartialEq, Eq)]
pub(crate) enum Role {
    /// Nothing was agreed on.
    New,
    /// Digests were agreed on.
    Open,
    /// A queue of this controller.
    Queue {
        /// The controller.
        controller: u16,
        /// The number of the queue, 0 for the admin queue.
        qid: u16,
    },
}

/// A connection.
pub(crate) struct Connection {
    /// What all have.
    pub shared: Arc<Shared>,
    /// Its number.
    pub id: u64,
    /// Where its responses go.
    pub out: Outlet,
    /// What it is.
    pub role: Role,
    /// Slots of its queue.
    pub slots: u16,
    /// Whether its Connect may be served.
    pub admitted: Admitted,
    reader: Reader<TcpStream>,
    ring: Ring,
    fetched: u64,
    began: Instant,
    heard: Instant,
    /// Since when a part of a PDU waits for its rest.
    part: Option<Instant>,
}

/// Why a connection ends.
#[derive(Debug)]
pub(crate) enum End {
    /// The host is gone, or wants to go.
    Left,
    /// The host took too long.
    Late(&'static str),
    /// The target ends.
    Ending,
    /// The host sent what is wrong.
    Wrong(Fatal, Vec<u8>),
}

impl std::fmt::Display for End {
    fn fmt(&self, f: &mut std::fmt::Formatter<'_>) -> std::fmt::Result {
        match self {
            End::Left => write!(f, "the host left"),
            End::Late(what) => write!(f, "the host sent no {what} in time"),
            End::Ending => write!(f, "the target ends"),
            End::Wrong(why, _) => write!(f, "fatal error status {}, offset {}", why.status, why.offset),
        }
    }
}

impl Drop for Connection {
    /// Leaves all that it had.
    fn drop(&mut self) {
        if let Role::Queue { controller, qid } = self.role {
            self.shared.hosts().forget_queue(self.id, controller, qid);
            if qid != 0 {
                let _ = self.shared.engine.send(Message::Close { id: self.id });
            }
        }
    }
}

impl Connection {
    /// A connection at its begin.
    pub(crate) fn new(shared: Arc<Shared>, stream: TcpStream, id: u64, out: Outlet, admitted: Admitted) -> Connection {
        let reader = Reader::new(stream, Side::Target, MOST);
        let (ring, began, heard) = (Ring::default(), Instant::now(), Instant::now());
        let (role, slots, fetched, part) = (Role::New, 32, 0, None);
        Connection { shared, id, out, role, slots, admitted, reader, ring, fetched, began, heard, part }
    }

    /// Serves it until it ends.
    pub(crate) fn serve(&mut self) -> End {
        loop {
            let done = match self.reader.take_at_once() {
                Ok(Some(pdu)) => self.take(&pdu),
                Ok(None) => self.look(),
                Err(Fault::Closed | Fault::Failed(_)) => Err(End::Left),
                Err(Fault::Broken(why, header)) => Err(End::Wrong(why, header)),
            };
            if let Err(end) = done {
                if let End::Wrong(why, header) = &end {
                    self.out.send(Format::end(kind::C2H_TERM, *why, header));
                }
                return end;
            }
        }
    }

    fn take(&mut self, pdu: &Pdu) -> Result<(), End> {
        (self.heard, self.part) = (Instant::now(), None);
        let wrong = |why| End::Wrong(why, pdu.header().to_vec());
        match (pdu.kind(), self.role) {
            (kind::IC_REQ, Role::New) => self.initialize(pdu).map_err(wrong)?,
            (kind::H2C_TERM, _) => return Err(End::Left),
            (_, Role::New) | (kind::IC_REQ, _) => return Err(wrong(Fatal::SEQUENCE)),
            (kind::COMMAND, _) => self.capsule(pdu).map_err(wrong)?,
            _ => self.ring.data(pdu).map_err(wrong)?,
        }
        self.ring.ask(&self.out);
        // (Connect may make this an I/O queue, and more may wait behind it)
        while !self.is_io()
            && let Some(capsule) = self.ring.next()
        {
            self.serve_here(&capsule);
        }
        // (what is here already goes on together)
        if self.is_io() && !self.reader.has_more() {
            self.hand_on(false);
        }
        Ok(())
    }

    /// Whether it is an I/O queue.
    fn is_io(&self) -> bool {
        matches!(self.role, Role::Queue { qid: 1.., .. })
    }

    /// Agrees on digests and on alignment.
    fn initialize(&mut self, pdu: &Pdu) -> Result<(), Fatal> {
        let header = pdu.header();
        if u16_at(header, 8) != 0 || header[10] > 31 {
            return Err(Fatal::UNSUPPORTED);
        }
        let digests = Format { header_digest: header[11] & 1 != 0, data_digest: header[11] & 2 != 0, alignment: 4 };
        self.out.send(digests.initialize(kind::IC_RESP, MOST as u32));
        self.reader.format = digests;
        self.out.format = Format { alignment: (usize::from(header[10]) + 1) * 4, ..digests };
        self.role = Role::Open;
        Ok(())
    }

    fn capsule(&mut self, pdu: &Pdu) -> Result<(), Fatal> {
        // (a host that has twice as many commands as its queue has slots follows no flow control)
        if self.out.owe() >= 2 * usize::from(self.slots.max(32)) {
            return Err(Fatal::LIMIT);
        }
        if pdu.data().len() > IN_CAPSULE + 256 {
            return Err(Fatal::field(4));
        }
        let command = Command(pdu.entry());
        let is_connect = command.opcode() == opcode::FABRICS && command.0[4] == fabrics::CONNECT;
        let is_served = if self.is_io() { has_data(&command) } else { is_connect };
        self.ring.push(pdu, is_served);
        Ok(())
    }

    /// Looks at the clocks.
    fn look(&mut self) -> Result<(), End> {
        let (patience, silent) = (self.shared.options.patience, self.heard.elapsed());
        if self.shared.is_ending() {
            return Err(End::Ending);
        }
        if self.reader.is_within() && self.part.get_or_insert_with(Instant::now).elapsed() > patience {
            return Err(End::Late("rest of a PDU"));
        }
        if self.ring.wants_data() && silent > patience {
            return Err(End::Late("data"));
        }
        match self.role {
            Role::New | Role::Open if self.began.elapsed() > patience => return Err(End::Late("Connect")),
            Role::Queue { controller, qid: 0 } => {
                let timeout = self.shared.hosts().controller(controller).map_or(0, |it| it.features.keep_alive);
                if timeout > 0 && silent.as_millis() > u128::from(timeout) + 1000 {
                    return Err(End::Late("Keep Alive"));
                }
            }
            Role::Queue { .. } if self.ring.has_lone_first() && silent > self.shared.options.pair_wait => {
                self.hand_on(true);
            }
            _ => {}
        }
        Ok(())
    }

    /// Hands to the engine what it can take, in the order in which it came.
    fn hand_on(&mut self, is_late: bool) {
        let mut groups = vec![];
        while let Some(mut group) = self.ring.group(is_late) {
            group.iter_mut().for_each(|it| self.judge(it));
            if group.iter().any(|it| it.verdict.is_some()) {
                // (what is left of a pair is a half)
                groups.extend(group.into_iter().map(|it| vec![it]));
            } else {
                groups.push(group);
            }
        }
        if !groups.is_empty() {
            let _ = self.shared.engine.send(Message::Take { id: self.id, groups });
        }
    }

    /// What the target answers of an I/O queue's command itself.
    fn judge(&self, capsule: &mut Capsule) {
        let command = &capsule.command;
        let (length, _, kind) = command.sgl();
        if capsule.verdict.is_some() {
            return;
        }
        if command.opcode() == opcode::FABRICS {
            let status = match command.0[4] {
                fabrics::DISCONNECT => Status::SUCCESS,
                fabrics::CONNECT => Status::SEQUENCE.no_retry(),
                _ => Status::INVALID_FIELD.no_retry(),
            };
            capsule.verdict = Some(status);
        } else if command.opcode() == opcode::READ && command.count() * vandrexu_wire::BLOCK > length {
            // (what the host has room for the controller isn't told)
            capsule.verdict = Some(Status::DATA_LENGTH.no_retry());
        } else if command.opcode() == opcode::READ && kind != 0x5A {
            capsule.verdict = Some(Status::SGL_TYPE.no_retry());
        }
    }

    /// Answers a command of an admin queue, or the first of any.
    fn serve_here(&mut self, capsule: &Capsule) {
        let command = &capsule.command;
        let told = match (capsule.verdict, self.role) {
            (Some(status), _) => Err((status, 0)),
            (None, Role::Queue { controller, .. }) => self.admin(controller, command, &capsule.data),
            (None, _) if command.opcode() == opcode::FABRICS && command.0[4] == fabrics::CONNECT => {
                self.connect(command, &capsule.data).map(|it| Some((it, vec![])))
            }
            (None, _) => Err((Status::SEQUENCE.no_retry(), 0)),
        };
        match told {
            Ok(Some((result, data))) => self.answer(command.cid(), Status::SUCCESS, result, &data),
            // (it is held)
            Ok(None) => self.fetched += 1,
            Err((status, result)) => self.answer(command.cid(), status, result, &[]),
        }
    }

    fn answer(&mut self, cid: u16, status: Status, result: u64, data: &[u8]) {
        self.fetched += 1;
        let qid = if let Role::Queue { qid, .. } = self.role { qid } else { 0 };
        let head = (self.fetched % u64::from(self.slots)) as u16;
        self.out.answer(&Completion::new(cid, status, result).of_queue(qid, head), data);
    }

    /// The address at which the host reached the target.
    pub(crate) fn address(&self) -> std::net::SocketAddr {
        self.reader.stream().local_addr().unwrap_or(self.shared.options.listen)
    }
}
