//! Commands of an admin queue.
use crate::connect::Refusal;
use crate::connection::Connection;
use crate::features::{self, QUEUES, Told};
use crate::identify::EVENTS_HELD;
use crate::properties::{self, Change};
use crate::{identify, logs};
use vandrexu_wire::{Command, Status, fabrics, opcode};

/// A number and data; nothing, where the command is held; or why not.
type Answered = Result<Option<(u64, Vec<u8>)>, Refusal>;

impl Connection {
    /// Serves a command of the admin queue of this controller.
    pub(crate) fn admin(&mut self, number: u16, command: &Command, _data: &[u8]) -> Answered {
        let told = if command.opcode() == opcode::FABRICS {
            self.fabrics(number, command)
        } else if command.opcode() == opcode::ASYNC_EVENT {
            return self.hold(number, command);
        } else {
            self.enabled(number, command)
        };
        self.shared.say(|| {
            let (kind, code) = told.as_ref().err().copied().unwrap_or(Status::SUCCESS).code();
            let (opcode, what) = (command.opcode(), if command.opcode() == opcode::FABRICS { 11 } else { 10 });
            format!("controller {number}: opcode {opcode:02X} of {:08X}: {kind}/{code:02X}", command.dword(what))
        });
        // (what isn't served now won't be later)
        told.map(Some).map_err(|status| (status.no_retry(), 0))
    }

    fn fabrics(&mut self, number: u16, command: &Command) -> Told {
        let config = self.shared.options.config;
        let mut hosts = self.shared.hosts();
        let it = hosts.controller(number).ok_or(Status::SEQUENCE)?;
        match command.0[4] {
            fabrics::PROPERTY_GET => properties::get(it, &config, command).map(|value| (value, vec![])),
            fabrics::PROPERTY_SET => {
                if properties::set(it, command)? == Change::Disabled {
                    hosts.end_queues(number);
                }
                Ok((0, vec![]))
            }
            fabrics::CONNECT => Err(Status::SEQUENCE),
            fabrics::DISCONNECT => Err(Status::QUEUE_TYPE),
            _ => Err(Status::INVALID_FIELD),
        }
    }

    /// Holds an Asynchronous Event Request: nothing happens that would answer it.
    fn hold(&mut self, number: u16, command: &Command) -> Answered {
        let mut hosts = self.shared.hosts();
        match hosts.controller(number) {
            Some(it) if !it.is_enabled() => Err((Status::SEQUENCE.no_retry(), 0)),
            Some(it) if it.events.len() < EVENTS_HELD => {
                it.events.push(command.cid());
                Ok(None)
            }
            _ => Err((Status::TOO_MANY_EVENTS.no_retry(), 0)),
        }
    }

    /// Serves what needs a controller that is enabled.
    fn enabled(&mut self, number: u16, command: &Command) -> Told {
        let options = &self.shared.options;
        let mut hosts = self.shared.hosts();
        let numbers = hosts.numbers();
        let it = hosts.controller(number).ok_or(Status::SEQUENCE)?;
        let is_discovery = it.is_discovery;
        if !it.is_enabled() {
            return Err(Status::SEQUENCE);
        }
        let told = match command.opcode() {
            opcode::IDENTIFY => {
                identify::Asked { options, controller: number, is_discovery, numbers }.answer(command).map(|it| (0, it))
            }
            opcode::GET_LOG_PAGE => {
                let (subsystem, address) = (&options.subsystem, self.address());
                logs::Asked { subsystem, address, is_discovery }.answer(command).map(|it| (0, it))
            }
            opcode::SET_FEATURES if command.dword(10) == QUEUES && !is_discovery => {
                let wanted = features::queues_wanted(it, command.dword(11))?;
                let given = hosts.keep_queues(number, wanted, options.config.pairs);
                // (0 says one: where there is none its Connect is refused)
                let told = u64::from(given.max(1)) - 1;
                Ok((told << 16 | told, vec![]))
            }
            opcode::SET_FEATURES => features::set(it, command),
            opcode::GET_FEATURES => features::get(it, command),
            opcode::KEEP_ALIVE => Ok((0, vec![])),
            // (nothing was aborted: what is served ends by itself)
            opcode::ABORT if !is_discovery => Ok((1, vec![])),
            _ => Err(Status::INVALID_OPCODE),
        };
        fitting(command, told)
    }
}

/// An answer, as far as the host has room for it.
fn fitting(command: &Command, told: Told) -> Told {
    let (room, _, kind) = command.sgl();
    let (result, mut data) = told?;
    if data.is_empty() {
        return Ok((result, data));
    }
    if kind != 0x5A {
        return Err(Status::SGL_TYPE);
    }
    data.truncate(room);
    Ok((result, data))
}
