//! Connect: a connection becomes a queue.
use crate::connection::{Connection, Role};
use crate::engine::Message;
use crate::hosts::Admitted;
use std::sync::mpsc::channel;
use std::thread;
use std::time::Duration;
use vandrexu_wire::{Command, DISCOVERY, Status, u16_at, u32_at};

/// A status and a number, where a command failed.
pub(crate) type Refusal = (Status, u64);

/// What Connect carries.
struct Asked {
    qid: u16,
    slots: u32,
    keep_alive: u32,
    identifier: [u8; 16],
    controller: u16,
    subsystem: String,
    host: String,
}

/// A field of the entry that isn't as it should be.
fn in_entry(offset: u16) -> Refusal {
    (Status::CONNECT_PARAMETERS.no_retry(), offset.into())
}

/// A field of the data that isn't as it should be.
fn in_data(offset: u16) -> Refusal {
    (Status::CONNECT_PARAMETERS.no_retry(), u64::from(offset) | 1 << 16)
}

fn name_at(bytes: &[u8]) -> String {
    let end = bytes.iter().position(|it| *it == 0).unwrap_or(bytes.len());
    String::from_utf8_lossy(&bytes[..end]).into_owned()
}

impl Asked {
    fn of(command: &Command, data: &[u8]) -> Result<Asked, Refusal> {
        let bytes = &command.0;
        if u16_at(bytes, 40) != 0 {
            return Err((Status::CONNECT_FORMAT.no_retry(), 0));
        }
        if data.len() < 1024 {
            return Err((Status::DATA_LENGTH.no_retry(), 0));
        }
        let mut identifier = [0; 16];
        identifier.copy_from_slice(&data[..16]);
        Ok(Asked {
            qid: u16_at(bytes, 42),
            slots: u32::from(u16_at(bytes, 44)) + 1,
            keep_alive: u32_at(bytes, 48),
            identifier,
            controller: u16_at(data, 16),
            subsystem: name_at(&data[256..512]),
            host: name_at(&data[512..768]),
        })
    }
}

impl Connection {
    /// Serves Connect: the number of the controller.
    pub(crate) fn connect(&mut self, command: &Command, data: &[u8]) -> Result<u64, Refusal> {
        let asked = Asked::of(command, data)?;
        if self.admitted != Admitted::Yes {
            return Err((Status::CONNECT_BUSY, 0));
        }
        let options = &self.shared.options;
        let is_discovery = asked.subsystem == DISCOVERY;
        if asked.subsystem != options.subsystem && !is_discovery {
            return Err(in_data(256));
        }
        if asked.host.is_empty() || !(options.allow.is_empty() || options.allow.contains(&asked.host)) {
            return Err((Status::CONNECT_HOST.no_retry(), 0));
        }
        self.shared.hosts().name(self.id, &asked.host);
        let most = u32::from(options.config.sq_size.min(options.config.cq_size));
        if asked.slots < 2 || asked.qid != 0 && asked.slots > most {
            return Err(in_entry(44));
        }
        let number = if asked.qid == 0 { self.connect_admin(&asked, is_discovery)? } else { self.connect_io(&asked)? };
        self.slots = asked.slots.min(4096) as u16;
        self.role = Role::Queue { controller: number, qid: asked.qid };
        self.shared.say(|| {
            let Asked { qid, slots, host, .. } = &asked;
            format!("connection {} is queue {qid} of {slots} slots of controller {number}, of {host}", self.id)
        });
        Ok(number.into())
    }

    fn connect_admin(&self, asked: &Asked, is_discovery: bool) -> Result<u16, Refusal> {
        // (any controller: there are no static ones)
        if asked.controller < 0xFFFE {
            return Err(in_data(16));
        }
        let mut hosts = self.shared.hosts();
        let new = hosts.add(asked.host.clone(), asked.identifier, is_discovery);
        let number = new.ok_or((Status::CONNECT_BUSY, 0))?;
        if let Some(it) = hosts.controller(number) {
            it.features.keep_alive = asked.keep_alive;
        }
        Ok(number)
    }

    fn connect_io(&self, asked: &Asked) -> Result<u16, Refusal> {
        let (number, pairs) = (asked.controller, self.shared.options.config.pairs);
        let mut hosts = self.shared.hosts();
        let it = hosts.controller(number).ok_or(in_data(16))?;
        if (&it.host, it.identifier) != (&asked.host, asked.identifier) || it.is_discovery {
            return Err((Status::CONNECT_HOST.no_retry(), 0));
        }
        if !it.is_enabled() {
            return Err((Status::SEQUENCE.no_retry(), 0));
        }
        if asked.qid > pairs {
            return Err(in_entry(42));
        }
        if asked.qid > it.queues && hosts.keep_queues(number, asked.qid, pairs) < asked.qid {
            return Err((Status::CONNECT_BUSY, 0));
        }
        hosts.open_queue(number, asked.qid, self.id).map_err(|it| (it.no_retry(), 0))?;
        drop(hosts);
        if self.open_pair(asked) {
            return Ok(number);
        }
        self.shared.hosts().forget_queue(self.id, number, asked.qid);
        Err((Status::CONNECT_BUSY, 0))
    }

    /// Has the engine keep a pair for it. One of a host that left may have to be drained first.
    fn open_pair(&self, asked: &Asked) -> bool {
        for _ in 0..200 {
            let (answer, told) = channel();
            let (id, qid, host) = (self.id, asked.qid, asked.host.clone());
            let (out, slots) = (self.out.clone(), asked.slots as u16);
            let _ = self.shared.engine.send(Message::Open { id, host, qid, slots, out, answer });
            match told.recv() {
                Ok(true) => return true,
                Ok(false) => thread::sleep(Duration::from_millis(10)),
                Err(_) => return false,
            }
        }
        false
    }
}

#[cfg(test)]
mod tests {
    use super::{in_data, in_entry, name_at};

    #[test]
    fn a_wrong_field_is_told_by_its_place() {
        assert_eq!(in_entry(44).1.to_le_bytes(), [44, 0, 0, 0, 0, 0, 0, 0]);
        assert_eq!(in_data(16).1.to_le_bytes()[..4], [16, 0, 1, 0]);
        assert_eq!(name_at(b"nqn\0rest"), "nqn");
    }
}
