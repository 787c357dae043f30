//! A host: its admin queue and its I/O queues.
use crate::{Answer, Error, Queue, Result};
use std::net::SocketAddr;
use std::time::Duration;
use vandrexu_wire::{Command, Status, crc32c, fabrics, opcode, put32, put64, u16_at};

/// How a host connects.
#[derive(Clone, Debug, PartialEq, Eq)]
pub struct Dial {
    /// The target.
    pub address: SocketAddr,
    /// The name of the subsystem.
    pub subsystem: String,
    /// The name of the host.
    pub host: String,
    /// Slots of each queue.
    pub slots: u16,
    /// Whether headers have digests.
    pub header_digest: bool,
    /// Whether data has digests.
    pub data_digest: bool,
    /// To how many bytes the target aligns data.
    pub alignment: usize,
    /// The most bytes of data in a capsule.
    pub in_capsule: usize,
    /// The keep alive timeout in milliseconds; 0 for none.
    pub keep_alive: u32,
    /// How long it waits for the target.
    pub patience: Duration,
}

impl Dial {
    /// To this address, with the names that vandrexu-target has unless told otherwise.
    #[must_use]
    pub fn to(address: SocketAddr) -> Dial {
        Dial {
            address,
            subsystem: "nqn.2026-11.org.vandrexu:disk".into(),
            host: "nqn.2026-11.org.vandrexu:host".into(),
            slots: 32,
            header_digest: false,
            data_digest: false,
            alignment: 4,
            in_capsule: 8192,
            keep_alive: 0,
            patience: Duration::from_secs(20),
        }
    }

    /// The same, by a host of this name.
    #[must_use]
    pub fn named(mut self, host: &str) -> Dial {
        self.host = host.into();
        self
    }

    /// The Host Identifier, made of the name.
    #[must_use]
    pub fn identifier(&self) -> [u8; 16] {
        let mut out = [0; 16];
        put32(&mut out, 0, crc32c(self.host.as_bytes()));
        put64(&mut out, 8, self.host.len() as u64);
        out
    }
}

/// A host with its queues.
#[derive(Debug)]
pub struct Host {
    // (they leave before the admin queue does, with which the target ends them)
    /// The I/O queues, as many as the target gave.
    pub queues: Vec<Queue>,
    /// The admin queue.
    pub admin: Queue,
    /// The number of its controller.
    pub controller: u16,
    dial: Dial,
}

impl Host {
    /// Connects, enables the controller, and makes as many I/O queues as are wanted and the target has.
    ///
    /// # Errors
    /// A failed connection; a target that refuses.
    pub fn connect(dial: &Dial, queues: u16) -> Result<Host> {
        let mut host = Host::admin_only(dial)?;
        if queues > 0 {
            let given = host.ask_for_queues(queues)?;
            for qid in 1..=given.min(queues) {
                host.add_queue(qid)?;
            }
        }
        Ok(host)
    }

    /// Connects the admin queue and enables the controller.
    ///
    /// # Errors
    /// As those of `connect`.
    pub fn admin_only(dial: &Dial) -> Result<Host> {
        let mut admin = Queue::open(dial)?;
        let controller = accepted(&admin.connect(dial, 0, 0xFFFF)?)? as u16;
        let mut host = Host { admin, queues: vec![], controller, dial: dial.clone() };
        host.set_property(0x14, 0x0046_0001)?;
        if host.property(0x1C, false)? & 1 == 0 {
            return Err(Error::Target("no readiness"));
        }
        Ok(host)
    }

    /// Asks for I/O queues, and gives the number that the target keeps for this host.
    ///
    /// # Errors
    /// As those of `connect`.
    pub fn ask_for_queues(&mut self, count: u16) -> Result<u16> {
        let number = u32::from(count) - 1;
        let command = Command::new(opcode::SET_FEATURES).with(10, 7).with(11, number << 16 | number);
        let given = accepted(&self.admin.call(command, &[], 0)?)?;
        Ok(given as u16 + 1)
    }

    /// Connects the I/O queue of this number.
    ///
    /// # Errors
    /// As those of `connect`.
    pub fn add_queue(&mut self, qid: u16) -> Result<()> {
        let mut queue = Queue::open(&self.dial)?;
        accepted(&queue.connect(&self.dial, qid, self.controller)?)?;
        self.queues.push(queue);
        Ok(())
    }

    /// A property, of eight bytes or of four.
    ///
    /// # Errors
    /// As those of `connect`.
    pub fn property(&mut self, offset: u32, is_wide: bool) -> Result<u64> {
        let mut command = Command::fabrics(fabrics::PROPERTY_GET).with(11, offset);
        command.0[40] = is_wide.into();
        accepted(&self.admin.call(command, &[], 0)?)
    }

    /// Sets a property of four bytes.
    ///
    /// # Errors
    /// As those of `connect`.
    pub fn set_property(&mut self, offset: u32, value: u32) -> Result<()> {
        let command = Command::fabrics(fabrics::PROPERTY_SET).with(11, offset).with(12, value);
        accepted(&self.admin.call(command, &[], 0)?).map(drop)
    }

    /// Identify of this form, of this namespace.
    ///
    /// # Errors
    /// A failed connection.
    pub fn identify(&mut self, form: u8, namespace: u32) -> Result<Answer> {
        let command = Command::new(opcode::IDENTIFY).with(1, namespace).with(10, form.into());
        self.admin.call(command, &[], 4096)
    }

    /// A log page, of this length in bytes.
    ///
    /// # Errors
    /// A failed connection.
    pub fn log(&mut self, page: u8, length: usize) -> Result<Answer> {
        let dwords = (length / 4 - 1) as u32;
        let command = Command::new(opcode::GET_LOG_PAGE)
            .with(1, u32::MAX)
            .with(10, u32::from(page) | dwords << 16)
            .with(11, dwords >> 16);
        self.admin.call(command, &[], length)
    }

    /// The names of subsystems that a discovery controller tells, with the ports where they are.
    ///
    /// # Errors
    /// As those of `connect`; a status of the log page.
    pub fn discover(dial: &Dial) -> Result<Vec<(String, String)>> {
        let dial = Dial { subsystem: vandrexu_wire::DISCOVERY.into(), ..dial.clone() };
        let mut host = Host::admin_only(&dial)?;
        let page = host.log(0x70, 4096)?;
        accepted(&page)?;
        let count = usize::from(u16_at(&page.data, 8)).min(3);
        let records = page.data[1024..].chunks(1024).take(count);
        Ok(records.map(|it| (text(&it[256..512]), text(&it[32..64]))).collect())
    }
}

/// A text that ends with zeros or spaces.
fn text(bytes: &[u8]) -> String {
    String::from_utf8_lossy(bytes).trim_end_matches(['\0', ' ']).into()
}

/// What an answer says, if it is one of success.
fn accepted(answer: &Answer) -> Result<u64> {
    let result = answer.completion.result();
    if answer.status().is(Status::SUCCESS) { Ok(result) } else { Err(Error::Refused(answer.status(), result)) }
}
