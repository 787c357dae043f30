//! Identify, in the forms that Linux, SPDK and ESXi ask for.
use crate::Options;
use crate::logs::PAGES_TOLD;
use crate::properties::VERSION;
use vandrexu_wire::{Command, Status, crc32c, put16, put32, put64};

/// How many bytes a form has.
const LENGTH: usize = 4096;

/// The most data of a command: 32 pages of 4 KiB, which is 256 blocks.
const MDTS: u8 = 5;

/// The most bytes of data in a capsule.
pub(crate) const IN_CAPSULE: usize = 8192;

/// How many Asynchronous Event Requests are held.
pub(crate) const EVENTS_HELD: usize = 4;

/// What Identify is asked of.
pub(crate) struct Asked<'a> {
    /// The target.
    pub options: &'a Options,
    /// The controller.
    pub controller: u16,
    /// Whether it is of the discovery subsystem.
    pub is_discovery: bool,
    /// All controllers.
    pub numbers: Vec<u16>,
}

impl Asked<'_> {
    /// The form that the command asks for.
    pub(crate) fn answer(&self, command: &Command) -> Result<Vec<u8>, Status> {
        let (namespace, form, set) = (command.dword(1), command.dword(10) & 0xFF, command.dword(11) >> 24);
        match (form, set) {
            (0x01, _) if self.is_discovery => Ok(self.discovery()),
            _ if self.is_discovery => Err(Status::INVALID_FIELD),
            (0x01, _) => Ok(self.controller()),
            (0x00 | 0x11, _) => self.of_namespace(namespace, Asked::namespace),
            (0x02 | 0x10, _) | (0x07 | 0x1A, 0) if namespace >= 0xFFFF_FFFE => Err(Status::INVALID_NAMESPACE),
            (0x02 | 0x10, _) | (0x07 | 0x1A, 0) => Ok(namespaces(namespace)),
            (0x03, _) => self.of_namespace(namespace, Asked::descriptors),
            (0x05, 0) => self.of_namespace(namespace, |_| vec![0; LENGTH]),
            // (a Write Zeroes has as many blocks as a Write)
            (0x06, 0) => Ok(with(1, MDTS)),
            (0x08, _) => self.of_namespace(namespace, |_| independent()),
            (0x12, _) => self.of_namespace(namespace, |it| it.list(command.dword(10) >> 16)),
            (0x13, _) => Ok(self.list(command.dword(10) >> 16)),
            // (the NVM command set alone)
            (0x1C, _) => Ok(with(0, 1)),
            _ => Err(Status::INVALID_FIELD),
        }
    }

    fn of_namespace(&self, namespace: u32, form: impl Fn(&Self) -> Vec<u8>) -> Result<Vec<u8>, Status> {
        if namespace == 1 { Ok(form(self)) } else { Err(Status::INVALID_NAMESPACE) }
    }

    fn namespace(&self) -> Vec<u8> {
        let (mut out, config) = (vec![0; LENGTH], &self.options.config);
        for at in [0, 8, 16] {
            put64(&mut out, at, config.blocks.into());
        }
        // atomic units and boundaries of its own; several hosts may have it; blocks that were never written are zeros
        (out[24], out[30], out[33]) = (1 << 1, 1, 1);
        put16(&mut out, 34, config.awun);
        put16(&mut out, 38, config.acwu);
        put16(&mut out, 40, config.nabsn);
        put16(&mut out, 42, config.nabo);
        out[104..120].copy_from_slice(&self.guid());
        out[120..128].copy_from_slice(&self.guid()[8..]);
        // blocks of 2 to the power of 9 bytes
        out[130] = 9;
        out
    }

    /// An identifier of the namespace, made of the subsystem's name.
    fn guid(&self) -> [u8; 16] {
        let mut out = *b"vandrexu\0\0\0\0\0\0\0\x01";
        put32(&mut out, 8, crc32c(self.options.subsystem.as_bytes()));
        out
    }

    fn descriptors(&self) -> Vec<u8> {
        let mut out = vec![0; LENGTH];
        (out[0], out[1]) = (2, 16);
        out[4..20].copy_from_slice(&self.guid());
        (out[20], out[21]) = (1, 8);
        out[24..32].copy_from_slice(&self.guid()[8..]);
        // the NVM command set
        (out[32], out[33]) = (4, 1);
        out
    }

    /// A list of controllers from this number on.
    fn list(&self, from: u32) -> Vec<u8> {
        let mut out = vec![0; LENGTH];
        let found: Vec<u16> = self.numbers.iter().copied().filter(|it| u32::from(*it) >= from).take(2047).collect();
        put16(&mut out, 0, found.len() as u16);
        for (at, number) in found.iter().enumerate() {
            put16(&mut out, 2 + 2 * at, *number);
        }
        out
    }

    /// What all controllers tell.
    fn any_controller(&self, model: &str) -> Vec<u8> {
        let mut out = vec![0; LENGTH];
        let serial = format!("VX{:08X}", crc32c(self.options.subsystem.as_bytes()));
        put_text(&mut out[4..24], &serial);
        put_text(&mut out[24..64], model);
        put_text(&mut out[64..72], env!("CARGO_PKG_VERSION"));
        out[77] = MDTS;
        put16(&mut out, 78, self.controller);
        put32(&mut out, 80, VERSION);
        // Host Identifiers of 128 bits
        put32(&mut out, 96, 1);
        (out[259], out[261], out[262]) = (EVENTS_HELD as u8 - 1, PAGES_TOLD, 0);
        // keep alive in seconds
        put16(&mut out, 320, 10);
        put16(&mut out, 514, self.options.config.sq_size);
        // SGLs, with offsets of data in a capsule
        put32(&mut out, 536, 1 | 1 << 20);
        out
    }

    fn controller(&self) -> Vec<u8> {
        let (mut out, config) = (self.any_controller("Vandrexu over NVMe/TCP"), &self.options.config);
        // several ports and controllers; an I/O controller
        (out[76], out[111]) = (1 << 1, 1);
        (out[258], out[260]) = (3, 3);
        put16(&mut out, 266, 350);
        put16(&mut out, 268, 360);
        (out[512], out[513]) = (0x66, 0x44);
        put32(&mut out, 516, 1);
        // Compare and Write Zeroes; the fused Compare and Write
        put16(&mut out, 520, 1 | 1 << 3);
        put16(&mut out, 522, 1);
        // no volatile write cache, and no Flush of all namespaces
        out[525] = 2 << 1;
        put16(&mut out, 526, config.awun);
        put16(&mut out, 532, config.acwu);
        let name = self.options.subsystem.as_bytes();
        out[768..768 + name.len()].copy_from_slice(name);
        put32(&mut out, 1792, (64 + IN_CAPSULE as u32) / 16);
        put32(&mut out, 1796, 1);
        // one data descriptor; Disconnect
        (out[1803], out[1804]) = (1, 1);
        out
    }

    fn discovery(&self) -> Vec<u8> {
        let mut out = self.any_controller("Vandrexu discovery");
        out[111] = 2;
        let name = vandrexu_wire::DISCOVERY.as_bytes();
        out[768..768 + name.len()].copy_from_slice(name);
        (out[1803], out[1804]) = (1, 0);
        out
    }
}

/// The namespaces above this number: 1 is the only one.
fn namespaces(above: u32) -> Vec<u8> {
    let mut out = vec![0; LENGTH];
    put32(&mut out, 0, u32::from(above < 1));
    out
}

/// What is told of a namespace whatever its command set: several hosts may have it, and it is ready.
fn independent() -> Vec<u8> {
    let mut out = with(1, 1);
    out[14] = 1;
    out
}

fn with(at: usize, byte: u8) -> Vec<u8> {
    let mut out = vec![0; LENGTH];
    out[at] = byte;
    out
}

/// A text, with spaces behind it.
fn put_text(place: &mut [u8], text: &str) {
    place.fill(b' ');
    place[..text.len()].copy_from_slice(text.as_bytes());
}
