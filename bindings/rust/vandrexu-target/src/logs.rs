//! Log pages.
use std::net::SocketAddr;
use vandrexu_wire::{Command, Status, opcode, put16, put64, u64_at};

/// The pages have effects of commands, and may be read from an offset on.
pub(crate) const PAGES_TOLD: u8 = 1 << 1 | 1 << 2;

const SUPPORTED: u8 = 0x00;
const ERRORS: u8 = 0x01;
const HEALTH: u8 = 0x02;
const FIRMWARE: u8 = 0x03;
const CHANGED: u8 = 0x04;
const EFFECTS: u8 = 0x05;
const DISCOVERY: u8 = 0x70;

/// The most bytes of one command.
const MOST: usize = 1 << 17;

/// What a page is asked of.
pub(crate) struct Asked<'a> {
    /// The name of the subsystem.
    pub subsystem: &'a str,
    /// Where the host reached the target.
    pub address: SocketAddr,
    /// Whether the controller is of the discovery subsystem.
    pub is_discovery: bool,
}

impl Asked<'_> {
    /// The bytes that the command asks for; behind a page's end come zeros.
    pub(crate) fn answer(&self, command: &Command) -> Result<Vec<u8>, Status> {
        let page = match (command.0[40], self.is_discovery) {
            (DISCOVERY, true) => self.discovery(),
            (SUPPORTED, true) => supported(&[SUPPORTED, DISCOVERY]),
            (SUPPORTED, false) => supported(&[SUPPORTED, ERRORS, HEALTH, FIRMWARE, CHANGED, EFFECTS]),
            (HEALTH, false) => health(),
            (FIRMWARE, false) => firmware(),
            (EFFECTS, false) => effects(),
            (ERRORS | CHANGED, false) => vec![0; 4096],
            _ => return Err(Status::INVALID_LOG),
        };
        let dwords = (command.dword(11) as usize & 0xFFFF) << 16 | command.dword(10) as usize >> 16;
        let (length, from) = ((dwords + 1) * 4, u64_at(&command.0, 48));
        if length > MOST || from % 4 != 0 || from > page.len() as u64 {
            return Err(Status::INVALID_FIELD);
        }
        let mut out: Vec<u8> = page[from as usize..].iter().take(length).copied().collect();
        out.resize(length, 0);
        Ok(out)
    }

    /// The one subsystem, where the host reached it.
    fn discovery(&self) -> Vec<u8> {
        let mut out = vec![0; 2048];
        put64(&mut out, 0, 1);
        put64(&mut out, 8, 1);
        let record = &mut out[1024..];
        // TCP, IPv4 or IPv6, an NVM subsystem, any controller
        (record[0], record[1], record[2]) = (3, if self.address.is_ipv4() { 1 } else { 2 }, 2);
        put16(record, 4, 1);
        put16(record, 6, 0xFFFF);
        put16(record, 8, 32);
        record[32..64].fill(b' ');
        put_text(&mut record[32..], &self.address.port().to_string());
        put_text(&mut record[256..], self.subsystem);
        record[512..768].fill(b' ');
        put_text(&mut record[512..], &self.address.ip().to_string());
        out
    }
}

fn put_text(place: &mut [u8], text: &str) {
    place[..text.len()].copy_from_slice(text.as_bytes());
}

fn supported(pages: &[u8]) -> Vec<u8> {
    let mut out = vec![0; 1024];
    for page in pages {
        out[usize::from(*page) * 4] = 1;
    }
    out
}

/// 300 kelvin, and all spare blocks are there.
fn health() -> Vec<u8> {
    let mut out = vec![0; 512];
    put16(&mut out, 1, 300);
    (out[3], out[4]) = (100, 10);
    out
}

/// One slot, with the version that runs.
fn firmware() -> Vec<u8> {
    let mut out = vec![0; 512];
    out[0] = 1;
    out[8..16].fill(b' ');
    put_text(&mut out[8..], env!("CARGO_PKG_VERSION"));
    out
}

/// Which commands are served; bit 1 says that one changes contents.
fn effects() -> Vec<u8> {
    use opcode::{ABORT, ASYNC_EVENT, GET_FEATURES, GET_LOG_PAGE, IDENTIFY, KEEP_ALIVE, SET_FEATURES};
    let mut out = vec![0; 4096];
    for admin in [GET_LOG_PAGE, IDENTIFY, ABORT, SET_FEATURES, GET_FEATURES, ASYNC_EVENT, KEEP_ALIVE] {
        out[usize::from(admin) * 4] = 1;
    }
    for io in [opcode::FLUSH, opcode::READ, opcode::COMPARE] {
        out[1024 + usize::from(io) * 4] = 1;
    }
    for io in [opcode::WRITE, opcode::WRITE_ZEROES] {
        out[1024 + usize::from(io) * 4] = 3;
    }
    out
}
