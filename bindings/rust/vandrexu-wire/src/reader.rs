//! Takes PDUs out of a stream of bytes, and finds what is wrong with their headers.
use crate::pdu::{Fatal, Format, IC_LENGTH, Pdu, kind};
use crate::{crc32c, u32_at};
use std::io::{self, Read};

/// Who reads.
#[derive(Clone, Copy, Debug, PartialEq, Eq)]
pub enum Side {
    /// The target, which is sent commands.
    Target,
    /// The host, which is sent responses.
    Host,
}

/// Why there is no further PDU.
#[derive(Debug)]
pub enum Fault {
    /// The other side closed the connection.
    Closed,
    /// The connection failed.
    Failed(io::Error),
    /// The other side sent this header, which is wrong.
    Broken(Fatal, Vec<u8>),
}

/// Reads PDUs. A read that times out loses nothing.
#[derive(Debug)]
pub struct Reader<R> {
    from: R,
    side: Side,
    /// How PDUs are made, once the connection is initialized.
    pub format: Format,
    /// The most bytes of data in one PDU.
    pub limit: usize,
    /// What came and wasn't taken lies between the two.
    buffer: Vec<u8>,
    start: usize,
    end: usize,
}

/// How many bytes are asked for at once.
const PIECE: usize = 1 << 16;

impl<R: Read> Reader<R> {
    /// A reader at the begin of a connection.
    pub fn new(from: R, side: Side, limit: usize) -> Reader<R> {
        Reader { from, side, format: Format::default(), limit, buffer: vec![0; PIECE], start: 0, end: 0 }
    }

    /// The next PDU; none where a read timed out.
    ///
    /// # Errors
    /// The end of the connection, or a header that is wrong.
    pub fn take(&mut self) -> Result<Option<Pdu>, Fault> {
        loop {
            if let Some(pdu) = self.buffered()? {
                return Ok(Some(pdu));
            }
            if !self.fill()? {
                return Ok(None);
            }
        }
    }

    /// The next PDU, where it is here or one read brings the rest of it; so whoever sends a byte at a time holds nobody up.
    ///
    /// # Errors
    /// As those of [`take`](Reader::take).
    pub fn take_at_once(&mut self) -> Result<Option<Pdu>, Fault> {
        match self.buffered()? {
            None if self.fill()? => self.buffered(),
            here => Ok(here),
        }
    }

    /// Whether a part of a PDU waits for its rest.
    pub fn is_within(&self) -> bool {
        self.start < self.end
    }

    /// Whether a whole PDU is here already.
    pub fn has_more(&self) -> bool {
        let here = &self.buffer[self.start..self.end];
        here.len() >= 8 && here.len() >= u32_at(here, 4) as usize
    }

    /// What it reads from.
    pub fn stream(&self) -> &R {
        &self.from
    }

    fn buffered(&mut self) -> Result<Option<Pdu>, Fault> {
        let here = &self.buffer[self.start..self.end];
        if here.len() < 8 {
            return Ok(None);
        }
        let broken = |why| Fault::Broken(why, here[..here.len().min(usize::from(here[2]).max(8))].to_vec());
        let format = if has_digests(here[0]) { self.format } else { Format::default() };
        self.check(here, &format).map_err(broken)?;
        let length = usize::from(here[2]);
        if here.len() < length + format.header_extra() {
            return Ok(None);
        }
        if format.header_digest && crc32c(&here[..length]) != u32_at(here, length) {
            return Err(broken(Fatal::HEADER_DIGEST));
        }
        let whole = u32_at(here, 4) as usize;
        if here.len() < whole {
            return Ok(None);
        }
        let pdu = Pdu::of(here[..whole].to_vec(), &format).map_err(broken)?;
        self.start += whole;
        Ok(Some(pdu))
    }

    /// What is wrong with a common header.
    fn check(&self, head: &[u8], format: &Format) -> Result<(), Fatal> {
        let (length, most) = match (self.side, head[0]) {
            (Side::Target, kind::IC_REQ) | (Side::Host, kind::IC_RESP) => (IC_LENGTH, 0),
            (Side::Target, kind::H2C_TERM) | (Side::Host, kind::C2H_TERM) => (24, 128),
            (Side::Target, kind::COMMAND) => (72, self.limit),
            (Side::Target, kind::H2C_DATA) | (Side::Host, kind::C2H_DATA) => (24, self.limit),
            (Side::Host, kind::RESPONSE | kind::R2T) => (24, 0),
            _ => return Err(Fatal::field(0)),
        };
        if (head[1] & 1 == 1) != format.header_digest {
            return Err(Fatal::field(1));
        }
        if usize::from(head[2]) != length {
            return Err(Fatal::field(2));
        }
        // (padding before data is at most what one byte of PDO says)
        let end = length + format.header_extra();
        let most = if most == 0 { end } else { most + 256 + format.data_extra() };
        let whole = u32_at(head, 4) as usize;
        if whole < end || whole > most.max(end) { Err(Fatal::field(4)) } else { Ok(()) }
    }

    /// Asks for more bytes; whether some came.
    fn fill(&mut self) -> Result<bool, Fault> {
        self.make_room();
        let came = self.from.read(&mut self.buffer[self.end..]);
        self.end += came.as_ref().map_or(0, |it| *it);
        match came {
            Ok(0) => Err(Fault::Closed),
            Ok(_) => Ok(true),
            Err(error) => match error.kind() {
                io::ErrorKind::WouldBlock | io::ErrorKind::TimedOut => Ok(false),
                io::ErrorKind::Interrupted => Ok(true),
                _ => Err(Fault::Failed(error)),
            },
        }
    }

    /// Makes room for the rest of a PDU whose length is here, or for a piece.
    fn make_room(&mut self) {
        let here = &self.buffer[self.start..self.end];
        let whole = if here.len() >= 8 { u32_at(here, 4) as usize } else { 0 };
        let wanted = (whole.saturating_sub(here.len())).max(PIECE / 2);
        if self.start > 0 && self.buffer.len() - self.end < wanted {
            self.buffer.copy_within(self.start..self.end, 0);
            (self.start, self.end) = (0, self.end - self.start);
        }
        if self.buffer.len() - self.end < wanted {
            self.buffer.resize(self.end + wanted, 0);
        }
    }
}

/// Whether PDUs of this type have the digests that were agreed on.
fn has_digests(kind: u8) -> bool {
    !matches!(kind, kind::IC_REQ | kind::IC_RESP | kind::H2C_TERM | kind::C2H_TERM)
}
