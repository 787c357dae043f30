//! PDUs.
use crate::{crc32c, put32, u32_at};
use std::ops::Range;

/// Types of PDUs.
pub mod kind {
    /// Initialize Connection Request.
    pub const IC_REQ: u8 = 0x00;
    /// Initialize Connection Response.
    pub const IC_RESP: u8 = 0x01;
    /// The host ends the connection.
    pub const H2C_TERM: u8 = 0x02;
    /// The target ends the connection.
    pub const C2H_TERM: u8 = 0x03;
    /// A command capsule.
    pub const COMMAND: u8 = 0x04;
    /// A response capsule.
    pub const RESPONSE: u8 = 0x05;
    /// Data to the target.
    pub const H2C_DATA: u8 = 0x06;
    /// Data to the host.
    pub const C2H_DATA: u8 = 0x07;
    /// Ready to Transfer.
    pub const R2T: u8 = 0x09;
}

/// The length of ICReq and ICResp.
pub const IC_LENGTH: usize = 128;

/// Flag: a header digest is there.
const HEADER_DIGEST: u8 = 1;
/// Flag: a data digest is there.
const DATA_DIGEST: u8 = 2;
/// Flag: the last PDU of the data.
const LAST: u8 = 4;

/// Why a connection is ended: the Fatal Error Status, and the offset of the field that it is about.
#[derive(Clone, Copy, Debug, PartialEq, Eq)]
pub struct Fatal {
    /// The status.
    pub status: u16,
    /// The offset, where the status is `INVALID_HEADER`.
    pub offset: u32,
}

impl Fatal {
    /// Invalid PDU Header Field.
    pub const INVALID_HEADER: u16 = 1;
    /// PDU Sequence Error.
    pub const SEQUENCE: Fatal = Fatal { status: 2, offset: 0 };
    /// Header Digest Error.
    pub const HEADER_DIGEST: Fatal = Fatal { status: 3, offset: 0 };
    /// Data Transfer Out of Range.
    pub const OUT_OF_RANGE: Fatal = Fatal { status: 4, offset: 0 };
    /// Data Transfer Limit Exceeded.
    pub const LIMIT: Fatal = Fatal { status: 5, offset: 0 };
    /// Unsupported Parameter.
    pub const UNSUPPORTED: Fatal = Fatal { status: 6, offset: 0 };

    /// Invalid PDU Header Field, of the field at this offset.
    #[must_use]
    pub fn field(offset: u32) -> Fatal {
        Fatal { status: Fatal::INVALID_HEADER, offset }
    }
}

/// How PDUs are made: which digests they have, and to how many bytes data is aligned.
#[derive(Clone, Copy, Debug, PartialEq, Eq)]
pub struct Format {
    /// Whether headers have digests.
    pub header_digest: bool,
    /// Whether data has digests.
    pub data_digest: bool,
    /// The alignment of data, a multiple of 4.
    pub alignment: usize,
}

impl Default for Format {
    fn default() -> Format {
        Format { header_digest: false, data_digest: false, alignment: 4 }
    }
}

impl Format {
    /// How many bytes a header digest has here.
    #[must_use]
    pub fn header_extra(&self) -> usize {
        if self.header_digest { 4 } else { 0 }
    }

    /// How many bytes a data digest has here.
    #[must_use]
    pub fn data_extra(&self) -> usize {
        if self.data_digest { 4 } else { 0 }
    }

    /// A PDU with what stands behind its common header, and its data.
    fn build(&self, kind: u8, flags: u8, header: &[u8], data: &[u8]) -> Vec<u8> {
        let length = 8 + header.len();
        let end = length + self.header_extra();
        let at = end.next_multiple_of(self.alignment);
        let (mut flags, mut whole, mut offset) = (flags, end, 0);
        if self.header_digest {
            flags |= HEADER_DIGEST;
        }
        if !data.is_empty() {
            (whole, offset) = (at + data.len() + self.data_extra(), at);
            flags |= if self.data_digest { DATA_DIGEST } else { 0 };
        }
        let mut out = Vec::with_capacity(whole);
        out.extend_from_slice(&[kind, flags, length as u8, offset as u8]);
        out.extend_from_slice(&(whole as u32).to_le_bytes());
        out.extend_from_slice(header);
        if self.header_digest {
            out.extend_from_slice(&crc32c(&out).to_le_bytes());
        }
        if !data.is_empty() {
            out.resize(at, 0);
            out.extend_from_slice(data);
        }
        if !data.is_empty() && self.data_digest {
            out.extend_from_slice(&crc32c(data).to_le_bytes());
        }
        out
    }

    /// A command capsule.
    #[must_use]
    pub fn command(&self, entry: &[u8; 64], data: &[u8]) -> Vec<u8> {
        self.build(kind::COMMAND, 0, entry, data)
    }

    /// A response capsule.
    #[must_use]
    pub fn response(&self, entry: &[u8; 16]) -> Vec<u8> {
        self.build(kind::RESPONSE, 0, entry, &[])
    }

    /// Ready to Transfer: asks for this command's data, from its begin on.
    #[must_use]
    pub fn ready(&self, cid: u16, tag: u16, length: u32) -> Vec<u8> {
        self.build(kind::R2T, 0, &transfer(cid, tag, 0, length), &[])
    }

    /// Data of a command, from this offset on.
    #[must_use]
    pub fn data(&self, kind: u8, cid: u16, tag: u16, offset: u32, data: &[u8], is_last: bool) -> Vec<u8> {
        let header = transfer(cid, tag, offset, data.len() as u32);
        self.build(kind, if is_last { LAST } else { 0 }, &header, data)
    }

    /// ICReq or ICResp: alignment in dwords less one, and the number at byte 12.
    #[must_use]
    pub fn initialize(&self, kind: u8, number: u32) -> Vec<u8> {
        let mut header = [0; IC_LENGTH - 8];
        header[2] = (self.alignment / 4 - 1) as u8;
        header[3] = u8::from(self.header_digest) | u8::from(self.data_digest) << 1;
        put32(&mut header, 4, number);
        Format::default().build(kind, 0, &header, &[])
    }

    /// The end of a connection, with the header of the PDU that was wrong.
    #[must_use]
    pub fn end(kind: u8, why: Fatal, header: &[u8]) -> Vec<u8> {
        let mut fixed = [0; 16];
        fixed[..2].copy_from_slice(&why.status.to_le_bytes());
        put32(&mut fixed, 2, why.offset);
        let shown = &header[..header.len().min(128)];
        let mut out = Format::default().build(kind, 0, &fixed, &[]);
        out.extend_from_slice(shown);
        let length = out.len() as u32;
        put32(&mut out, 4, length);
        out
    }
}

/// What stands behind the common header of R2T and of data.
fn transfer(cid: u16, tag: u16, offset: u32, length: u32) -> [u8; 16] {
    let mut out = [0; 16];
    out[..2].copy_from_slice(&cid.to_le_bytes());
    out[2..4].copy_from_slice(&tag.to_le_bytes());
    put32(&mut out, 4, offset);
    put32(&mut out, 8, length);
    out
}

/// A PDU that came.
#[derive(Clone, Debug, PartialEq, Eq)]
pub struct Pdu {
    pub(crate) bytes: Vec<u8>,
    pub(crate) data: Range<usize>,
    /// Whether its data digest is right; true where there is none.
    pub is_intact: bool,
}

impl Pdu {
    /// Its type.
    #[must_use]
    pub fn kind(&self) -> u8 {
        self.bytes[0]
    }

    /// Its header, without a digest.
    #[must_use]
    pub fn header(&self) -> &[u8] {
        &self.bytes[..usize::from(self.bytes[2])]
    }

    /// Its data.
    #[must_use]
    pub fn data(&self) -> &[u8] {
        &self.bytes[self.data.clone()]
    }

    /// Whether it is the last of its command's data.
    #[must_use]
    pub fn is_last(&self) -> bool {
        self.bytes[1] & LAST != 0
    }

    /// A command's entry.
    ///
    /// # Panics
    /// Where it isn't a command capsule.
    #[must_use]
    pub fn entry(&self) -> [u8; 64] {
        self.bytes[8..72].try_into().expect("64 bytes")
    }

    /// A PDU of these bytes, whose header was looked at, or why it is none.
    pub(crate) fn of(bytes: Vec<u8>, format: &Format) -> Result<Pdu, Fatal> {
        let length = usize::from(bytes[2]);
        let (end, at) = (length + format.header_extra(), usize::from(bytes[3]));
        if bytes[0] == kind::H2C_TERM || bytes[0] == kind::C2H_TERM || bytes.len() <= end {
            return Ok(Pdu { data: bytes.len()..bytes.len(), bytes, is_intact: true });
        }
        if at < end || at % 4 != 0 || at + format.data_extra() > bytes.len() {
            return Err(Fatal::field(3));
        }
        let data = at..bytes.len() - format.data_extra();
        let is_intact = !format.data_digest || crc32c(&bytes[data.clone()]) == u32_at(&bytes, data.end);
        Ok(Pdu { bytes, data, is_intact })
    }
}
