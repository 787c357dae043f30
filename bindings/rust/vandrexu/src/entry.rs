//! Submission queue entries.

/// A submission queue entry, and the data that travels beside it.
///
/// Its namespace is 1 and its other fields are zero, unless [`Entry::raw`] says otherwise. It is of one block, unless
/// [`Entry::blocks`] says otherwise.
///
/// ```
/// use vandrexu::Entry;
///
/// let data = [0xA1; 1024];
/// let entry = Entry::write(7, 3, &data).blocks(2);
/// assert_eq!((entry.bytes[0], entry.bytes[2], entry.bytes[4], entry.bytes[40], entry.bytes[48]), (1, 7, 1, 3, 1));
/// assert_eq!(entry.data.len(), 1024);
/// ```
#[derive(Clone, Copy, Debug, PartialEq, Eq)]
#[must_use]
pub struct Entry<'a> {
    /// The entry.
    pub bytes: [u8; 64],
    /// What a Write writes, or a Compare compares.
    pub data: &'a [u8],
}

impl<'a> Entry<'a> {
    /// Any entry at all.
    pub fn raw(bytes: [u8; 64], data: &'a [u8]) -> Entry<'a> {
        Entry { bytes, data }
    }

    /// A Flush, which has no blocks.
    pub fn flush(cid: u16) -> Entry<'a> {
        named(0x00, cid, 0, &[])
    }

    /// A Write from this block on.
    pub fn write(cid: u16, slba: u64, data: &'a [u8]) -> Entry<'a> {
        named(0x01, cid, slba, data)
    }

    /// A Read from this block on.
    pub fn read(cid: u16, slba: u64) -> Entry<'a> {
        named(0x02, cid, slba, &[])
    }

    /// A Compare from this block on.
    pub fn compare(cid: u16, slba: u64, data: &'a [u8]) -> Entry<'a> {
        named(0x05, cid, slba, data)
    }

    /// A Write Zeroes from this block on.
    pub fn write_zeroes(cid: u16, slba: u64) -> Entry<'a> {
        named(0x08, cid, slba, &[])
    }

    /// The same of so many blocks, counted from 1; 0 counts as 65,536.
    pub fn blocks(mut self, count: u16) -> Entry<'a> {
        self.bytes[48..50].copy_from_slice(&count.wrapping_sub(1).to_le_bytes());
        self
    }

    /// The same as the first of a fused pair.
    pub fn first(self) -> Entry<'a> {
        self.fused(1)
    }

    /// The same as the second of a fused pair.
    pub fn second(self) -> Entry<'a> {
        self.fused(2)
    }

    fn fused(mut self, fuse: u8) -> Entry<'a> {
        self.bytes[1] = self.bytes[1] & !3 | fuse;
        self
    }
}

fn named(opcode: u8, cid: u16, slba: u64, data: &[u8]) -> Entry<'_> {
    let mut bytes = [0; 64];
    bytes[0] = opcode;
    bytes[2..4].copy_from_slice(&cid.to_le_bytes());
    bytes[4] = 1;
    bytes[40..48].copy_from_slice(&slba.to_le_bytes());
    Entry { bytes, data }
}
