//! PDUs that one side makes are those that the other side reads, however the bytes come.
use std::io::{self, Read};
use vandrexu_wire::{Command, Completion, Fatal, Fault, Format, Reader, Side, Status, kind, opcode};

/// Gives so many bytes at once, with a timeout between two pieces.
struct Pieces {
    bytes: Vec<u8>,
    at: usize,
    size: usize,
    is_late: bool,
}

impl Read for Pieces {
    fn read(&mut self, room: &mut [u8]) -> io::Result<usize> {
        self.is_late = !self.is_late;
        if self.is_late && self.at > 0 && self.at < self.bytes.len() {
            return Err(io::ErrorKind::WouldBlock.into());
        }
        let rest = &self.bytes[self.at..];
        let count = rest.len().min(self.size).min(room.len());
        room[..count].copy_from_slice(&rest[..count]);
        self.at += count;
        Ok(count)
    }
}

fn reader(bytes: Vec<u8>, size: usize, side: Side, format: Format) -> Reader<Pieces> {
    let mut it = Reader::new(Pieces { bytes, at: 0, size, is_late: false }, side, 1 << 17);
    it.format = format;
    it
}

fn formats() -> impl Iterator<Item = Format> {
    let all = [(false, false), (true, false), (false, true), (true, true)];
    let with =
        move |alignment| all.map(|(header_digest, data_digest)| Format { header_digest, data_digest, alignment });
    [4, 16, 128].into_iter().flat_map(with)
}

#[test]
fn what_is_made_is_read_in_pieces_of_any_size() {
    let entry = Command::blocks(opcode::WRITE, 3, 1).0;
    for format in formats() {
        for size in [1, 7, 4096] {
            let mut bytes = format.command(&entry, &[5; 512]);
            bytes.extend(format.command(&entry, &[]));
            bytes.extend(format.data(kind::H2C_DATA, 7, 9, 1024, &[1, 2, 3, 4], true));
            let mut reader = reader(bytes, size, Side::Target, format);
            let mut found = vec![];
            while found.len() < 3 {
                found.extend(reader.take().expect("a PDU"));
            }
            assert_eq!((found[0].entry(), found[0].data()), (entry, &[5; 512][..]));
            assert_eq!((found[1].entry(), found[1].data()), (entry, &[][..]));
            assert_eq!((found[2].data(), found[2].is_last()), (&[1, 2, 3, 4][..], true));
            assert!(found.iter().all(|it| it.is_intact));
            assert!(matches!(reader.take(), Err(Fault::Closed)));
        }
    }
}

#[test]
fn whoever_waits_for_one_read_at_a_time_is_told_between_two() {
    let format = Format::default();
    let bytes = format.command(&Command::blocks(opcode::WRITE, 3, 1).0, &[5; 512]);
    let length = bytes.len();
    let mut reader = reader([bytes.clone(), bytes].concat(), 100, Side::Target, format);
    let (mut early, mut found) = (0, vec![]);
    while found.len() < 2 {
        match reader.take_at_once().expect("a PDU") {
            Some(pdu) => found.push(pdu),
            None => early += 1,
        }
    }
    // each piece is a read, and so is the timeout before it, but of the first two; a PDU came by two of them
    let pieces = (2 * length).div_ceil(100);
    assert_eq!(early, pieces + (pieces - 2) - 2);
    assert!(found.iter().all(|it| it.data() == [5; 512]));
    assert!(matches!(reader.take_at_once(), Err(Fault::Closed)));
}

#[test]
fn responses_are_read_by_the_host() {
    let completion = Completion::new(7, Status::COMPARE_FAILURE.no_retry(), 5).of_queue(3, 9);
    for format in formats() {
        let mut bytes = format.response(&completion.0);
        bytes.extend(format.ready(7, 2, 4096));
        let mut reader = reader(bytes, 4096, Side::Host, format);
        let pdu = reader.take().expect("a PDU").expect("whole");
        let read = Completion(pdu.header()[8..24].try_into().expect("16 bytes"));
        assert_eq!((read, read.status().code(), read.status().is_final()), (completion, (2, 0x85), true));
        assert_eq!((read.sqid(), read.sqhd(), read.cid(), read.result()), (3, 9, 7, 5));
        assert_eq!(reader.take().expect("a PDU").expect("whole").kind(), kind::R2T);
    }
}

#[test]
fn each_byte_of_a_header_with_a_digest_is_looked_at() {
    let format = Format { header_digest: true, data_digest: true, alignment: 4 };
    let right = format.command(&[0x55; 64], &[7; 64]);
    for at in 0..right.len() {
        let mut bytes = right.clone();
        bytes[at] ^= 0x10;
        let came = reader(bytes, 4096, Side::Target, format).take();
        match came {
            Ok(Some(pdu)) => assert!(at >= 76 && !pdu.is_intact, "byte {at}"),
            Err(Fault::Broken(why, _)) => {
                assert!(at < 76, "byte {at}");
                assert!(at < 8 || why == Fatal::HEADER_DIGEST, "byte {at}: {why:?}");
            }
            other => panic!("byte {at}: {other:?}"),
        }
    }
}
