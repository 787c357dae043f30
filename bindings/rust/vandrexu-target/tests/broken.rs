//! PDUs that are broken, by a seed: nothing panics, and other hosts are undisturbed. VANDREXU_PDUS says how many there are,
//! and VANDREXU_SEED gives another seed.
mod common;
use common::{DONE, Random, blocks, code, dial, options, read, start, until, write};
use std::io::{ErrorKind, Read, Write};
use std::net::TcpStream;
use std::sync::atomic::{AtomicBool, Ordering};
use std::time::{Duration, Instant};
use vandrexu_initiator::{Command, Dial, Error, Format, Host, Queue, fabrics, kind, opcode};
use vandrexu_target::{Options, Target};

/// How many PDUs are sent, in all.
fn due(name: &str, otherwise: u64) -> u64 {
    std::env::var(name).ok().and_then(|it| it.parse().ok()).unwrap_or(otherwise)
}

/// A connection by hand.
struct Raw(TcpStream);

impl Raw {
    fn open(target: &Target) -> Raw {
        let stream = TcpStream::connect(target.address()).expect("a connection");
        stream.set_read_timeout(Some(Duration::from_secs(120))).expect("a timeout");
        stream.set_nodelay(true).expect("no delay");
        Raw(stream)
    }

    /// Sends bytes; a target that has ended the connection takes no more.
    fn send(&mut self, bytes: &[u8]) -> bool {
        self.0.write_all(bytes).is_ok()
    }

    /// All that comes until the target closes: the last PDU.
    fn end(mut self) -> Vec<u8> {
        let mut bytes = vec![];
        match self.0.read_to_end(&mut bytes) {
            Ok(_) => {}
            Err(it) if it.kind() == ErrorKind::ConnectionReset => {}
            Err(it) => panic!("the target doesn't close: {it}"),
        }
        let mut last = &bytes[..];
        while last.len() > 8 {
            let length = u32::from_le_bytes([last[4], last[5], last[6], last[7]]) as usize;
            if last.len() <= length {
                break;
            }
            last = &last[length..];
        }
        last.to_vec()
    }
}

fn initialize(format: Format) -> Vec<u8> {
    format.initialize(kind::IC_REQ, 0)
}

#[test]
fn a_wrong_header_ends_its_connection_with_the_error_that_says_so() {
    let target = start(options());
    let plain = Format::default();
    let hello = initialize(plain);
    let command = plain.command(&Command::fabrics(fabrics::PROPERTY_GET).0, &[]);
    let with = |bytes: &[u8], at: usize, byte: u8| {
        let mut out = bytes.to_vec();
        out[at] = byte;
        out
    };
    let data = plain.data(kind::H2C_DATA, 1, 99, 0, &[0; 8], true);
    let cases: &[(&str, Vec<Vec<u8>>, u8, u8)] = &[
        ("a command before ICReq", vec![command.clone()], 2, 0),
        ("ICReq twice", vec![hello.clone(), hello.clone()], 2, 0),
        ("another version", vec![with(&hello, 8, 1)], 6, 0),
        ("an unknown type", vec![hello.clone(), with(&command, 0, 0x33)], 1, 0),
        ("a type of the target", vec![hello.clone(), with(&command, 0, kind::RESPONSE)], 1, 0),
        ("a digest that wasn't agreed on", vec![hello.clone(), with(&command, 1, 1)], 1, 1),
        ("HLEN", vec![hello.clone(), with(&command, 2, 71)], 1, 2),
        ("PLEN below HLEN", vec![hello.clone(), with(&command, 4, 71)], 1, 4),
        ("PLEN above all limits", vec![hello.clone(), with(&command, 6, 0xFF)], 1, 4),
        ("data that nobody asked for", vec![hello.clone(), data], 1, 10),
    ];
    for (what, pdus, status, offset) in cases {
        let mut raw = Raw::open(&target);
        pdus.iter().for_each(|it| assert!(raw.send(it), "{what}"));
        let last = raw.end();
        assert_eq!((last[0], last[8], last[10]), (kind::C2H_TERM, *status, *offset), "{what}");
    }
}

#[test]
fn a_wrong_digest_of_a_header_ends_the_connection_and_one_of_data_the_command() {
    let target = start(options());
    let both = Dial { header_digest: true, data_digest: true, ..dial(&target) };
    let mut host = Host::connect(&both, 1).unwrap();
    let format = Format { header_digest: true, data_digest: true, alignment: 4 };
    let mut entry = Command::blocks(opcode::WRITE, 3, 1);
    (entry.0[1], entry.0[33], entry.0[39]) = (0x40, 2, 0x01);
    let mut capsule = format.command(&entry.0, &blocks(1, 1));
    let end = capsule.len() - 1;
    capsule[end] ^= 1;
    let queue = &mut host.queues[0];
    queue.send_bytes(&capsule).unwrap();
    // (the initiator doesn't know the command, so it says so)
    assert!(matches!(queue.receive(), Err(Error::Target("a completion of no command"))));
    assert_eq!(code(&queue.call(Command::blocks(opcode::FLUSH, 0, 0), &[], 0).unwrap()), DONE);
    assert_eq!(read(&mut host, 3, 1), blocks(0, 1), "it wasn't written");
    capsule[end] ^= 1;
    capsule[50] ^= 1;
    host.queues[0].send_bytes(&capsule).unwrap();
    assert!(matches!(host.queues[0].receive(), Err(Error::Ended(3, _))));
}

/// A Write of two blocks, whose data is to be asked for.
fn asking() -> Command {
    let mut it = Command::blocks(opcode::WRITE, 3, 2).with(8, 1024);
    (it.0[1], it.0[39]) = (0x40, 0x5A);
    it
}

#[test]
fn data_that_isnt_what_was_asked_for_ends_the_connection() {
    let target = start(options());
    // (what is wrong, the PDU by CID and tag, the status and the offset that are told)
    type Case = (&'static str, fn(u16, u16, Format) -> Vec<u8>, u16, u32);
    let cases: &[Case] = &[
        ("another command", |cid, tag, it| it.data(kind::H2C_DATA, cid + 1, tag, 0, &[1; 1024], true), 1, 8),
        ("another tag", |cid, tag, it| it.data(kind::H2C_DATA, cid, tag + 1, 0, &[1; 1024], true), 1, 10),
        ("an offset", |cid, tag, it| it.data(kind::H2C_DATA, cid, tag, 512, &[1; 512], true), 4, 0),
        ("too much", |cid, tag, it| it.data(kind::H2C_DATA, cid, tag, 0, &[1; 1536], true), 4, 0),
        ("the last too early", |cid, tag, it| it.data(kind::H2C_DATA, cid, tag, 0, &[1; 512], true), 4, 0),
        ("no data at all", |cid, tag, it| it.data(kind::H2C_DATA, cid, tag, 0, &[], false), 4, 0),
    ];
    for (what, pdu, status, offset) in cases {
        let mut host = Host::connect(&dial(&target), 1).unwrap();
        let queue = &mut host.queues[0];
        let cid = queue.send_as_it_is(asking(), &[], &[]).unwrap();
        let tag = queue.receive_tag().unwrap();
        queue.send_bytes(&pdu(cid, tag, queue.format())).unwrap();
        let ended = queue.receive();
        assert!(matches!(ended, Err(Error::Ended(a, b)) if (a, b) == (*status, *offset)), "{what}: {ended:?}");
    }
}

#[test]
fn a_wrong_digest_of_data_that_was_asked_for_fails_the_command() {
    let target = start(options());
    let mut host = Host::connect(&Dial { data_digest: true, ..dial(&target) }, 1).unwrap();
    let queue = &mut host.queues[0];
    for is_wrong in [true, false] {
        let cid = queue.send_as_it_is(asking(), &[], &[]).unwrap();
        let tag = queue.receive_tag().unwrap();
        let first = queue.format().data(kind::H2C_DATA, cid, tag, 0, &[1; 512], false);
        let mut second = queue.format().data(kind::H2C_DATA, cid, tag, 512, &[1; 512], true);
        second[100] ^= u8::from(is_wrong);
        queue.send_bytes(&[first, second].concat()).unwrap();
        let answer = queue.receive().unwrap();
        assert_eq!(code(&answer), if is_wrong { (0, 0x22) } else { DONE });
        assert!(!answer.status().is_final());
    }
}

/// A PDU by chance, some of it as a host would send it.
fn random_pdu(random: &mut Random, format: &Format) -> Vec<u8> {
    let opcodes = [0x7F, 0x7F, 0, 1, 2, 5, 6, 8, 9, 10, 12, 0x18];
    let mut entry = Command::new(opcodes[random.below(opcodes.len())]);
    for at in [1, 2, 4, 32, 33, 39, 40, 41, 42, 44, 48, 49] {
        entry.0[at] = [0, 1, 2, 0x40, 0x5A, random.next() as u8][random.below(6)];
    }
    let data = vec![random.next() as u8; [0, 8, 512, 1024, 8192][random.below(5)]];
    let cid = random.next() as u16 % 4;
    let mut pdu = match random.below(8) {
        0 => initialize(*format),
        1 => format.data(kind::H2C_DATA, cid, 1, random.next() as u32 % 1024, &data, random.below(2) == 0),
        2 => format.response(&[0; 16]),
        _ => format.command(&entry.0, &data),
    };
    // most are broken in a few bytes, of the header more often
    for _ in 0..random.below(4) {
        let end = if random.below(2) == 0 { pdu.len().min(24) } else { pdu.len() };
        let at = random.below(end);
        pdu[at] ^= 1 << random.below(8);
    }
    if random.below(16) == 0 {
        let end = random.below(pdu.len());
        pdu.truncate(end);
    }
    pdu
}

/// A queue of a host that sends what is broken.
fn hostile(dial: &Dial, random: &mut Random) -> Option<Queue> {
    let mut queue = Queue::open(dial).ok()?;
    match random.below(4) {
        0 => {}
        1 => {
            queue.connect(dial, 0, 0xFFFF).ok()?;
        }
        _ => {
            let mut host = Host::connect(dial, 1).ok()?;
            queue = host.queues.pop()?;
            // (its admin queue goes, and the target ends this one too, or a little later)
        }
    }
    Some(queue)
}

/// How many threads this process has.
fn threads() -> usize {
    std::fs::read_dir("/proc/self/task").expect("threads").count()
}

/// The resident memory of this process, in KiB.
fn resident() -> u64 {
    let now = std::fs::read_to_string("/proc/self/statm").expect("its memory");
    now.split(' ').nth(1).expect("a number").parse::<u64>().expect("pages") * 4
}

/// Sends so many PDUs by chance; how many were sent.
fn attack(dial: &Dial, seed: u64, count: u64) -> u64 {
    let mut random = Random(seed | 1);
    let mut sent = 0;
    while sent < count {
        let format = Format { header_digest: random.below(4) == 0, data_digest: random.below(4) == 0, alignment: 4 };
        let mine = Dial { header_digest: format.header_digest, data_digest: format.data_digest, ..dial.clone() };
        let Some(mut queue) = hostile(&mine, &mut random) else { continue };
        for _ in 0..1 + random.below(40) {
            let mut pieces = vec![];
            for _ in 0..4 {
                pieces.extend(random_pdu(&mut random, &format));
                sent += 1;
            }
            if queue.send_bytes(&pieces).is_err() {
                break;
            }
        }
    }
    sent
}

/// A host that writes and reads until the others are done; how often it did.
fn live_in_peace(dial: &Dial, is_over: &AtomicBool) -> u64 {
    let mut host = Host::connect(&dial.clone().named("nqn.peaceful"), 2).expect("a host");
    let mut rounds = 0u64;
    while !is_over.load(Ordering::Relaxed) || rounds < 100 {
        // (what the others write may lie anywhere; a status of success is what is promised)
        assert_eq!(write(&mut host, 4000, &blocks(rounds as u8, 8)), DONE);
        assert_eq!(read(&mut host, 4000, 8).len(), 8 * 512);
        rounds += 1;
    }
    rounds
}

#[test]
fn broken_pdus_disturb_nobody_else() {
    let pdus = due("VANDREXU_PDUS", 100_000);
    let seed = due("VANDREXU_SEED", 20_261_130);
    let target = start(Options { connections: 1000, ..options() });
    let dial = dial(&target);
    let (is_over, threads, began) = (AtomicBool::new(false), threads(), Instant::now());
    let before = resident();
    std::thread::scope(|scope| {
        let (dial, is_over) = (&dial, &is_over);
        let peaceful = scope.spawn(move || live_in_peace(dial, is_over));
        let attackers = [0, 2, 4, 6].map(|at| scope.spawn(move || attack(dial, seed + at, pdus / 4)));
        let sent: u64 = attackers.into_iter().map(|it| it.join().expect("an attacker")).sum();
        is_over.store(true, Ordering::Relaxed);
        let rounds = peaceful.join().expect("the peaceful host");
        assert!(sent >= pdus / 4 * 4);
        eprintln!("{sent} PDUs in {:?}, seed {seed}; beside them {rounds} rounds", began.elapsed());
    });
    // all that is left is the target, and it serves
    until("all connections end", || target.connections() == 0);
    // (other tests have threads, too)
    until("all threads end", || self::threads() <= threads + 8);
    // (of a million, 32 bytes of each)
    let after = resident();
    assert!(after < before + (32 << 10), "{before} KiB before, {after} after");
    let mut host = Host::connect(&dial, 16).expect("a host");
    assert_eq!(host.queues.len(), 16);
    assert_eq!(write(&mut host, 0, &blocks(5, 1)), DONE);
    assert_eq!(read(&mut host, 0, 1), blocks(5, 1));
}
