//! A target with an image is killed at any moment, and started again: each unit is whole or not there, and each that was told
//! as done is there. VANDREXU_KILLS says how often it is killed.
mod common;
use common::{Folder, Random, blocks};
use std::io::{BufRead, BufReader};
use std::net::SocketAddr;
use std::path::Path;
use std::process::{Child, Command as Process, Stdio};
use std::sync::mpsc::{Sender, channel};
use std::thread;
use std::time::Duration;
use vandrexu_initiator::{BLOCK, Command, Dial, Host, Queue, opcode, u64_at};

/// How many blocks a unit has, and how many units there are.
const UNIT: usize = 128;
const UNITS: u64 = 7;

struct Running(Child, SocketAddr);

impl Running {
    fn start(image: &Path) -> Running {
        Running::of(Process::new(env!("CARGO_BIN_EXE_vandrexu-target")), image)
    }

    /// One that the system kills where it writes behind 350 or 700 KiB of a file, as the shell has it.
    fn limited(image: &Path) -> Running {
        let mut shell = Process::new("sh");
        shell.args(["-c", "ulimit -f 700; exec \"$0\" \"$@\"", env!("CARGO_BIN_EXE_vandrexu-target")]);
        Running::of(shell, image)
    }

    fn of(mut program: Process, image: &Path) -> Running {
        let mut child = program
            .args([
                "--listen",
                "127.0.0.1:0",
                "--config",
                "config 1024 127 127 0 0 4 64 64 64",
                "--seed",
                "3",
                "--image",
            ])
            .arg(image)
            .stderr(Stdio::piped())
            .spawn()
            .expect("the program");
        let mut line = String::new();
        BufReader::new(child.stderr.take().expect("its words")).read_line(&mut line).expect("a line");
        assert!(line.contains("nothing authenticates hosts but their names"), "{line}");
        let address = line.split([' ', ',']).find_map(|it| it.parse().ok());
        Running(child, address.unwrap_or_else(|| panic!("no address: {line}")))
    }

    fn kill(self) {}
}

impl Drop for Running {
    /// Kills it; also where a test fails.
    fn drop(&mut self) {
        self.0.kill().expect("killed");
        self.0.wait().expect("ended");
    }
}

/// The first block of a unit: units begin within a page, so no page is written as one.
fn first_of(unit: usize) -> u64 {
    (unit * UNIT + 3) as u64
}

/// A unit of blocks that all hold its number.
fn unit(number: u64) -> Vec<u8> {
    let mut out = blocks(0, UNIT);
    for block in out.chunks_mut(BLOCK) {
        block[..8].copy_from_slice(&number.to_le_bytes());
    }
    out
}

/// What a host knows of each unit: the last number that was told as done, and those that may be.
#[derive(Clone, Debug, Default)]
struct Known {
    done: u64,
    open: Vec<u64>,
}

/// Writes units until the target is gone, by plain Writes and by pairs. Where some were done it may be killed, so that each life
/// does something on a slow machine, too.
fn write_on(mut queue: Queue, known: &mut [Known], next: &mut u64, random: &mut Random, go: &Sender<()>) {
    let due = random.below(6);
    for done in 0.. {
        if done == due {
            go.send(()).expect("a killer");
        }
        let at = random.below(UNITS as usize);
        let it = &mut known[at];
        *next += 1;
        it.open.push(*next);
        let slba = first_of(at);
        let answer = if random.below(2) == 0 {
            let done = queue.call(Command::blocks(opcode::WRITE, slba, UNIT), &unit(*next), 0);
            done.map(|it| it.is_success())
        } else {
            queue.compare_and_write(slba, &unit(it.done), &unit(*next))
        };
        match answer {
            Ok(true) => *it = Known { done: *next, open: vec![] },
            Ok(false) => panic!("a pair over what the host itself wrote last failed"),
            Err(_) => return,
        }
    }
}

/// What is there now: each unit whole, and none older than what was told as done.
fn look(queue: &mut Queue, known: &mut [Known]) {
    for (at, it) in known.iter_mut().enumerate() {
        let command = Command::blocks(opcode::READ, first_of(at), UNIT);
        let found = queue.call(command, &[], UNIT * BLOCK).expect("an answer").data;
        let number = u64_at(&found, 0);
        assert!(found == unit(number), "unit {at} is torn");
        assert!(number == it.done || it.open.contains(&number), "unit {at} has {number}, and {} was done", it.done);
        *it = Known { done: number, open: vec![] };
    }
}

#[test]
fn an_image_survives_kills_at_any_moment() {
    let kills: u32 = std::env::var("VANDREXU_KILLS").ok().and_then(|it| it.parse().ok()).unwrap_or(20);
    let folder = Folder::new();
    let image = folder.file("image");
    let (mut known, mut next, mut random) = (vec![Known::default(); UNITS as usize], 0, Random(99));
    for round in 0..=kills {
        let running = Running::start(&image);
        let mut host = Host::connect(&Dial::to(running.1), 1).expect("a host");
        look(&mut host.queues[0], &mut known);
        if round == kills {
            running.kill();
            break;
        }
        let wait = Duration::from_micros(random.next() % 120_000);
        let (go, going) = channel();
        let killer = thread::spawn(move || {
            going.recv().expect("a word");
            thread::sleep(wait);
            running.kill();
        });
        write_on(host.queues.remove(0), &mut known, &mut next, &mut random, &go);
        killer.join().expect("a kill");
    }
    eprintln!("{kills} kills, {next} units were begun");
    assert!(next > u64::from(kills));
}

#[test]
fn a_target_that_dies_within_its_journal_has_told_nothing_too_early() {
    let folder = Folder::new();
    let image = folder.file("image");
    // (the file has its length already)
    Running::start(&image).kill();
    let running = Running::limited(&image);
    let mut host = Host::connect(&Dial::to(running.1), 1).expect("a host");
    let mut known = Known::default();
    for number in 1..100 {
        known.open.push(number);
        let sent = host.queues[0].call(Command::blocks(opcode::WRITE, first_of(0), UNIT), &unit(number), 0);
        match sent {
            Ok(answer) => assert!(answer.is_success()),
            Err(_) => break,
        }
        known = Known { done: number, open: vec![] };
    }
    // (it died on its own, in the middle of a record)
    running.kill();
    assert!(known.done > 0 && !known.open.is_empty(), "{} units were done", known.done);
    let journal = std::fs::metadata(folder.file("image.journal")).expect("a journal").len();
    assert_ne!(journal % (20 + (UNIT * BLOCK) as u64), 0, "the last record is whole");
    let running = Running::start(&image);
    let mut host = Host::connect(&Dial::to(running.1), 1).expect("a host");
    let due = known.done;
    look(&mut host.queues[0], std::slice::from_mut(&mut known));
    assert_eq!(known.done, due, "what wasn't told isn't there");
    running.kill();
}
