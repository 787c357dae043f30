//! What tests of the target share.
#![allow(dead_code, reason = "no test uses all of it")]
use std::path::{Path, PathBuf};
use std::sync::atomic::{AtomicU32, Ordering};
use std::time::{Duration, Instant};
use std::{env, fs, process, thread};
use vandrexu::Error;
use vandrexu_initiator::{Answer, BLOCK, Command, Dial, Host, opcode};
use vandrexu_target::{Config, Options, Target};

/// A folder of its own, which goes with the test.
pub struct Folder(PathBuf);

impl Folder {
    pub fn new() -> Folder {
        static LAST: AtomicU32 = AtomicU32::new(0);
        let number = LAST.fetch_add(1, Ordering::Relaxed);
        let path = env::temp_dir().join(format!("vandrexu-target-{}-{number}", process::id()));
        fs::create_dir_all(&path).expect("a folder");
        Folder(path)
    }

    pub fn file(&self, name: &str) -> PathBuf {
        self.0.join(name)
    }
}

impl Drop for Folder {
    fn drop(&mut self) {
        let _ = fs::remove_dir_all(&self.0);
    }
}

/// Options of a small target at a port that is free.
pub fn options() -> Options {
    let config = Config::of_line("config 4096 7 7 0 0 16 64 64 64").expect("a configuration");
    Options { listen: ([127, 0, 0, 1], 0).into(), config, ..Options::default() }
}

pub fn start(options: Options) -> Target {
    Target::start(options).expect("a target")
}

pub fn dial(target: &Target) -> Dial {
    Dial::to(target.address())
}

/// A host with so many queues.
pub fn host(target: &Target, queues: u16) -> Host {
    Host::connect(&dial(target), queues).expect("a host")
}

/// Blocks of this byte.
pub fn blocks(byte: u8, count: usize) -> Vec<u8> {
    vec![byte; count * BLOCK]
}

/// The type and the code of a status.
pub fn code(answer: &Answer) -> (u8, u8) {
    answer.status().code()
}

pub const DONE: (u8, u8) = (0, 0);

pub fn write(host: &mut Host, slba: u64, data: &[u8]) -> (u8, u8) {
    let command = Command::blocks(opcode::WRITE, slba, data.len() / BLOCK);
    code(&host.queues[0].call(command, data, 0).expect("an answer"))
}

pub fn read(host: &mut Host, slba: u64, count: usize) -> Vec<u8> {
    let command = Command::blocks(opcode::READ, slba, count);
    let answer = host.queues[0].call(command, &[], count * BLOCK).expect("an answer");
    assert_eq!(code(&answer), DONE);
    answer.data
}

/// The history of a target that has ended is legal.
pub fn is_legal(history: &Path) {
    let text = fs::read(history).expect("a history");
    let said = vandrexu::check_text(&text);
    assert!(said.is_ok(), "{said:?}");
}

/// Whether a history was found that explains this trace.
pub fn is_explained(trace: &Path) -> bool {
    let text = fs::read(trace).expect("a trace");
    match vandrexu::observe_text(&text, 50_000_000) {
        Ok(_) => true,
        Err(it) if matches!(it.error, Error::NotExplained | Error::NotFound) => false,
        Err(it) => panic!("{it}: {}", String::from_utf8_lossy(&it.text)),
    }
}

/// Waits until something is so, on a machine that may do much else.
pub fn until(what: &str, mut is_so: impl FnMut() -> bool) {
    let began = Instant::now();
    while !is_so() {
        assert!(began.elapsed() < Duration::from_secs(120), "not so: {what}");
        thread::sleep(Duration::from_millis(20));
    }
}

/// Lets others go on, who hold what is asked for: on one processor a host would ask in vain for all of its time.
pub fn give_way() {
    thread::sleep(Duration::from_millis(1));
}

/// Numbers by chance, from a seed.
pub struct Random(pub u64);

impl Random {
    pub fn next(&mut self) -> u64 {
        self.0 ^= self.0 << 13;
        self.0 ^= self.0 >> 7;
        self.0 ^= self.0 << 17;
        self.0
    }

    pub fn below(&mut self, count: usize) -> usize {
        (self.next() % count as u64) as usize
    }
}
