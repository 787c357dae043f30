//! The program vandrexu-lock: what flock(1) is for one machine, for machines that share a disk over NVMe/TCP. A lock is a
//! slot (docs/SLOTS.md): one block of the disk, claimed and released by fused Compare and Write alone. The slot host is the
//! library's, which is proved; nothing else here is.
mod serial;
mod signals;
mod words;

use serial::serial;
use std::os::unix::process::ExitStatusExt;
use std::process::{Command, ExitCode};
use std::time::{Duration, Instant};
use std::{io, thread};
use vandrexu::{Name, RemoteHost, RemoteSlotHost};
use vandrexu_initiator::{BLOCK, Carrier, Dial, Error, Holder, Host, Result, Status, block_of};
use words::{Task, USAGE, Words};

/// The slot wasn't got.
const NOT_GOT: u8 = 1;
/// A bad command line, or slots beyond the volume.
const BAD_WORDS: u8 = 2;
/// The target can't be reached, or refuses; or the command can't be started.
const FAILED: u8 = 3;
/// Memory is refused.
const NO_MEMORY: u8 = 4;

/// How long it waits between two claims.
const PAUSE: Duration = Duration::from_millis(20);

/// How long it waits for a queue where all are in use, at the least: the target may not have seen yet that a host left.
const QUEUE: Duration = Duration::from_secs(1);

/// How long a release is made again where the target has no memory for it.
const RELEASE: Duration = Duration::from_secs(60);

fn main() -> ExitCode {
    let words: Vec<String> = std::env::args().skip(1).collect();
    if matches!(words.first().map(String::as_str), Some("--help" | "-h" | "help")) {
        print!("{USAGE}");
        return ExitCode::SUCCESS;
    }
    let words = match Words::of(&words) {
        Ok(words) => words,
        Err(what) => {
            eprintln!("vandrexu-lock: {what}");
            return ExitCode::from(BAD_WORDS);
        }
    };
    match run(&words) {
        Ok(status) => ExitCode::from(status),
        Err(what) => {
            eprintln!("vandrexu-lock: {what}");
            ExitCode::from(status_of(&what))
        }
    }
}

/// Whether a target had no memory for what it was asked. It did nothing then, and may do it later.
fn is_starved<T>(told: &Result<T>) -> bool {
    matches!(told, Err(Error::Refused(it, _)) if it.is(Status::INTERNAL))
}

/// The exit status of a failure.
fn status_of(error: &Error) -> u8 {
    match error {
        Error::Driver(vandrexu::Error::NoMemory) => NO_MEMORY,
        Error::Driver(vandrexu::Error::BadArea) => BAD_WORDS,
        Error::Refused(it, _) if it.is(Status::LBA_OUT_OF_RANGE) => BAD_WORDS,
        _ => FAILED,
    }
}

fn dial(words: &Words) -> Dial {
    let mut it = Dial::to(words.target);
    let own = if words.task == Task::Status { "status".into() } else { words.host.to_string() };
    it.host = words.name.clone().unwrap_or_else(|| format!("nqn.2026-11.org.vandrexu:lock:{own}"));
    if let Some(subsystem) = &words.subsystem {
        it.subsystem.clone_from(subsystem);
    }
    it
}

/// A connection with a slot host.
struct Slots {
    // (it leaves before its host does)
    carrier: Carrier<RemoteSlotHost>,
    _host: Host,
    /// The name of its next claim, or takeover.
    name: Name,
}

impl Slots {
    /// Connects. Where the target has no queue free it is asked again, for so long.
    fn connect(words: &Words, wait: Duration) -> Result<Slots> {
        let (began, way) = (Instant::now(), dial(words));
        let mut host = loop {
            match Host::connect(&way, 1) {
                Err(Error::Refused(it, _)) if it.is(Status::CONNECT_BUSY) && began.elapsed() < wait.max(QUEUE) => {}
                told => break told?,
            }
            thread::sleep(PAUSE);
        };
        let serial = serial();
        let carrier = host.carrier(|queue| slot_host(words, queue, serial))?;
        Ok(Slots { _host: host, carrier, name: name_above(words, serial) })
    }

    /// The same connection with a new slot host.
    fn renewed(self, words: &Words) -> Result<Slots> {
        let serial = serial();
        let carrier = self.carrier.with(|queue| slot_host(words, queue, serial))?;
        Ok(Slots { carrier, name: name_above(words, serial), ..self })
    }
}

/// A slot host whose serials are above this one.
fn slot_host(words: &Words, queue: u16, serial: u64) -> vandrexu::Result<RemoteSlotHost> {
    RemoteSlotHost::new(words.host, queue, words.area.first, words.area.count, serial)
}

/// The first name that it draws.
fn name_above(words: &Words, serial: u64) -> Name {
    Name { host: words.host, serial: serial + 1 }
}

fn run(words: &Words) -> Result<u8> {
    let began = Instant::now();
    let wait = if let Task::Claim { wait } = words.task { wait } else { QUEUE };
    let slots = Slots::connect(words, wait)?;
    match words.task {
        Task::Status => status(slots, words),
        Task::Claim { .. } => claim(slots, words, wait.saturating_sub(began.elapsed())),
        Task::TakeOver { from } => take_over(slots, words, from),
    }
}

fn told(holder: Holder) -> String {
    match holder {
        Holder::Nobody => "free".into(),
        Holder::Name(Name { host, serial }) => format!("host {host}, serial {serial}"),
        Holder::Foreign => "not a slot's block".into(),
    }
}

fn status(mut slots: Slots, words: &Words) -> Result<u8> {
    for slot in 0..words.area.count {
        println!("slot {slot}: {}", told(slots.carrier.holder(slot)?));
    }
    Ok(0)
}

fn claim(mut slots: Slots, words: &Words, wait: Duration) -> Result<u8> {
    let began = Instant::now();
    loop {
        let got = slots.carrier.claim(words.slot);
        if !(is_starved(&got) && began.elapsed() < wait) && got? {
            break;
        }
        if began.elapsed() >= wait {
            let holder = slots.carrier.holder(words.slot)?;
            eprintln!("vandrexu-lock: slot {} isn't free; now: {}", words.slot, told(holder));
            return Ok(NOT_GOT);
        }
        thread::sleep(PAUSE);
        // (so each claim has a serial that no other run with this host's number has)
        slots = slots.renewed(words)?;
    }
    hold(slots, words)
}

fn take_over(mut slots: Slots, words: &Words, from: u32) -> Result<u8> {
    let holder = slots.carrier.holder(words.slot)?;
    if let Holder::Name(dead) = holder
        && dead.host == from
        && slots.carrier.take_over(words.slot, dead)?
    {
        return hold(slots, words);
    }
    eprintln!("vandrexu-lock: host {from} doesn't hold slot {}; it was: {}", words.slot, told(holder));
    Ok(NOT_GOT)
}

/// Runs a command: its exit status, or 128 and the signal that ended it, as shells say it.
fn ran(command: &mut Command) -> io::Result<u8> {
    signals::leave_to(command);
    let status = command.status()?;
    let told = status.code().or(status.signal().map(|it| 128 + it));
    Ok(told.map_or(FAILED, |it| it as u8))
}

/// Runs the command, and releases the slot, whatever came of it.
fn hold(slots: Slots, words: &Words) -> Result<u8> {
    let ended = match words.command.split_first() {
        None => 0,
        Some((program, rest)) => ran(Command::new(program).args(rest)).unwrap_or_else(|error| {
            eprintln!("vandrexu-lock: {program}: {error}");
            FAILED
        }),
    };
    if release(slots, words)? {
        return Ok(ended);
    }
    eprintln!("vandrexu-lock: slot {} was taken from host {} while the command ran", words.slot, words.host);
    Ok(NOT_GOT)
}

/// Releases the slot; by another connection, if the first is lost.
fn release(mut slots: Slots, words: &Words) -> Result<bool> {
    match slots.carrier.release(words.slot) {
        Err(Error::Connection(_) | Error::Ended(..)) => {}
        told if is_starved(&told) => {
            let name = slots.name;
            return release_again(slots, words, name);
        }
        told => return told,
    }
    // (the release may have been served before the connection was lost)
    let mut again = Slots::connect(words, QUEUE)?;
    match again.carrier.holder(words.slot)? {
        Holder::Name(it) if it == slots.name => release_again(again, words, it),
        Holder::Nobody => Ok(true),
        _ => Ok(false),
    }
}

/// Releases what another slot host of this program holds by this name: by a pair, since this one doesn't hold it.
fn release_again(slots: Slots, words: &Words, name: Name) -> Result<bool> {
    let block = words.area.block(words.slot).unwrap_or_default();
    let Slots { _host, carrier, .. } = slots;
    let mut pairs = carrier.with(|queue| RemoteHost::new(words.host, queue, 0))?;
    let began = Instant::now();
    loop {
        let told = pairs.compare_and_write(block, &block_of(name), &[0; BLOCK]);
        if !is_starved(&told) || began.elapsed() >= RELEASE {
            return told;
        }
        thread::sleep(PAUSE);
    }
}

#[cfg(test)]
mod tests {
    use super::{BAD_WORDS, Error, FAILED, NO_MEMORY, Status, status_of};

    #[test]
    fn a_failure_has_the_status_that_casdisk_gives_it() {
        assert_eq!(status_of(&Error::Driver(vandrexu::Error::NoMemory)), NO_MEMORY);
        assert_eq!(status_of(&Error::Driver(vandrexu::Error::BadArea)), BAD_WORDS);
        assert_eq!(status_of(&Error::Refused(Status::LBA_OUT_OF_RANGE.no_retry(), 0)), BAD_WORDS);
        assert_eq!(status_of(&Error::Refused(Status::CONNECT_BUSY, 0)), FAILED);
        assert_eq!(status_of(&Error::Driver(vandrexu::Error::NoCall)), FAILED);
        assert_eq!(status_of(&Error::Target("no readiness")), FAILED);
    }
}
