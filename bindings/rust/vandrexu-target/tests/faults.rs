//! Each fault that a target makes on purpose is found by what its hosts see.
mod common;
use common::{Folder, blocks, dial, is_explained, options, start};
use std::time::Duration;
use vandrexu_initiator::{BLOCK, Command, Dial, Host, Queue, Result, Trace, opcode};
use vandrexu_target::{Fault, FaultKind, Options};

/// How many blocks a command has.
const MANY: usize = 4;

/// How often a fault is looked for: what shows for a moment alone needs hosts that look then.
const TRIES: usize = 8;

/// A block of this number, unlike all others.
fn unlike(number: u64) -> Vec<u8> {
    let mut out = blocks(0xE0, MANY);
    for (at, block) in out.chunks_mut(BLOCK).enumerate() {
        block[..8].copy_from_slice(&(number * 16 + at as u64).to_le_bytes());
    }
    out
}

fn read(slba: u64) -> Command {
    Command::blocks(opcode::READ, slba, MANY)
}

/// Writes, reads and pairs of one host, beside Reads of another. What is answered isn't looked at.
fn work(queues: &mut [Queue]) -> Result<()> {
    let [one, other] = queues else { panic!("two queues") };
    for round in 0..60u64 {
        let slba = round % 4 * 16;
        let (old, new) = (unlike(round * 4 + 1), unlike(round * 4 + 2));
        one.send(Command::blocks(opcode::WRITE, slba, MANY), &old, 0)?;
        for _ in 0..6 {
            other.send(read(slba), &[], MANY * BLOCK)?;
        }
        one.receive()?;
        one.call(read(slba), &[], MANY * BLOCK)?;
        // a pair that fails, and one that is done
        one.send_pair(slba, &unlike(999_999), &unlike(round * 4 + 3))?;
        one.receive()?;
        one.receive()?;
        one.call(read(slba), &[], MANY * BLOCK)?;
        one.send_pair(slba, &old, &new)?;
        one.receive()?;
        one.receive()?;
        one.call(read(slba), &[], MANY * BLOCK)?;
        while other.in_flight() > 0 {
            other.receive()?;
        }
    }
    Ok(())
}

/// What became of a target with these options.
#[derive(Debug, PartialEq, Eq)]
struct Seen {
    /// Its own trace is explained.
    by_target: bool,
    /// The log of its host is explained.
    by_host: bool,
    /// The work was done.
    is_done: bool,
}

fn see(options: Options) -> Seen {
    let folder = Folder::new();
    let (trace, log) = (folder.file("trace"), folder.file("log"));
    let config = options.config;
    let loses = options.fault.is_some_and(|it| it.kind == FaultKind::LostCompletion);
    let target = start(Options { trace: Some(trace.clone()), seed: Some(5), ..options });
    let patient = Dial { patience: Duration::from_secs(if loses { 2 } else { 60 }), ..dial(&target) };
    let mut host = Host::connect(&patient, 2).expect("a host");
    let logs = Trace::create(&log, &config.to_string(), config.cq_size).expect("a log");
    for (queue, pair) in host.queues.iter_mut().zip(1..) {
        queue.trace = Some(logs.of_queue(pair));
    }
    let is_done = work(&mut host.queues).is_ok();
    logs.flush().expect("written");
    drop(host);
    drop(target);
    Seen { by_target: is_explained(&trace), by_host: is_explained(&log), is_done }
}

#[test]
fn a_target_without_a_fault_is_explained() {
    assert_eq!(see(options()), Seen { by_target: true, by_host: true, is_done: true });
}

#[test]
fn each_fault_is_found() {
    std::thread::scope(|scope| {
        for kind in FaultKind::ALL {
            scope.spawn(move || {
                let see = || see(Options { fault: Some(Fault { kind: *kind, every: 5 }), ..options() });
                let is_found = |seen: &Seen| match kind {
                    // (a log can't say that an answer will never come: its host waits in vain)
                    FaultKind::LostCompletion => !seen.is_done,
                    // (a host can't compare the head with that of the controller's own queue)
                    FaultKind::WrongHead => !seen.by_target && seen.by_host,
                    _ => !seen.by_target && !seen.by_host,
                };
                assert!((0..TRIES).any(|_| is_found(&see())), "{}", kind.name());
            });
        }
    });
}

#[test]
fn a_wrong_head_and_a_wrong_phase_are_on_the_wire() {
    for kind in [FaultKind::WrongHead, FaultKind::WrongPhase] {
        let target = start(Options { fault: Some(Fault { kind, every: 3 }), ..options() });
        let mut host = Host::connect(&dial(&target), 1).expect("a host");
        let flush = || Command::blocks(opcode::FLUSH, 0, 0);
        let seen: Vec<(u16, u8)> = (0..6)
            .map(|_| host.queues[0].call(flush(), &[], 0).expect("an answer").completion)
            .map(|it| (it.sqhd(), it.0[14] & 1))
            .collect();
        let due = match kind {
            FaultKind::WrongHead => [(2, 0), (3, 0), (5, 0), (5, 0), (6, 0), (8, 0)],
            _ => [(2, 0), (3, 0), (4, 1), (5, 0), (6, 0), (7, 1)],
        };
        assert_eq!(seen, due, "{}", kind.name());
    }
}
