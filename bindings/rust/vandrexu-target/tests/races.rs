//! Hosts race for a lock block by fused pairs. The history and the hosts' own log are judged by the checker; a target that
//! serves a pair as two commands is found by the log alone.
mod common;
use common::{Folder, blocks, dial, give_way, is_explained, is_legal, options, start};
use std::collections::{HashMap, HashSet};
use std::path::{Path, PathBuf};
use std::sync::Barrier;
use std::sync::atomic::{AtomicU64, Ordering};
use vandrexu_initiator::{BLOCK, Command, Dial, Host, Trace, opcode, u64_at};
use vandrexu_target::{Config, Options, Target};

/// A lock block of this owner, 0 for none; the number makes each one unlike all others.
fn lock(owner: u64, number: u64) -> Vec<u8> {
    let mut out = vec![0; BLOCK];
    out[..8].copy_from_slice(&owner.to_le_bytes());
    out[8..16].copy_from_slice(&number.to_le_bytes());
    out
}

fn trace_of(target: &Folder, options: &Options) -> (PathBuf, Trace) {
    let path = target.file("seen");
    let trace = Trace::create(&path, &options.config.to_string(), options.config.cq_size).expect("a trace");
    (path, trace)
}

/// A host that logs to the trace as this queue pair.
fn logging(dial: &Dial, name: &str, trace: &Trace, pair: u16) -> Host {
    let mut host = Host::connect(&dial.clone().named(name), 1).expect("a host");
    host.queues[0].trace = Some(trace.of_queue(pair));
    host
}

fn read_lock(host: &mut Host, slba: u64) -> Vec<u8> {
    host.queues[0].call(Command::blocks(opcode::READ, slba, 1), &[], BLOCK).expect("an answer").data
}

/// One host takes and gives back one of some locks, so many times; how often two had one.
fn contend(host: &mut Host, me: u64, rounds: u64, slots: u64, held: &[AtomicU64]) -> u64 {
    let (mut won, mut double, mut random) = (0, 0, common::Random(me * 77 + 1));
    while won < rounds {
        let slot = random.next() % slots;
        let seen = read_lock(host, slot);
        if u64_at(&seen, 0) != 0 {
            give_way();
            continue;
        }
        let number = u64_at(&seen, 8);
        let mine = lock(me, number + 1);
        if !host.queues[0].compare_and_write(slot, &seen, &mine).expect("a pair") {
            give_way();
            continue;
        }
        double += u64::from(held[slot as usize].fetch_add(1, Ordering::SeqCst) != 0);
        held[slot as usize].fetch_sub(1, Ordering::SeqCst);
        double += u64::from(!host.queues[0].compare_and_write(slot, &mine, &lock(0, number + 2)).expect("a pair"));
        won += 1;
    }
    double
}

fn race(target: &Target, trace: &Trace, hosts: u64, rounds: u64, slots: u64) -> u64 {
    let held: Vec<AtomicU64> = (0..slots).map(|_| AtomicU64::new(0)).collect();
    let dial = dial(target);
    std::thread::scope(|scope| {
        let all: Vec<_> = (1..=hosts)
            .map(|me| {
                let mut host = logging(&dial, &format!("nqn.host-{me}"), trace, me as u16);
                let held = &held;
                scope.spawn(move || contend(&mut host, me, rounds, slots, held))
            })
            .collect();
        all.into_iter().map(|it| it.join().expect("a host")).sum()
    })
}

#[test]
fn no_lock_is_held_twice_and_all_is_explained() {
    for seed in [None, Some(1), Some(2)] {
        let folder = Folder::new();
        let (history, own) = (folder.file("history"), folder.file("own"));
        let options = Options { seed, history: Some(history.clone()), trace: Some(own.clone()), ..options() };
        let (seen, trace) = trace_of(&folder, &options);
        let target = start(options);
        assert_eq!(race(&target, &trace, 8, 60, 3), 0);
        trace.flush().unwrap();
        drop(target);
        is_legal(&history);
        assert!(is_explained(&own), "the target's trace, seed {seed:?}");
        assert!(is_explained(&seen), "the hosts' trace, seed {seed:?}");
    }
}

/// How often a pair of one ticket took effect within a unit that another wrote, and between two units of one.
fn pairs_between(history: &Path) -> (u32, u32) {
    let text = std::fs::read_to_string(history).expect("a history");
    // of each Write that goes on: how many blocks are left of its unit, and whether a pair came since its last step
    let (mut pairs, mut open, mut within, mut between) = (HashSet::new(), HashMap::new(), 0, 0);
    for line in text.lines() {
        match line.split(' ').collect::<Vec<_>>()[..] {
            ["fetch", _, ticket, "2", "ok"] => {
                pairs.insert(ticket);
            }
            ["grant", ticket, _, _, blocks, "w"] if !pairs.contains(ticket) => {
                let came = open.insert(ticket, (blocks.parse::<u32>().expect("a number"), false));
                between += u32::from(came.is_some_and(|it| it.1));
            }
            ["block", ticket, _, _, _, effect] => {
                if let Some((left, came)) = open.get_mut(ticket) {
                    within += u32::from(*came && *left > 0);
                    (*left, *came) = (*left - 1, false);
                } else if effect == "*" {
                    open.values_mut().for_each(|it| it.1 = true);
                }
            }
            _ => {}
        }
    }
    (within, between)
}

#[test]
fn pairs_of_one_host_take_effect_between_the_steps_of_anothers_units() {
    let folder = Folder::new();
    let history = folder.file("history");
    let target = start(Options { seed: Some(7), history: Some(history.clone()), ..options() });
    let [mut writer, mut locker] =
        ["nqn.writer", "nqn.locker"].map(|it| Host::connect(&dial(&target).named(it), 1).unwrap());
    let (data, free) = (blocks(9, 16), blocks(0, 1));
    let (mut within, mut between, mut rounds) = (0, 0, 0);
    // (until the two were under way at once, on a machine of any speed)
    while (within == 0 || between == 0) && rounds < 500 {
        rounds += 1;
        // (two units each)
        let write = |at: u64| (Command::blocks(opcode::WRITE, 64 + 16 * at, 16), &data[..]);
        let pair = |at: u64| {
            let of = |opcode, fuse| (Command::blocks(opcode, at, 1).fused(fuse), &free[..]);
            [of(opcode::COMPARE, 1), of(opcode::WRITE, 2)]
        };
        writer.queues[0].send_all(&(0..8).map(write).collect::<Vec<_>>(), 0).unwrap();
        locker.queues[0].send_all(&(0..8).flat_map(pair).collect::<Vec<_>>(), 0).unwrap();
        for queue in [&mut writer.queues[0], &mut locker.queues[0]] {
            while queue.in_flight() > 0 {
                assert!(queue.receive().unwrap().is_success());
            }
        }
        (within, between) = pairs_between(&history);
    }
    drop((writer, locker));
    drop(target);
    is_legal(&history);
    assert!(within > 0 && between > 0, "{within} within a unit, {between} between two");
}

#[test]
fn small_rings_boundaries_and_shared_completion_queues_are_served() {
    for (line, seed) in [
        ("config 64 0 0 0 0 4 3 3 1", None),
        ("config 64 2 1 3 1 4 3 3 2", Some(3)),
        ("config2 64 3 1 0 0 4 4 3 8 1", Some(4)),
        ("config2 64 7 0 7 0 4 5 4 3 2", None),
    ] {
        let folder = Folder::new();
        let (history, own) = (folder.file("history"), folder.file("own"));
        let config = Config::of_line(line).expect("a configuration");
        let options = Options { config, seed, history: Some(history.clone()), trace: Some(own.clone()), ..options() };
        let target = start(options);
        let small = Dial { slots: config.sq_size.min(config.cq_size), ..dial(&target) };
        let held = [AtomicU64::new(0)];
        std::thread::scope(|scope| {
            for me in 1..=3 {
                let (small, held) = (small.clone().named(&format!("nqn.host-{me}")), &held);
                scope.spawn(move || {
                    let mut host = Host::connect(&small, 1).expect("a host");
                    assert_eq!(contend(&mut host, me, 20, 1, held), 0);
                    let data = [lock(me, 7), lock(me, 8), lock(me, 9), lock(me, 10)].concat();
                    assert_eq!(common::write(&mut host, 8 * me, &data), common::DONE);
                    assert_eq!(common::read(&mut host, 8 * me, 4), data);
                });
            }
        });
        drop(target);
        is_legal(&history);
        assert!(is_explained(&own), "{line}");
    }
}

#[test]
fn a_target_that_serves_a_pair_as_two_commands_is_found_by_what_hosts_saw() {
    let folder = Folder::new();
    let options = Options { naive: true, ..options() };
    let (seen, trace) = trace_of(&folder, &options);
    let target = start(options);
    let dial = dial(&target);
    let (both, holders) = (Barrier::new(2), (0..200).map(|_| AtomicU64::new(0)).collect::<Vec<_>>());
    // both take the lock of a round at once, until both get it
    let take_locks = |host: &mut Host, me: u64| {
        holders.iter().zip(0..).position(|(holders, round)| {
            both.wait();
            let taken = host.queues[0].compare_and_write(round, &blocks(0, 1), &lock(me, round)).expect("a pair");
            holders.fetch_add(u64::from(taken), Ordering::SeqCst);
            both.wait();
            holders.load(Ordering::SeqCst) == 2
        })
    };
    let found: Vec<_> = std::thread::scope(|scope| {
        let all = [1, 2].map(|me| {
            let mut host = logging(&dial, &format!("nqn.host-{me}"), &trace, me as u16);
            let take_locks = &take_locks;
            scope.spawn(move || take_locks(&mut host, me))
        });
        all.into_iter().map(|it| it.join().expect("a host")).collect()
    });
    trace.flush().unwrap();
    assert!(found[0].is_some(), "no lock was held twice");
    assert!(!is_explained(&seen));
}
