//! Hosts that race for slots on threads, each call to the controller under one mutex, as a good engineer would write it first.

use crate::Core;
use crate::model::*;
use crate::sqe::command;
use std::collections::VecDeque;
use std::sync::Mutex;
use std::sync::atomic::{AtomicBool, AtomicU64, Ordering};
use std::thread;

/// How many hosts race, how many workers serve them, for how many slots and rounds. Each host has one submission queue.
#[derive(Clone, Copy)]
pub struct Race {
    pub hosts: u16,
    pub workers: u16,
    pub slots: u32,
    pub rounds: u32,
}

impl Race {
    /// 64 blocks, units and pairs of at most two, 8 slots in each queue, 16 tickets in flight, a completion queue for each host.
    pub fn config(&self) -> Config {
        Config {
            blocks: 64,
            awun: 1,
            acwu: 1,
            nabsn: 0,
            nabo: 0,
            pairs: self.hosts,
            sq_size: 8,
            cq_size: 8,
            jobs: 16,
            cqs: self.hosts,
        }
    }
}

struct Shared {
    core: Mutex<Core>,
    // Tickets that a worker is to serve, and whether each is of a pair.
    works: Mutex<VecDeque<(u64, Kind, u16)>>,
    // How many completions were posted to each completion queue.
    posted: Vec<AtomicU64>,
    stop: AtomicBool,
}

impl Shared {
    fn step(&self, step: Step) -> Result<Answer, Refused> {
        self.core.lock().expect("no thread panics").step(step)
    }

    // The answer, once the step isn't refused for now.
    fn insist(&self, step: impl Fn() -> Step) -> Answer {
        loop {
            match self.step(step()) {
                Ok(answer) => return answer,
                Err(refused) => assert!(matches!(refused.why(), Why::Conflict | Why::CqFull), "{refused:?}"),
            }
            thread::yield_now();
        }
    }
}

fn fetch_all(shared: &Shared, queues: u16) {
    while !shared.stop.load(Ordering::Relaxed) {
        let mut fetched = false;
        for queue in 1..=queues {
            if let Ok(Answer::Fetched(ticket, kind)) = shared.step(Step::Fetch(queue)) {
                shared.works.lock().expect("no thread panics").push_back((ticket, kind, queue));
                fetched = true;
            }
        }
        if !fetched {
            thread::yield_now();
        }
    }
}

fn serve_all(shared: &Shared) {
    while !shared.stop.load(Ordering::Relaxed) {
        let next = shared.works.lock().expect("no thread panics").pop_front();
        match next {
            Some((ticket, kind, queue)) => serve(shared, ticket, kind, queue),
            None => thread::yield_now(),
        }
    }
}

fn serve(shared: &Shared, ticket: u64, kind: Kind, queue: u16) {
    if matches!(kind, Kind::Pair(_)) {
        shared.insist(|| Step::Grant(ticket));
        loop {
            match shared.insist(|| Step::Block(ticket)) {
                Answer::Blocked(done) if done.ended => break,
                _ => {}
            }
        }
    }
    let completions = if matches!(kind, Kind::Pair(_) | Kind::Failed(2)) { 2 } else { 1 };
    for _ in 0..completions {
        shared.insist(|| Step::Post(ticket));
        shared.posted[usize::from(queue) - 1].fetch_add(1, Ordering::Release);
    }
}

struct Host<'a> {
    shared: &'a Shared,
    number: u16,
    reaped: u64,
    cid: u16,
}

fn name(host: u16, serial: u64) -> Vec<u8> {
    let mut block = vec![0; BLOCK];
    block[..4].copy_from_slice(&u32::from(host).to_le_bytes());
    block[8..16].copy_from_slice(&serial.to_le_bytes());
    block
}

impl Host<'_> {
    // Whether the slot's block was this one, and is now that one.
    fn swap(&mut self, slot: u32, old: Vec<u8>, new: Vec<u8>) -> bool {
        let (one, two) = (self.cid % 64, (self.cid + 1) % 64);
        self.cid = (self.cid + 2) % 64;
        let mut batch = vec![
            Submission { entry: command(0x05, 1, one, slot.into(), 0), payload: old },
            Submission { entry: command(0x01, 2, two, slot.into(), 0), payload: new },
        ];
        while let Err(refused) = self.shared.step(Step::Publish(self.number, batch)) {
            let Refused::Publish(Why::NoRoom, back) = refused else { panic!("{refused:?}") };
            batch = back;
            thread::yield_now();
        }
        let first = self.reap();
        self.reap();
        first == [0, 0]
    }

    // The status of the next completion.
    fn reap(&mut self) -> [u8; 2] {
        let posted = &self.shared.posted[usize::from(self.number) - 1];
        while posted.load(Ordering::Acquire) <= self.reaped {
            thread::yield_now();
        }
        let Ok(Answer::Reaped(cqe, _)) = self.shared.step(Step::Reap(self.number)) else {
            panic!("a posted completion is there");
        };
        self.reaped += 1;
        [cqe[14] & 0xfe, cqe[15]]
    }

    fn play(&mut self, race: &Race) {
        let mut serial = 0;
        for _ in 0..race.rounds {
            for slot in 0..race.slots {
                serial += 1;
                if self.swap(slot, vec![0; BLOCK], name(self.number, serial)) {
                    assert!(self.swap(slot, name(self.number, serial), vec![0; BLOCK]));
                    break;
                }
            }
        }
    }
}

/// The controller after a race.
pub fn raced(race: &Race) -> Core {
    let shared = Shared {
        core: Mutex::new(Core::new(race.config())),
        works: Mutex::new(VecDeque::new()),
        posted: (0..race.hosts).map(|_| AtomicU64::new(0)).collect(),
        stop: AtomicBool::new(false),
    };
    thread::scope(|scope| {
        let hosts: Vec<_> = (1..=race.hosts)
            .map(|number| {
                let mut host = Host { shared: &shared, number, reaped: 0, cid: 0 };
                scope.spawn(move || host.play(race))
            })
            .collect();
        scope.spawn(|| fetch_all(&shared, race.hosts));
        for _ in 0..race.workers {
            scope.spawn(|| serve_all(&shared));
        }
        for host in hosts {
            host.join().expect("no host panics");
        }
        shared.stop.store(true, Ordering::Relaxed);
    });
    shared.core.into_inner().expect("no thread panics")
}
