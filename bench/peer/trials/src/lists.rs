//! The workloads, as lists of steps.

use crate::asked::step_of;
pub use crate::list::List;
use peer::sqe::command;
use peer::{Answer, Config, Core, Kind, Refused, Why};
use std::cell::Cell;

pub fn numbers(blocks: u32, awun: u16) -> Config {
    Config { blocks, awun, acwu: awun, nabsn: 0, nabo: 0, pairs: 1, sq_size: 8, cq_size: 8, jobs: 8, cqs: 1 }
}

pub const FLUSH: u8 = 0x00;
pub const WRITE: u8 = 0x01;
pub const READ: u8 = 0x02;
pub const COMPARE: u8 = 0x05;
pub const ZEROES: u8 = 0x08;

fn pattern(blocks: usize, seed: usize) -> Vec<u8> {
    (0..512 * blocks).map(|place| (place * 7 + seed * 13 + 1) as u8).collect()
}

/// Writes of so many blocks, one ticket after the other.
pub fn writes(numbers: Config, blocks: u16, count: usize) -> List {
    let mut list = List::new(numbers);
    let places = (numbers.blocks as usize / usize::from(blocks)).min(if blocks == 1 { 256 } else { 4 });
    let stride = numbers.blocks as usize / places;
    let entries: Vec<usize> = (0..places)
        .map(|place| {
            let entry = command(WRITE, 0, place as u16, (place * stride) as u64, blocks - 1);
            list.entry(&entry, &pattern(usize::from(blocks), place))
        })
        .collect();
    for turn in 0..count {
        list.alone(turn as u64 + 1, entries[turn % places], 512 * usize::from(blocks), &[blocks]);
    }
    list
}

/// A script of so many Writes of one block, four lines for each, one of them `settle`.
pub fn settled(count: usize) -> String {
    let mut text = String::from("config 8 1 1 0 0 2 4 4 8\n");
    for turn in 0..count {
        text += &format!("publish 1 write 0 {} 3 0 A1\nfetch 1\nsettle\nreap 1\n", turn % 65_536);
    }
    text
}

/// The steps of `settled`.
pub fn settled_steps(count: usize) -> List {
    let mut list = List::new(Config { pairs: 2, sq_size: 4, cq_size: 4, cqs: 2, jobs: 8, ..numbers(8, 1) });
    for turn in 0..count {
        let entry = list.entry(&command(WRITE, 0, (turn % 65_536) as u16, 3, 0), &[0xA1; 512]);
        list.alone(turn as u64 + 1, entry, 512, &[1]);
    }
    list
}

/// The lines of a script for a queue that there isn't, and so for tickets that there aren't: each step is refused.
pub fn refused(script: &[u8]) -> Vec<u8> {
    let mut out = Vec::new();
    for line in script.split_inclusive(|byte| *byte == b'\n') {
        let name = line.split(|byte| *byte == b' ').next().unwrap_or(line);
        match name {
            b"publish" | b"fetch" | b"reap" => {
                let rest = &line[name.len() + 1..];
                let digits = rest.iter().take_while(|byte| byte.is_ascii_digit()).count();
                out.extend_from_slice(name);
                out.extend_from_slice(b" 65535");
                out.extend_from_slice(&rest[digits..]);
            }
            _ => out.extend_from_slice(line),
        }
    }
    out
}

/// Reads of so many blocks, one ticket after the other.
pub fn reads(numbers: Config, blocks: u16, count: usize) -> List {
    let mut list = List::new(numbers);
    let entry = list.entry(&command(READ, 0, 1, 0, blocks - 1), &[]);
    for turn in 0..count {
        list.alone(turn as u64 + 1, entry, 0, &[blocks]);
    }
    list
}

/// Fused pairs of one block that all win, one ticket after the other.
pub fn pairs(numbers: Config, count: usize) -> List {
    let mut list = List::new(numbers);
    let (zeros, ones) = ([0; 512], [0xA1; 512]);
    let pair = |list: &mut List, from: &[u8], to: &[u8]| {
        let at = list.entry(&command(COMPARE, 1, 1, 3, 0), from);
        list.entry(&command(WRITE, 2, 2, 3, 0), to);
        at
    };
    let there = pair(&mut list, &zeros, &ones);
    let back = pair(&mut list, &ones, &zeros);
    for turn in 0..count {
        let ticket = turn as u64 + 1;
        list.publish(1, 2, if turn % 2 == 0 { there } else { back }, 512, 512);
        list.fetch(1);
        list.grant(ticket);
        list.block(ticket);
        list.block(ticket);
        list.post(ticket);
        list.post(ticket);
        list.reap(1);
        list.reap(1);
    }
    list
}

/// So many tickets in flight, each a Write of one block with its unit open; in turn the oldest ends and a new one comes.
pub fn in_flight(tickets: u16, turns: usize) -> List {
    grown(4096, 8, tickets, turns)
}

/// The same on a volume of so many blocks, at least 512, with so many slots in each queue.
pub fn grown(blocks: u32, slots: u16, tickets: u16, turns: usize) -> List {
    let mut numbers = numbers(blocks, 0);
    (numbers.sq_size, numbers.cq_size, numbers.jobs) = (slots, slots, tickets);
    let mut list = List::new(numbers);
    let stride = u64::from(blocks) / 512;
    let entries: Vec<usize> = (0..512u16)
        .map(|place| list.entry(&command(WRITE, 0, place, u64::from(place) * stride, 0), &pattern(1, usize::from(place))))
        .collect();
    let mut newest = 0;
    let mut begin = |list: &mut List| {
        list.publish(1, 1, entries[newest as usize % 512], 512, 0);
        list.fetch(1);
        newest += 1;
        list.grant(newest);
    };
    for _ in 0..tickets {
        begin(&mut list);
    }
    for oldest in 1..=turns as u64 {
        list.block(oldest);
        list.post(oldest);
        list.reap(1);
        begin(&mut list);
    }
    list
}

/// The same where the newest ends and the older ones stay.
pub fn idle_in_flight(tickets: u16, turns: usize) -> List {
    let mut numbers = numbers(4096, 0);
    numbers.jobs = tickets;
    let mut list = List::new(numbers);
    let entries: Vec<usize> = (0..512u16)
        .map(|place| list.entry(&command(WRITE, 0, place, u64::from(place) * 8, 0), &pattern(1, usize::from(place))))
        .collect();
    for place in 0..tickets - 1 {
        list.publish(1, 1, entries[usize::from(place)], 512, 0);
        list.fetch(1);
        list.grant(u64::from(place) + 1);
    }
    for turn in 0..turns as u64 {
        list.alone(u64::from(tickets) + turn, entries[511], 512, &[1]);
    }
    list
}

/// So many tickets that stay in flight, with no unit open, beside Flushes, one after the other.
pub fn flushes_beside(tickets: u16, turns: usize) -> List {
    let mut numbers = numbers(4096, 0);
    numbers.jobs = tickets + 1;
    let mut list = List::new(numbers);
    let idle = list.entry(&command(READ, 0, 1, 0, 0), &[]);
    let flush = list.entry(&command(FLUSH, 0, 2, 0, 0), &[]);
    for _ in 0..tickets {
        list.publish(1, 1, idle, 0, 0);
        list.fetch(1);
    }
    for turn in 0..turns as u64 {
        list.alone(u64::from(tickets) + turn + 1, flush, 0, &[]);
    }
    list
}

/// So many tickets with open units of one block beside Writes, one after the other, of so many units of one block.
pub fn grants_beside(tickets: u16, units: u16, turns: usize) -> List {
    let mut numbers = numbers(65_536, 0);
    numbers.jobs = tickets + 1;
    let mut list = List::new(numbers);
    for place in 0..tickets {
        let idle = list.entry(&command(READ, 0, place, 1024 + u64::from(place) * 8, 0), &[]);
        list.publish(1, 1, idle, 0, 0);
        list.fetch(1);
        list.grant(u64::from(place) + 1);
    }
    let write = list.entry(&command(WRITE, 0, 1000, 0, units - 1), &pattern(usize::from(units), 1));
    for turn in 0..turns as u64 {
        list.alone(u64::from(tickets) + turn + 1, write, 512 * usize::from(units), &vec![1; usize::from(units)]);
    }
    list
}

/// Writes of 16 blocks, one ticket after the other, from block 8 on over boundaries at 11 and 19: units of 3, 8 and 5 blocks.
pub fn over_boundaries(turns: usize) -> List {
    let numbers = Config { nabsn: 7, nabo: 3, ..numbers(1024, 7) };
    let mut list = List::new(numbers);
    let write = list.entry(&command(WRITE, 0, 1, 8, 15), &pattern(16, 1));
    for turn in 0..turns as u64 {
        list.alone(turn + 1, write, 16 * 512, &[3, 8, 5]);
    }
    list
}

/// 256 tickets in flight on 16 queues, each a Write of 16 blocks in units of one, of which one is always open.
pub fn many_open(turns: usize) -> List {
    let numbers =
        Config { blocks: 65_536, awun: 0, acwu: 0, nabsn: 0, nabo: 0, pairs: 16, sq_size: 32, cq_size: 32, jobs: 256, cqs: 16 };
    let mut list = List::new(numbers);
    let entries: Vec<usize> = (0..512u64)
        .map(|place| list.entry(&command(WRITE, 0, place as u16, place * 128 % 65_536, 15), &pattern(16, place as usize)))
        .collect();
    let mut newest = 0u64;
    for turn in 0..turns as u64 {
        let first = turn * 256 + 1;
        for place in 0..256u16 {
            list.publish(place % 16 + 1, 1, entries[newest as usize % 512], 16 * 512, 0);
            list.fetch(place % 16 + 1);
            newest += 1;
            list.grant(newest);
        }
        for unit in 0..16 {
            for ticket in first..first + 256 {
                list.block(ticket);
                if unit < 15 {
                    list.grant(ticket);
                }
            }
        }
        for ticket in first..first + 256 {
            list.post(ticket);
            list.reap(((ticket - first) % 16) as u16 + 1);
        }
    }
    list
}

/// Numbers by xorshift.
pub struct Random(Cell<u64>);

impl Random {
    pub fn new(seed: u64) -> Random {
        Random(Cell::new(seed.wrapping_mul(0x9E37_79B9_7F4A_7C15) | 1))
    }

    /// A number below n.
    pub fn up_to(&self, n: u64) -> u64 {
        let mut state = self.0.get();
        state ^= state << 13;
        state ^= state >> 7;
        state ^= state << 17;
        self.0.set(state);
        (state.wrapping_mul(0x2545_F491_4F6C_DD1D) >> 32) % n
    }

    pub fn one_in(&self, n: u64) -> bool {
        self.up_to(n) == 0
    }
}

#[derive(Clone, Copy, PartialEq)]
enum Due {
    Grant,
    Block,
    Post,
}

// The answer to the last step of a list.
fn last_of(list: &List, core: &mut Core) -> Result<Answer, Refused> {
    core.step(step_of(&list.bytes, list.asked.last().expect("a step")).expect("its entries"))
}

/// 16 queues and about 256 tickets in flight, of all operations on 1 to 8 blocks: so many steps.
pub fn mixed(seed: u64, steps: usize) -> List {
    let numbers =
        Config { blocks: 65_536, awun: 3, acwu: 7, nabsn: 0, nabo: 0, pairs: 16, sq_size: 64, cq_size: 64, jobs: 256, cqs: 16 };
    let random = Random::new(seed);
    let mut list = List::new(numbers);
    // entries with their data, of each operation; the first 64 blocks of each are bytes that a Compare finds
    let mut stock: Vec<(u32, usize, usize, usize)> = Vec::new();
    for place in 0..1024u64 {
        let blocks = 1 + random.up_to(8) as u16;
        let length = 512 * usize::from(blocks);
        let slba = random.up_to(65_536 - 8);
        let cid = place as u16 * 2;
        let data = pattern(usize::from(blocks), random.up_to(3) as usize);
        let one = match random.up_to(10) {
            0..=3 => (1, list.entry(&command(WRITE, 0, cid, slba, blocks - 1), &data), length, 0),
            4..=6 => (1, list.entry(&command(READ, 0, cid, slba, blocks - 1), &[]), 0, 0),
            7 => (1, list.entry(&command(COMPARE, 0, cid, slba, blocks - 1), &vec![0; length]), length, 0),
            8 => (1, list.entry(&command(ZEROES, 0, cid, slba, blocks - 1), &[]), 0, 0),
            _ => {
                let at = list.entry(&command(COMPARE, 1, cid, slba, blocks - 1), &vec![0; length]);
                list.entry(&command(WRITE, 2, cid + 1, slba, blocks - 1), &data);
                (2, at, length, length)
            }
        };
        stock.push(one);
    }
    let mut core = Core::new(numbers);
    let mut flying: Vec<(u64, u16, u32, Due)> = Vec::new();
    let mut next = 0;
    while list.asked.len() < steps {
        if flying.len() < 256 {
            let queue = random.up_to(16) as u16 + 1;
            let (count, at, first, second) = stock[next % 1024];
            next += 1;
            list.publish(queue, count, at, first, second);
            if last_of(&list, &mut core).is_err() {
                continue;
            }
            list.fetch(queue);
            if let Ok(Answer::Fetched(ticket, kind)) = last_of(&list, &mut core) {
                flying.push(match kind {
                    Kind::Failed(owed) => (ticket, queue, u32::from(owed), Due::Post),
                    Kind::Flush => (ticket, queue, 1, Due::Post),
                    Kind::Units(..) => (ticket, queue, 1, Due::Grant),
                    Kind::Pair(_) => (ticket, queue, 2, Due::Grant),
                });
            }
            continue;
        }
        let place = random.up_to(flying.len() as u64) as usize;
        let (ticket, queue, owed, due) = flying[place];
        match due {
            Due::Grant => list.grant(ticket),
            Due::Block => list.block(ticket),
            Due::Post => list.post(ticket),
        }
        let answer = last_of(&list, &mut core);
        match answer {
            Ok(Answer::Granted(..)) => flying[place].3 = Due::Block,
            Ok(Answer::Blocked(done)) if done.ended => flying[place].3 = Due::Grant,
            Ok(Answer::Blocked(_)) => {}
            Ok(Answer::Posted(_)) => {
                flying[place].2 -= 1;
                list.reap(queue);
                let _ = last_of(&list, &mut core);
                if owed == 1 {
                    flying.swap_remove(place);
                }
            }
            Err(refused) if due == Due::Grant && refused.why() == Why::WrongState => flying[place].3 = Due::Post,
            _ => {}
        }
    }
    list
}
