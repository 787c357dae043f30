//! What hosts see of a controller that makes steps at random.

use crate::state::{MOST_BLOCKS, MOST_IN_FLIGHT};
use crate::options::{Options, is_nothing};
use crate::trace::{Line, Trace};
use peer::sqe::command;
use peer::{Answer, BLOCK, Config, Core, Step, Submission};
use trials::lists::{COMPARE, FLUSH, READ, Random, WRITE, ZEROES};

/// How many entries are published at most.
pub const MOST_ENTRIES: u64 = 7;

fn random_config(random: &Random) -> Config {
    let awun = random.up_to(3) as u16;
    let acwu = random.up_to(3) as u16;
    let nabsn = if random.one_in(2) { 0 } else { awun.max(acwu) + random.up_to(2) as u16 };
    let pairs = 1 + random.up_to(2) as u16;
    Config {
        blocks: 1 + random.up_to(MOST_BLOCKS as u64 - 1) as u32,
        awun,
        acwu,
        nabsn,
        nabo: random.up_to(u64::from(nabsn) + 1) as u16,
        pairs,
        sq_size: 2 + random.up_to(6) as u16,
        cq_size: 2 + random.up_to(4) as u16,
        jobs: 1 + random.up_to(MOST_IN_FLIGHT as u64) as u16,
        cqs: 1 + random.up_to(u64::from(pairs)) as u16,
    }
}

/// The entries of a trace, which come one after the other.
struct Entries<'r> {
    random: &'r Random,
    blocks: u64,
    unlike: bool,
    made: u64,
}

impl Entries<'_> {
    fn blocks_of(&self) -> (u64, u16) {
        let random = self.random;
        let slba = random.up_to(self.blocks + u64::from(random.one_in(20)));
        let room = self.blocks.saturating_sub(slba).max(1);
        let blocks = if random.one_in(3) { 1 + random.up_to(room.min(3)) } else { 1 };
        (slba, (blocks - 1) as u16 + u16::from(random.one_in(40)))
    }

    fn data(&self, nlb: u16) -> Vec<u8> {
        let random = self.random;
        let length = if random.one_in(40) { BLOCK * random.up_to(3) as usize } else { BLOCK * (usize::from(nlb) + 1) };
        let mut data = vec![0; length];
        for (place, block) in data.chunks_mut(BLOCK).enumerate() {
            let letter = [0, 0xA1, 0xA1, 0xB2, 0xC3][random.up_to(5) as usize];
            block.fill(if self.unlike && !random.one_in(4) { (self.made * 4) as u8 + place as u8 + 1 } else { letter });
        }
        data
    }

    fn entry(&mut self, fuse: u8, opcode: u8, like: Option<(u64, u16)>) -> (Submission, (u64, u16)) {
        let random = self.random;
        let (slba, nlb) = like.unwrap_or_else(|| self.blocks_of());
        let (slba, nlb) = if opcode == FLUSH { (0, 0) } else { (slba, nlb) };
        let cid = if random.one_in(5) { random.up_to(3) } else { 0x10 + self.made } as u16;
        let mut entry = command(opcode, fuse, cid, slba, nlb);
        if random.one_in(40) {
            entry[random.up_to(64) as usize] = random.up_to(4) as u8;
        }
        let payload = if opcode == WRITE || opcode == COMPARE { self.data(nlb) } else { Vec::new() };
        self.made += 1;
        (Submission { entry, payload }, (slba, nlb))
    }

    // So many entries, or fewer: pairs come by two, sometimes alone.
    fn batch(&mut self, most: u64) -> Vec<Submission> {
        let random = self.random;
        let mut batch = Vec::new();
        while (batch.len() as u64) < most {
            if random.one_in(4) {
                let (first, like) = self.entry(1, COMPARE, None);
                batch.push(first);
                if (batch.len() as u64) < most && !random.one_in(10) {
                    let like = (!random.one_in(12)).then_some(like);
                    batch.push(self.entry(2, if random.one_in(20) { READ } else { WRITE }, like).0);
                }
            } else {
                let opcode = [WRITE, WRITE, WRITE, READ, READ, READ, COMPARE, COMPARE, ZEROES, FLUSH][random.up_to(10) as usize];
                let fuse = if random.one_in(25) { random.up_to(4) as u8 } else { 0 };
                batch.push(self.entry(fuse, opcode, None).0);
            }
        }
        batch
    }
}

fn random_options(random: &Random, config: &Config) -> Options {
    if !random.one_in(3) {
        return Options::default();
    }
    Options {
        contents_unknown: config.cqs == config.pairs && random.one_in(2),
        statuses_any: random.one_in(2),
        ignored: std::array::from_fn(|_| random.one_in(3)),
    }
}

// Writes what blocks hold at the beginning, by the queue pair that the trace doesn't have; says how many tickets it takes.
fn fill(core: &mut Core, config: &Config, random: &Random) -> u64 {
    let mut tickets = 0;
    for block in 0..u64::from(config.blocks) {
        if random.one_in(3) {
            continue;
        }
        let payload = vec![[0xA1, 0xB2, 0xC3, 1 + random.up_to(28) as u8][random.up_to(4) as usize]; BLOCK];
        let batch = vec![Submission { entry: command(WRITE, 0, 0, block, 0), payload }];
        core.step(Step::Publish(config.pairs, batch)).expect("room");
        tickets += 1;
        for step in [Step::Fetch(config.pairs), Step::Grant(tickets), Step::Block(tickets), Step::Post(tickets), Step::Reap(config.pairs)] {
            assert!(core.step(step).is_ok(), "a Write alone");
        }
    }
    tickets
}

// Other statuses where any will do, and other bits where they are ignored.
fn disguise(trace: &mut Trace, random: &Random) {
    let options = trace.options;
    for line in &mut trace.lines {
        let Line::Reap(_, cqe, _) = line else { continue };
        let word = u16::from_le_bytes([cqe[14], cqe[15]]);
        if options.statuses_any && is_nothing(word >> 1 & 0x7FF) {
            let status = [0x01, 0x02, 0x09, 0x80, 0x1FF, 0x281][random.up_to(6) as usize];
            cqe[14..].copy_from_slice(&(word & 0xF001 | status << 1).to_le_bytes());
        }
        if random.one_in(2) {
            options.scramble(cqe, || random.up_to(256) as u8);
        }
    }
}

/// What hosts see of a controller of a random configuration, up to some step.
/// What its head says, and what the options leave open, is chosen by `head`; none says nothing.
pub fn random_trace(random: &Random, head: Option<&Random>) -> Trace {
    let config = random_config(random);
    let options = head.map(|head| random_options(head, &config)).unwrap_or_default();
    let mut trace = Trace { config, options, lines: Vec::new() };
    let mut core = Core::new(trace.history_config());
    let before = match head {
        Some(head) if options.contents_unknown => fill(&mut core, &trace.history_config(), head),
        _ => 0,
    };
    let mut left = MOST_ENTRIES - random.up_to(if random.one_in(3) { MOST_ENTRIES } else { 4 });
    let mut entries = Entries { random, blocks: u64::from(config.blocks), unlike: random.one_in(3), made: 0 };
    let mut fetched = before;
    // (that of who is slow to answer has more in flight)
    let eager = 1 + random.up_to(4);
    for _ in 0..if random.one_in(8) { 40 } else { 250 } {
        let queue = 1 + random.up_to(u64::from(config.pairs)) as u16;
        match random.up_to(8 + eager) {
            0 | 1 if left > 0 => {
                let batch = entries.batch(1 + random.up_to(left.min(3)));
                if core.step(Step::Publish(queue, batch.clone())).is_ok() {
                    left -= (batch.len() as u64).min(left);
                    trace.lines.push(Line::Publish(queue, batch));
                }
            }
            2..=4 => {
                if let Ok(Answer::Fetched(ticket, _)) = core.step(Step::Fetch(queue)) {
                    fetched = ticket;
                }
            }
            5..=7 => {
                let cq = 1 + random.up_to(u64::from(config.cqs)) as u16;
                if let Ok(Answer::Reaped(cqe, data)) = core.step(Step::Reap(cq)) {
                    trace.lines.push(Line::Reap(cq, cqe, data));
                }
            }
            _ => {
                let ticket = 1 + random.up_to(fetched.max(1));
                let step = [Step::Grant, Step::Block, Step::Block, Step::Post][random.up_to(4) as usize];
                let _ = core.step(step(ticket));
            }
        }
    }
    if let Some(head) = head {
        disguise(&mut trace, head);
    }
    trace
}
