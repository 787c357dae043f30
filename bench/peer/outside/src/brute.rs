//! Whether a legal history is seen as a trace: each step that may be made, with each word and each mark, is made.

use crate::options::Options;
use crate::state::{Flight, Hashes, MOST_BLOCKS, MOST_IN_FLIGHT, MOST_QUEUES, Open, State};
use crate::trace::{Line, Trace, blocks_of};
use peer::sqe::cqe_bytes;
use peer::verdict::{Item, judge, operation};
use peer::{BLOCK, COMPARE_FAILURE, Config, FAILED_FUSED, Op, Range, SUCCESS, Status, Verdict};
use std::collections::{HashMap, HashSet};

// The value of a block of which nothing was found out yet.
const OPEN: u8 = 255;

/// What was found out.
#[derive(Clone, Copy, Debug, PartialEq, Eq)]
pub enum Said {
    Explained,
    /// No history is seen as so many of its first lines, the fewest.
    Not(usize),
    /// There was too much to try.
    Undecided,
}

// An entry that is published, with its blocks' values.
struct Published {
    item: Item,
    values: Vec<u8>,
}

// A completion that is reaped; no values where its data isn't whole blocks.
struct Reaped {
    cqe: [u8; 16],
    values: Option<Vec<u8>>,
}

// A line: how many are published on its queue then, or the completion queue.
enum Next {
    Publish(usize, u8),
    Reap(usize),
}

#[derive(Default)]
struct Values(HashMap<Vec<u8>, u8>);

impl Values {
    // The number of a block's value; that of zeros is 0.
    fn number(&mut self, block: &[u8]) -> u8 {
        let more = self.0.len() as u8 + 1;
        if block.iter().all(|byte| *byte == 0) { 0 } else { *self.0.entry(block.to_vec()).or_insert(more) }
    }

    fn numbers(&mut self, data: &[u8]) -> Option<Vec<u8>> {
        Some(blocks_of(data)?.into_iter().map(|block| self.number(block)).collect())
    }
}

struct Brute {
    config: Config,
    options: Options,
    // how many values there are, that of zeros among them; one more stands for all others
    values: u8,
    lines: Vec<Next>,
    entries: [Vec<Published>; MOST_QUEUES],
    reaped: [Vec<Reaped>; MOST_QUEUES],
    // by line, what was published and reaped before it
    published: Vec<[u8; MOST_QUEUES]>,
    taken: Vec<[u8; MOST_QUEUES]>,
}

impl Brute {
    // The lines up to the first that names no queue.
    fn of_trace(trace: &Trace) -> Brute {
        let config = trace.config;
        let mut values = Values::default();
        let mut brute = Brute {
            config,
            options: trace.options,
            values: 0,
            lines: Vec::new(),
            entries: Default::default(),
            reaped: Default::default(),
            published: vec![[0; MOST_QUEUES]],
            taken: vec![[0; MOST_QUEUES]],
        };
        for line in &trace.lines {
            let at = brute.lines.len();
            let (mut published, mut taken) = (brute.published[at], brute.taken[at]);
            match line {
                Line::Publish(queue, batch) if config.has_queue(*queue) => {
                    let queue = usize::from(*queue) - 1;
                    for submission in batch {
                        let item = Item::of(submission);
                        let values = values.numbers(&submission.payload).unwrap_or_default();
                        brute.entries[queue].push(Published { item, values });
                    }
                    published[queue] += batch.len() as u8;
                    brute.lines.push(Next::Publish(queue, batch.len() as u8));
                }
                Line::Reap(cq, cqe, data) if config.has_completion_queue(*cq) => {
                    let cq = usize::from(*cq) - 1;
                    brute.reaped[cq].push(Reaped { cqe: *cqe, values: values.numbers(data) });
                    taken[cq] += 1;
                    brute.lines.push(Next::Reap(cq));
                }
                _ => break,
            }
            brute.published.push(published);
            brute.taken.push(taken);
        }
        brute.values = values.0.len() as u8 + 1;
        brute
    }

    fn add_line(&self, state: &State, next: &mut Vec<State>) {
        let Some(line) = self.lines.get(usize::from(state.at)) else { return };
        let (published, taken) = (&self.published[usize::from(state.at)], &self.taken[usize::from(state.at)]);
        let fits = match line {
            Next::Publish(queue, count) => {
                u16::from(published[*queue] - state.fetched[*queue] + count) < self.config.sq_size
            }
            Next::Reap(cq) => state.posted[*cq] > taken[*cq],
        };
        if fits {
            next.push(State { at: state.at + 1, ..*state });
        }
    }

    // The identifiers in use on a submission queue.
    fn in_use(&self, state: &State, queue: usize) -> Vec<u16> {
        let flights = state.flights().iter().filter(|flight| usize::from(flight.queue) == queue);
        flights.flat_map(|flight| (flight.posted..flight.taken).map(|place| self.cid(flight, place))).collect()
    }

    fn cid(&self, flight: &Flight, place: u8) -> u16 {
        self.entries[usize::from(flight.queue)][usize::from(flight.first + place)].item.sqe.cid
    }

    fn add_fetch(&self, state: &State, queue: usize, next: &mut Vec<State>) {
        let first = state.fetched[queue];
        let published = self.published[usize::from(state.at)][queue];
        if first >= published || usize::from(state.count) >= usize::from(self.config.jobs).min(MOST_IN_FLIGHT) {
            return;
        }
        let entries = &self.entries[queue][usize::from(first)..usize::from(published)];
        let front = &entries[0].item;
        let second = entries.get(1).map(|entry| &entry.item);
        self.add_judged(state, queue, front, second, next);
        if self.options.statuses_any {
            // (as one of namespace 0)
            let mut refused = Item { sqe: front.sqe, length: front.length };
            refused.sqe.nsid = 0;
            self.add_judged(state, queue, &refused, second, next);
        }
    }

    fn add_judged(&self, state: &State, queue: usize, front: &Item, second: Option<&Item>, next: &mut Vec<State>) {
        let first = state.fetched[queue];
        let in_use = self.in_use(state, queue);
        let verdict = judge(front, second, &|cid| in_use.contains(&cid), &self.config);
        let failed = match verdict {
            Verdict::SingleFailed(one) => Some([one; 2]),
            Verdict::PairFailed(one, other) => Some([one, other]),
            Verdict::Single | Verdict::Pair => None,
        };
        let (op, range) = operation(verdict, &front.sqe).unzip();
        let range = range.unwrap_or(Range { slba: 0, blocks: 0 });
        let taken = verdict.taken() as u8;
        let mut after = *state;
        after.fetched[queue] += taken;
        after.add(Flight {
            queue: queue as u8,
            first,
            taken,
            failed,
            op,
            next: range.slba as u8,
            left: range.blocks as u8,
            ..Flight::default()
        });
        next.push(after);
    }

    fn add_grant(&self, state: &State, place: usize, next: &mut Vec<State>) {
        let flight = state.flights[place];
        let Some(op) = flight.op else { return };
        if flight.left == 0 || flight.differed || flight.open.is_some() {
            return;
        }
        let left = Range { slba: u64::from(flight.next), blocks: u32::from(flight.left) };
        let unit = if op == Op::Pair { left } else { self.config.first_unit(left) };
        let (slba, blocks) = (unit.slba as u8, unit.blocks as u8);
        let conflicts = state.flights().iter().any(|other| {
            other.open.is_some_and(|open| {
                let meet = open.slba < slba + blocks && slba < open.slba + open.blocks;
                meet && (other.writes() || flight.writes())
            })
        });
        if conflicts {
            return;
        }
        let mut after = *state;
        let known = &mut after.flights[place];
        known.next += blocks;
        known.left -= blocks;
        known.granted += 1;
        known.open = Some(Open { slba, blocks, ..Open::default() });
        next.push(after);
    }

    // The entry that has the data to compare, or to write, and the first block of the command.
    fn value(&self, flight: &Flight, which: u8, block: u8) -> u8 {
        let entry = &self.entries[usize::from(flight.queue)][usize::from(flight.first + which)];
        let first = self.entries[usize::from(flight.queue)][usize::from(flight.first)].item.sqe.slba as u8;
        entry.values[usize::from(block - first)]
    }

    // Makes the effect of the open unit now; or what was said isn't right.
    fn take_effect(&self, state: &mut State, place: usize) -> bool {
        let flight = state.flights[place];
        let Some(mut open) = flight.open else { return false };
        let mut equal = 0;
        if flight.compares() {
            for k in 0..open.blocks {
                let block = open.slba + k;
                equal |= u8::from(state.values[usize::from(block)] == self.value(&flight, 0, block)) << k;
            }
            let said = open.made.min(open.blocks);
            let mask = (1u8 << said).wrapping_sub(1);
            if open.said_equal & mask != equal & mask {
                return false;
            }
        }
        let says_no = flight.compares() && equal != (1u8 << open.blocks).wrapping_sub(1);
        let first = self.entries[usize::from(flight.queue)][usize::from(flight.first)].item.sqe.slba as u8;
        for k in 0..open.blocks {
            let block = open.slba + k;
            let value = &mut state.values[usize::from(block)];
            match flight.op {
                Some(Op::Read) => state.flights[place].read[usize::from(block - first)] = *value,
                Some(Op::Write) => *value = self.value(&flight, 0, block),
                Some(Op::Pair) if !says_no => *value = self.value(&flight, 1, block),
                Some(Op::WriteZeroes) => *value = 0,
                _ => {}
            }
        }
        open.has_effect = true;
        open.equal = equal;
        let known = &mut state.flights[place];
        known.open = Some(open);
        known.effects += 1;
        known.said_no |= says_no;
        true
    }

    // The next Block of the open unit, with this word and with or without the mark.
    fn add_block(&self, state: &State, place: usize, says: Option<bool>, marked: bool, next: &mut Vec<State>) {
        let flight = &state.flights[place];
        let Some(open) = flight.open else { return };
        let finds = flight.op == Some(Op::Read) || flight.compares();
        let unknown = (open.slba..open.slba + open.blocks).find(|block| state.values[usize::from(*block)] == OPEN);
        if let (true, true, Some(block)) = (marked, finds, unknown) {
            for value in 0..=self.values {
                let mut known = *state;
                known.values[usize::from(block)] = value;
                self.add_block(&known, place, says, marked, next);
            }
            return;
        }
        let mut after = *state;
        let flight = &mut after.flights[place];
        let Some(open) = flight.open.as_mut() else { return };
        if let Some(equal) = says {
            if open.has_effect && (open.equal >> open.made & 1 == 1) != equal {
                return;
            }
            open.said_equal |= u8::from(equal) << open.made;
        }
        open.made += 1;
        // a unit has one effect, behind that of the unit before it
        if marked && (open.has_effect || flight.effects + 1 != flight.granted || !self.take_effect(&mut after, place)) {
            return;
        }
        let flight = &mut after.flights[place];
        let Some(open) = flight.open else { return };
        let needed = if flight.op == Some(Op::Pair) { 2 * open.blocks } else { open.blocks };
        let differs = says == Some(false);
        flight.differed |= differs;
        if differs || open.made == needed {
            flight.open = None;
        }
        next.push(after);
    }

    fn add_blocks(&self, state: &State, place: usize, next: &mut Vec<State>) {
        let flight = &state.flights[place];
        let Some(open) = flight.open else { return };
        let words: &[Option<bool>] =
            if flight.compares() && open.made < open.blocks { &[Some(false), Some(true)] } else { &[None] };
        for says in words {
            self.add_block(state, place, *says, false, next);
            self.add_block(state, place, *says, true, next);
        }
    }

    // The status of the next completion of a ticket, where it owes one.
    fn owed(flight: &Flight) -> Option<Status> {
        let second = usize::from(flight.posted);
        if let Some(failed) = flight.failed {
            return Some(failed[second]);
        }
        if flight.op.is_none() {
            return Some(SUCCESS);
        }
        let all_ended = flight.left == 0 && flight.open.is_none();
        if !all_ended && !flight.differed {
            return None;
        }
        if flight.said_no && (flight.op != Some(Op::Pair) || all_ended) {
            return Some([COMPARE_FAILURE, FAILED_FUSED][second]);
        }
        (all_ended && flight.effects == flight.granted).then_some(SUCCESS)
    }

    fn add_post(&self, state: &State, place: usize, next: &mut Vec<State>) {
        let flight = &state.flights[place];
        let Some(status) = Self::owed(flight) else { return };
        let queue = usize::from(flight.queue);
        let cq = usize::from(self.config.completion_queue(u16::from(flight.queue) + 1)) - 1;
        let posted = state.posted[cq];
        if u16::from(posted - self.taken[usize::from(state.at)][cq]) + 1 >= self.config.cq_size {
            return;
        }
        if let Some(reaped) = self.reaped[cq].get(usize::from(posted)) {
            let head = u16::from(state.fetched[queue]) % self.config.sq_size;
            let phase = u16::from(posted) / self.config.cq_size % 2 == 0;
            let made = cqe_bytes(status, self.cid(flight, flight.posted), u16::from(flight.queue) + 1, head, phase);
            let entry = &self.entries[queue][usize::from(flight.first)];
            let blocks = if flight.op == Some(Op::Read) && status == SUCCESS { entry.item.sqe.blocks as usize } else { 0 };
            if self.options.read(&reaped.cqe) != self.options.read(&made) || reaped.values.as_deref() != Some(&flight.read[..blocks]) {
                return;
            }
        }
        let mut after = *state;
        after.posted[cq] += 1;
        after.flights[place].posted += 1;
        if after.flights[place].posted == flight.taken {
            after.remove(place);
        }
        next.push(after);
    }

    // All that may follow, what is likely best last.
    fn add_all(&self, state: &State, next: &mut Vec<State>) {
        for queue in 0..usize::from(self.config.pairs) {
            self.add_fetch(state, queue, next);
        }
        for place in 0..usize::from(state.count) {
            self.add_grant(state, place, next);
            self.add_blocks(state, place, next);
        }
        for place in 0..usize::from(state.count) {
            self.add_post(state, place, next);
        }
        self.add_line(state, next);
    }
}

// Looks at so many states at most. Where no history is found, some of so many first lines was on the way.
fn search(trace: &Trace, most: usize) -> Said {
    assert!(trace.config.blocks as usize <= MOST_BLOCKS && usize::from(trace.config.jobs) <= MOST_IN_FLIGHT);
    assert!(usize::from(trace.config.pairs) <= MOST_QUEUES && BLOCK == 512);
    let brute = Brute::of_trace(trace);
    let mut seen: HashSet<State, Hashes> = HashSet::default();
    let mut start = State::default();
    if trace.options.contents_unknown {
        start.values = [OPEN; MOST_BLOCKS];
    }
    let mut next = vec![start];
    let mut furthest = 0;
    while let Some(state) = next.pop() {
        furthest = furthest.max(usize::from(state.at));
        if usize::from(state.at) == trace.lines.len() {
            return Said::Explained;
        }
        if seen.insert(state) {
            if seen.len() > most {
                return Said::Undecided;
            }
            brute.add_all(&state, &mut next);
        }
    }
    Said::Not(furthest)
}

/// Looks at so many states at most, of the trace and of some beginnings of it.
pub fn brute(trace: &Trace, most: usize) -> Said {
    let mut said = search(trace, most);
    let Said::Not(furthest) = said else { return said };
    // (what isn't reaped in a beginning is free there)
    for lines in furthest + 1..=trace.lines.len() {
        let front = Trace { config: trace.config, options: trace.options, lines: trace.lines[..lines].to_vec() };
        said = search(&front, most);
        match said {
            Said::Explained => {}
            Said::Not(_) => return Said::Not(lines),
            Said::Undecided => return said,
        }
    }
    said
}
