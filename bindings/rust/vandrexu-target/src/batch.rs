//! From hosts to the controller: what waits is published, as far as there is room.
use crate::completions::Reply;
use crate::engine::{Engine, Later};
use crate::faults::{Plan, own};
use crate::pairs::Sent;
use crate::ring::{Capsule, MOST, has_data};
use std::time::{Duration, Instant};
use vandrexu::{BLOCK, Entry, Error, Result as Step};
use vandrexu_wire::{Command, Status, opcode, u32_at, u64_at};

/// Limited Retry.
const LIMITED_RETRY: u8 = 0x80;
/// Force Unit Access, which is so of each write where there is no volatile cache.
const FORCE_UNIT_ACCESS: u8 = 0x40;

/// How long a command waits that a fault gives the controller later: long enough for a host to look.
const LATE: Duration = Duration::from_millis(20);

impl Engine {
    /// Publishes what waits.
    pub(crate) fn hand_over(&mut self) -> Result<(), Box<dyn std::error::Error>> {
        for at in 0..self.pairs.len() {
            let groups = self.fitting(at);
            if groups.is_empty() {
                continue;
            }
            let is_over = self.memory.is_over();
            let mut published = vec![];
            for group in groups {
                match group[0].verdict {
                    Some(status) => self.answer_here(at, &group, status),
                    None if self.transport_only => self.answer_here(at, &group, Status::SUCCESS),
                    None if is_over => self.answer_here(at, &group, Status::INTERNAL),
                    None => published.push(group),
                }
            }
            self.publish(at, published)?;
        }
        Ok(self.publish_later()?)
    }

    /// The groups for which the ring and the host have room.
    fn fitting(&mut self, at: usize) -> Vec<Vec<Capsule>> {
        let pair = &mut self.pairs[at];
        let mut room = (usize::from(self.config.sq_size) - 1).saturating_sub(pair.unfetched);
        let Some(queue) = &mut pair.queue else { return vec![] };
        let mut found = vec![];
        while let Some(group) = queue.backlog.front() {
            if group.len() > room || queue.is_slow() {
                break;
            }
            room -= group.len();
            found.extend(queue.backlog.pop_front());
        }
        found
    }

    /// Answers commands that the controller isn't given; a Read with zeros.
    fn answer_here(&mut self, at: usize, group: &[Capsule], status: Status) {
        for Capsule { command, .. } in group {
            let zeros = if status.is(Status::SUCCESS) { reads(command) } else { 0 };
            self.replies.push(Reply::of_target(at, command.cid(), status, zeros));
        }
    }

    fn publish(&mut self, at: usize, mut groups: Vec<Vec<Capsule>>) -> Result<(), Box<dyn std::error::Error>> {
        if groups.is_empty() {
            return Ok(());
        }
        for capsule in groups.iter_mut().flatten() {
            self.translate(capsule);
        }
        let asked = groups.iter().flatten().map(|it| (&it.command, &it.data[..]));
        let line = self.trace.publication(at as u16 + 1, asked);
        let mut now = vec![];
        for group in groups {
            let planned = self.planner.plan(group);
            now.extend(planned.now);
            if let Some(capsule) = planned.later {
                self.tell_early(at, capsule);
            }
        }
        // (what the controller had no memory for it never had)
        if self.give(at, now)? {
            self.trace.publish(line)?;
        }
        Ok(())
    }

    /// What of an entry is the transport's, or a hint, is cleared.
    fn translate(&self, capsule: &mut Capsule) {
        let bytes = &mut capsule.command.0;
        bytes[1] &= 0x3F;
        bytes[16..40].fill(0);
        let is_of_blocks = matches!(bytes[0], opcode::WRITE | opcode::READ | opcode::COMPARE | opcode::WRITE_ZEROES);
        if is_of_blocks && !self.strict {
            bytes[51] &= !(LIMITED_RETRY | FORCE_UNIT_ACCESS);
            bytes[52] = 0;
        }
        if !has_data(&capsule.command) {
            capsule.data.clear();
        }
    }

    /// Gives the controller these, or answers them where it has no memory, which is false.
    pub(crate) fn give(&mut self, at: usize, capsules: Vec<(Capsule, Plan)>) -> Step<bool> {
        if capsules.is_empty() {
            return Ok(true);
        }
        if self.planner.wants_the_past() {
            capsules.iter().for_each(|(it, _)| self.keep_past(&it.command));
        }
        let entries: Vec<Entry<'_>> = capsules.iter().map(|(it, _)| Entry::raw(it.command.0, &it.data)).collect();
        match self.disk.publish(at as u16 + 1, &entries) {
            Ok(()) => {}
            Err(Error::NoMemory) => {
                let all: Vec<Capsule> = capsules.into_iter().map(|(it, _)| it).collect();
                self.answer_here(at, &all, Status::INTERNAL);
                return Ok(false);
            }
            Err(other) => return Err(other),
        }
        let pair = &mut self.pairs[at];
        pair.unfetched += capsules.len();
        if let Some(queue) = &mut pair.queue {
            for (capsule, plan) in capsules {
                let command = capsule.command;
                queue.note(Sent { command, reads: reads(&command), plan }, command.cid());
            }
        }
        Ok(true)
    }

    /// Tells a Write as done, and gives it to the controller later.
    fn tell_early(&mut self, at: usize, mut capsule: Capsule) {
        self.replies.push(Reply::of_target(at, capsule.command.cid(), Status::SUCCESS, 0));
        capsule.command = own(&capsule.command);
        self.delay(at, capsule, Plan::Silent);
    }

    /// Gives the controller a command a little later.
    pub(crate) fn delay(&mut self, at: usize, capsule: Capsule, plan: Plan) {
        // (no other queue has the pair before)
        self.pairs[at].queue.iter_mut().for_each(|it| it.outstanding += 1);
        self.later.push_back(Later { at, capsule, plan, due: Instant::now() + LATE });
    }

    fn publish_later(&mut self) -> Step<()> {
        while self.later.front().is_some_and(|it| it.due <= Instant::now()) {
            let Some(Later { at, capsule, plan, .. }) = self.later.pop_front() else { break };
            self.pairs[at].queue.iter_mut().for_each(|it| it.outstanding -= 1);
            self.give(at, vec![(capsule, plan)])?;
        }
        Ok(())
    }

    /// Keeps what the blocks of a Write hold now.
    fn keep_past(&mut self, command: &Command) {
        let (slba, count) = (u64_at(&command.0, 40), command.count() as u64);
        if command.opcode() == opcode::WRITE {
            for lba in slba..slba.saturating_add(count) {
                if let Ok(block) = self.disk.medium(lba) {
                    self.past.insert(lba, block);
                }
            }
        }
    }
}

/// How many bytes a Read brings, at the most.
fn reads(command: &Command) -> usize {
    let is_read = command.opcode() == opcode::READ && u32_at(&command.0, 4) == 1;
    if is_read { (command.count() * BLOCK).min(MOST) } else { 0 }
}
