//! From the controller to hosts: completions, as each host's queue has them.
use crate::engine::Engine;
use crate::faults::{FaultKind, Plan};
use crate::pairs::Sent;
use vandrexu::{BLOCK, Error, Reaped};
use vandrexu_wire::{Command, Completion, Status, u64_at};

/// An answer that goes out once all is written down.
#[derive(Debug)]
pub(crate) struct Reply {
    /// Which pair.
    at: usize,
    completion: Completion,
    data: Vec<u8>,
    /// How many entries of the host's queue were taken since the last reply.
    taken: u16,
    /// The phase tag that is right.
    phase: u8,
    /// By how many the head is too many, on purpose.
    skew: u16,
    /// Whether the trace has it already.
    is_traced: bool,
}

impl Reply {
    /// The target's own answer to a command that the controller isn't given, with as many zeros.
    pub(crate) fn of_target(at: usize, cid: u16, status: Status, zeros: usize) -> Reply {
        let completion = Completion::new(cid, status, 0);
        Reply { at, completion, data: vec![0; zeros], taken: 1, phase: 0, skew: 0, is_traced: true }
    }
}

/// The statuses without Do Not Retry: success, and those of a command that may succeed later, since its other half failed, its data
/// was spoilt on the way, another command had its CID, or there was no memory.
const MAY_PASS: [Status; 6] = [
    Status::SUCCESS,
    Status::FAILED_FUSED,
    Status::MISSING_FUSED,
    Status::TRANSPORT,
    Status::CID_CONFLICT,
    Status::INTERNAL,
];

type Done = Result<(), Box<dyn std::error::Error>>;

impl Engine {
    /// Reaps each completion queue until nothing is there.
    pub(crate) fn reap(&mut self) -> Done {
        for queue in 1..=self.config.cqs {
            loop {
                match self.disk.reap(queue) {
                    Ok(reaped) => self.completed(queue, reaped)?,
                    Err(Error::NoCompletion) => break,
                    Err(other) => return Ok(self.lacking(other)?),
                }
            }
        }
        Ok(())
    }

    fn completed(&mut self, queue: u16, reaped: Reaped) -> Done {
        let completion = Completion(reaped.completion.0);
        let at = usize::from(completion.sqid()) - 1;
        let (size, pair) = (self.config.sq_size, &mut self.pairs[at]);
        let taken = (completion.sqhd() + size - pair.head) % size;
        pair.head = completion.sqhd();
        let is_conflict = completion.status().is(Status::CID_CONFLICT);
        let Some(sent) = pair.queue.as_mut().and_then(|it| it.taken(completion.cid(), is_conflict)) else {
            return Err(format!("a completion of no command: {completion:?}").into());
        };
        let phase = completion.0[14] & 1;
        let reply = Reply { at, completion, data: reaped.data, taken, phase, skew: 0, is_traced: false };
        for reply in self.follow(reply, sent)? {
            self.trace_reply(queue, &reply)?;
            self.replies.push(reply);
        }
        Ok(())
    }

    fn trace_reply(&mut self, queue: u16, reply: &Reply) -> std::io::Result<()> {
        if reply.is_traced { Ok(()) } else { self.trace.reap(queue, &reply.completion, &reply.data) }
    }

    /// What the host is told, by the plan of the command.
    fn follow(&mut self, mut reply: Reply, sent: Sent) -> Result<Vec<Reply>, Error> {
        let is_done = reply.completion.status().is(Status::SUCCESS);
        match sent.plan {
            Plan::Plain => Ok(vec![reply]),
            Plan::Silent => Ok(vec![]),
            Plan::Half(rest) if is_done => {
                self.delay(reply.at, *rest, Plan::Plain);
                Ok(vec![])
            }
            Plan::Half(_) => Ok(vec![reply]),
            Plan::Then(write) if is_done => {
                // (so that another host's pair comes between the two, however its machine takes turns)
                self.delay(reply.at, *write, Plan::Plain);
                Ok(vec![reply])
            }
            Plan::Then(write) => {
                let failed = reply.completion.of_command(write.command.cid()).with(Status::FAILED_FUSED);
                let other = Reply { completion: failed, data: vec![], taken: 1, ..reply };
                Ok(vec![reply, other])
            }
            Plan::Despite(write) => {
                // (of a host that is gone, too)
                if !is_done {
                    self.give(reply.at, vec![(*write, Plan::Silent)])?;
                }
                Ok(vec![reply])
            }
            Plan::Wrong(kind) => {
                let size = self.config.sq_size;
                self.spoil(&mut reply, &sent.command, kind, size);
                Ok(match kind {
                    FaultKind::LostCompletion => vec![],
                    FaultKind::DoubleCompletion => {
                        let again = Reply { data: reply.data.clone(), taken: 0, ..reply };
                        vec![reply, again]
                    }
                    _ => vec![reply],
                })
            }
        }
    }

    /// Makes a reply wrong.
    fn spoil(&self, reply: &mut Reply, command: &Command, kind: FaultKind, size: u16) {
        let it = &mut reply.completion;
        let status = it.status();
        let (compared, second) = (status.is(Status::COMPARE_FAILURE), status.is(Status::FAILED_FUSED));
        match kind {
            FaultKind::FalseEqual if compared || second => *it = it.with(Status::SUCCESS),
            FaultKind::FalseDiffers if status.is(Status::SUCCESS) => {
                let first = command.fuse() == 1;
                *it = it.with(if first { Status::COMPARE_FAILURE } else { Status::FAILED_FUSED });
            }
            FaultKind::SwappedPair if compared => *it = it.with(Status::FAILED_FUSED),
            FaultKind::SwappedPair if second => *it = it.with(Status::COMPARE_FAILURE),
            FaultKind::WrongPhase => it.0[14] ^= 1,
            FaultKind::WrongHead => {
                *it = it.of_queue(it.sqid(), (it.sqhd() + 1) % size);
                reply.skew = 1;
            }
            FaultKind::FlippedBit => {
                if let Some(byte) = reply.data.first_mut() {
                    *byte ^= 1;
                }
            }
            FaultKind::StaleRead => {
                let slba = u64_at(&command.0, 40);
                for (lba, block) in (slba..).zip(reply.data.chunks_exact_mut(BLOCK)) {
                    if let Some(past) = self.past.get(&lba) {
                        block.copy_from_slice(past);
                    }
                }
            }
            _ => {}
        }
    }

    /// Sends the replies.
    pub(crate) fn reply(&mut self) {
        for reply in self.replies.drain(..) {
            let Some(queue) = &mut self.pairs[reply.at].queue else { continue };
            queue.fetched += u64::from(reply.taken);
            let mut it = queue.on_the_wire(&reply.completion, reply.phase, reply.skew);
            let status = it.status();
            // (the same command would fail in the same way)
            if !MAY_PASS.iter().any(|it| status.is(*it)) {
                it = it.with(status.no_retry());
            }
            if let Some(out) = &queue.out {
                out.answer(&it, &reply.data);
            }
        }
    }
}
