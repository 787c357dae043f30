//! Do Not Retry: of a failure that would come again, and of no other.
mod common;
use common::{DONE, Folder, blocks, code, host, options, start};
use vandrexu_initiator::{Answer, Command, Host, Queue, Status, Trace, opcode};
use vandrexu_target::Options;

/// The type and the code of a status, and whether it says Do Not Retry.
fn told(answer: &Answer) -> ((u8, u8), bool) {
    (code(answer), answer.status().is_final())
}

/// What a pair is answered: the Compare and the Write.
fn pair(queue: &mut Queue, lba: u64, old: u8, new: u8) -> [((u8, u8), bool); 2] {
    let (first, _) = queue.send_pair(lba, &blocks(old, 1), &blocks(new, 1)).unwrap();
    let mut answers = [0, 1].map(|_| queue.receive().unwrap());
    answers.sort_by_key(|it| it.completion.cid() != first);
    answers.map(|it| told(&it))
}

#[test]
fn what_would_fail_again_says_so_and_what_may_pass_does_not() {
    let target = start(options());
    let mut host = host(&target, 1);
    let queue = &mut host.queues[0];
    let mut of = |command: Command, data: &[u8]| told(&queue.call(command, data, 4096).unwrap());
    let one = blocks(1, 1);
    // by the controller and by the target itself
    assert_eq!(of(Command::blocks(opcode::READ, 4096, 1), &[]), ((0, 0x80), true));
    assert_eq!(of(Command::blocks(opcode::COMPARE, 3, 1), &one), ((2, 0x85), true));
    assert_eq!(of(Command::blocks(opcode::READ, 0, 9), &[]), ((0, 0x0F), true));
    // the other half is missing, or failed
    assert_eq!(of(Command::blocks(opcode::WRITE, 3, 1).fused(2), &one), ((0, 0x0A), false));
    assert_eq!(pair(queue, 3, 1, 2), [((2, 0x85), true), ((0, 9), false)]);
    assert_eq!(pair(queue, 4096, 0, 2), [((0, 0x80), true), ((0, 9), false)]);
    assert_eq!(pair(queue, 3, 0, 2), [(DONE, false); 2]);
}

#[test]
fn over_the_memory_limit_a_command_may_be_tried_again() {
    let target = start(Options { memory: Some(1 << 20), ..options() });
    let mut host = host(&target, 1);
    let read = host.queues[0].call(Command::blocks(opcode::READ, 3, 1), &[], 512).unwrap();
    assert_eq!(told(&read), ((0, 6), false));
    assert_eq!(pair(&mut host.queues[0], 3, 0, 2), [((0, 6), false); 2]);
}

/// The statuses of the completions that a host logged.
fn logged(host: &mut Host, folder: &Folder, give: impl FnOnce(&mut Queue)) -> Vec<Status> {
    let (path, options) = (folder.file("seen"), options());
    let trace = Trace::create(&path, &options.config.to_string(), options.config.cq_size).unwrap();
    let queue = &mut host.queues[0];
    queue.trace = Some(trace.of_queue(1));
    give(queue);
    trace.flush().unwrap();
    let text = std::fs::read_to_string(&path).unwrap();
    let reaps = text.lines().filter_map(|it| it.strip_prefix("reap 1 "));
    // (bytes 14 and 15, whose lowest bit is the phase tag)
    let bytes = reaps.map(|it| [28, 30].map(|at| u8::from_str_radix(&it[at..at + 2], 16).unwrap()));
    bytes.map(|it| Status(u16::from_le_bytes(it) >> 1)).collect()
}

#[test]
fn of_two_commands_with_one_cid_the_later_may_be_tried_again() {
    let (folder, target) = (Folder::new(), start(options()));
    let mut host = host(&target, 1);
    let statuses = logged(&mut host, &folder, |queue| {
        let mut read = Command::blocks(opcode::READ, 3, 1).with(8, 512);
        (read.0[1], read.0[2], read.0[39]) = (0x40, 77, 0x5A);
        // (in one piece, so that the first isn't answered before the second is there)
        let capsule = queue.format().command(&read.0, &[]);
        queue.send_bytes(&[capsule.clone(), capsule].concat()).unwrap();
        // (the initiator knows neither)
        let _ = [0, 1].map(|_| queue.receive().unwrap_err());
    });
    assert_eq!(statuses.len(), 2);
    assert!(statuses.contains(&Status::SUCCESS) && statuses.contains(&Status::CID_CONFLICT), "{statuses:?}");
    assert_eq!(common::write(&mut host, 3, &blocks(4, 1)), DONE);
}
