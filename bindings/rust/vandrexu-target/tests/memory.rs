//! A target at its limit of memory, and one that is let have little. Its process is the test's, so one test runs at a time.
mod common;
use common::{DONE, Folder, blocks, code, dial, host, options, start, until, write};
use std::sync::{Mutex, MutexGuard, PoisonError};
use vandrexu_initiator::{BLOCK, Command, Dial, Host, Queue, opcode};
use vandrexu_target::Options;

/// No other test has memory meanwhile.
fn alone() -> MutexGuard<'static, ()> {
    static ALONE: Mutex<()> = Mutex::new(());
    ALONE.lock().unwrap_or_else(PoisonError::into_inner)
}

/// The resident memory of this process, in bytes.
fn resident() -> u64 {
    let now = std::fs::read_to_string("/proc/self/statm").unwrap();
    now.split(' ').nth(1).unwrap().parse::<u64>().unwrap() * 4096
}

#[test]
fn a_target_keeps_no_step_that_it_wrote_down() {
    let _alone = alone();
    let folder = Folder::new();
    for history in [None, Some(folder.file("history"))] {
        let target = start(Options { history, memory: Some(resident() + (64 << 20)), ..options() });
        let mut host = host(&target, 1);
        for round in 0..1000u32 {
            let data = blocks(round as u8, 256);
            let answer = host.queues[0].call(Command::blocks(opcode::WRITE, 0, 256), &data, 0).unwrap();
            assert_eq!(code(&answer), DONE, "Write {round} of 128 KiB");
        }
    }
}

#[test]
fn over_its_memory_limit_a_target_answers_each_command() {
    let _alone = alone();
    let target = start(Options { memory: Some(1 << 20), ..options() });
    let mut host = host(&target, 1);
    for round in 0..50 {
        assert_eq!(write(&mut host, 0, &blocks(round, 1)), (0, 6));
    }
    assert_eq!(code(&host.identify(1, 0).unwrap()), DONE);
}

#[test]
fn what_a_target_took_before_its_limit_is_answered_behind_it() {
    let _alone = alone();
    let target = start(Options { memory: Some(resident() + (64 << 20)), seed: Some(2), ..options() });
    let mut host = Host::connect(&Dial { slots: 64, ..dial(&target) }, 1).unwrap();
    let queue = &mut host.queues[0];
    let read = Command::blocks(opcode::READ, 0, 256);
    let answered = |queue: &mut Queue| code(&queue.receive().unwrap());
    for _ in 0..30 {
        queue.send(read, &[], 256 * BLOCK).unwrap();
    }
    assert_eq!(answered(queue), DONE);
    // (this process is the target's, too)
    let ballast = vec![1u8; 128 << 20];
    until("it refuses", || {
        queue.send(Command::blocks(opcode::FLUSH, 0, 0), &[], 0).unwrap();
        let told = answered(queue);
        assert!([DONE, (0, 6)].contains(&told), "{told:?}");
        told == (0, 6)
    });
    while queue.in_flight() > 0 {
        assert!([DONE, (0, 6)].contains(&answered(queue)));
    }
    assert_eq!(ballast[ballast.len() / 2], 1);
    drop(ballast);
    until("it takes commands again", || code(&queue.call(read, &[], 256 * BLOCK).unwrap()) == DONE);
}

#[test]
fn where_the_library_has_no_memory_what_it_took_is_answered_once_it_has() {
    let _alone = alone();
    let folder = Folder::new();
    let trace = folder.file("trace");
    let target = start(Options { trace: Some(trace.clone()), ..options() });
    let mut host = Host::connect(&Dial { slots: 64, ..dial(&target) }, 1).unwrap();
    let queue = &mut host.queues[0];
    // (less than the data of one Write, and enough for the entry of a Read, whose data is due once it was taken; how many
    // of those behind the first come at once, and want more, is the machine's)
    let used = vandrexu::heap_used();
    vandrexu::heap_limit(used + 6000);
    let (write, data) = (Command::blocks(opcode::WRITE, 0, 16), blocks(1, 16));
    for read in 0..8 {
        queue.send(Command::blocks(opcode::READ, 0, 256), &[], 256 * BLOCK).unwrap();
        until("the first is taken", || read > 0 || vandrexu::heap_used() > used);
    }
    for _ in 0..30 {
        queue.send(write, &data, 0).unwrap();
    }
    std::thread::sleep(std::time::Duration::from_millis(300));
    vandrexu::heap_limit(usize::MAX);
    let answers: Vec<_> = (0..38).map(|_| queue.receive().unwrap()).collect();
    let of = |due| answers.iter().filter(|it| code(it) == due && !it.status().is_final()).count();
    assert_eq!(of(DONE) + of((0, 6)), 38);
    assert!(of((0, 6)) >= 30 && of(DONE) > 0, "{} were refused", of((0, 6)));
    assert_eq!(code(&queue.call(write, &data, 0).unwrap()), DONE);
    drop(host);
    drop(target);
    // (of what was refused it says nothing)
    assert!(common::is_explained(&trace));
}
