//! Each I/O command, as a host sends it over a connection.
mod common;
use common::{DONE, Folder, blocks, code, dial, host, is_explained, is_legal, options, read, start, until, write};
use std::path::Path;
use std::time::Duration;
use vandrexu::Checker;
use vandrexu_initiator::{BLOCK, Command, Dial, Host, Status, fabrics, opcode};
use vandrexu_target::{Config, Options};

#[test]
fn what_is_written_is_read_in_the_capsule_and_by_r2t() {
    let target = start(options());
    let mut host = host(&target, 1);
    assert_eq!(read(&mut host, 0, 2), blocks(0, 2));
    for (slba, count) in [(0, 1), (8, 16), (32, 17), (64, 256)] {
        let data: Vec<u8> = (0..count * BLOCK).map(|it| (it * 7 % 251) as u8).collect();
        assert_eq!(write(&mut host, slba, &data), DONE);
        assert_eq!(read(&mut host, slba, count), data, "{count} blocks");
    }
}

#[test]
fn digests_and_alignment_are_kept() {
    let target = start(options());
    let ways = [(true, false, 4, 8192), (false, true, 16, 512), (true, true, 128, 0), (false, false, 64, 0)];
    for (header_digest, data_digest, alignment, in_capsule) in ways {
        let mine = Dial { header_digest, data_digest, alignment, in_capsule, ..dial(&target) };
        let mut host = Host::connect(&mine, 1).unwrap();
        for count in [1, 16, 100] {
            let data: Vec<u8> = (0..count * BLOCK).map(|it| (it * 13 % 241) as u8).collect();
            assert_eq!(write(&mut host, 5, &data), DONE);
            assert_eq!(read(&mut host, 5, count), data);
        }
        let found = read(&mut host, 5, 1);
        assert!(host.queues[0].compare_and_write(5, &found, &blocks(1, 1)).unwrap());
    }
}

#[test]
fn each_command_is_answered_by_its_status() {
    let target = start(options());
    let mut host = host(&target, 1);
    let queue = &mut host.queues[0];
    let mut status = |command: Command, data: &[u8]| {
        let answer = queue.call(command, data, 4096).unwrap();
        (code(&answer), answer.status().is_final())
    };
    let one = blocks(7, 1);
    assert_eq!(status(Command::blocks(opcode::WRITE, 3, 1), &one), (DONE, false));
    assert_eq!(status(Command::blocks(opcode::COMPARE, 3, 1), &one), (DONE, false));
    assert_eq!(status(Command::blocks(opcode::COMPARE, 4, 1), &one), ((2, 0x85), true));
    assert_eq!(status(Command::blocks(opcode::WRITE_ZEROES, 3, 1), &[]), (DONE, false));
    assert_eq!(status(Command::blocks(opcode::COMPARE, 3, 1), &blocks(0, 1)), (DONE, false));
    assert_eq!(status(Command::blocks(opcode::FLUSH, 0, 0), &[]), (DONE, false));
    assert_eq!(status(Command::blocks(opcode::READ, 4096, 1), &[]), ((0, 0x80), true));
    assert_eq!(status(Command::blocks(opcode::READ, 3, 1).with(1, 2), &[]), ((0, 0x0B), true));
    assert_eq!(status(Command::blocks(0x09, 3, 1), &one), ((0, 0x01), true), "Dataset Management");
    assert_eq!(status(Command::blocks(0x0C, 3, 1), &[]), ((0, 0x01), true), "Verify");
    assert_eq!(status(Command::blocks(opcode::READ, 0, 9), &[]), ((0, 0x0F), true), "room for 8 blocks");
    let too_long = code(&host.queues[0].call(Command::blocks(opcode::READ, 0, 257), &[], 257 * BLOCK).unwrap());
    assert_eq!(too_long, (0, 0x02));
    let short = code(&host.queues[0].call(Command::blocks(opcode::WRITE, 0, 2), &one, 0).unwrap());
    assert_ne!(short, DONE);
}

#[test]
fn hints_are_cleared_unless_the_target_is_strict() {
    let hints = [(12, 1 << 31 | 1), (12, 1 << 30 | 1), (13, 7)];
    for strict in [false, true] {
        let target = start(Options { strict, ..options() });
        let mut host = host(&target, 1);
        for (dword, bits) in hints {
            for opcode in [opcode::READ, opcode::WRITE, opcode::COMPARE, opcode::WRITE_ZEROES] {
                let command = Command::blocks(opcode, 0, 2).with(dword, bits);
                let data = if matches!(opcode, opcode::WRITE | opcode::COMPARE) { blocks(0, 2) } else { vec![] };
                let answer = host.queues[0].call(command, &data, 2 * BLOCK).unwrap();
                let due = if strict { (0, 2) } else { DONE };
                assert_eq!(code(&answer), due, "opcode {opcode}, dword {dword}: {bits:X}");
            }
        }
    }
}

#[test]
fn a_pair_in_two_capsules_is_one_unit() {
    let folder = Folder::new();
    let history = folder.file("history");
    let pair_wait = Duration::from_secs(30);
    let target = start(Options { history: Some(history.clone()), pair_wait, ..options() });
    let mut host = host(&target, 1);
    let queue = &mut host.queues[0];
    assert!(queue.compare_and_write(9, &blocks(0, 1), &blocks(1, 1)).unwrap());
    assert!(!queue.compare_and_write(9, &blocks(0, 1), &blocks(2, 1)).unwrap());
    // by R2T, and with a while between the two
    let (old, new) = (blocks(0, 8), blocks(3, 8));
    let compare = Command::blocks(opcode::COMPARE, 16, 8).fused(1);
    queue.send(compare, &old, 0).unwrap();
    std::thread::sleep(Duration::from_millis(300));
    queue.send(Command::blocks(opcode::WRITE, 16, 8).fused(2), &new, 0).unwrap();
    assert_eq!([0, 1].map(|_| code(&queue.receive().unwrap())), [DONE, DONE]);
    assert_eq!(read(&mut host, 16, 8), new);
    assert_eq!(read(&mut host, 9, 1), blocks(1, 1));
    drop(host);
    drop(target);
    is_legal(&history);
    let pairs = std::fs::read_to_string(&history).unwrap().lines().filter(|it| it.contains(" 2 ok")).count();
    assert_eq!(pairs, 3);
}

#[test]
fn half_of_a_pair_is_answered_as_the_tables_say() {
    let target = start(options());
    let mut host = host(&target, 1);
    let queue = &mut host.queues[0];
    let one = blocks(0, 1);
    let first = Command::blocks(opcode::COMPARE, 3, 1).fused(1);
    let second = Command::blocks(opcode::WRITE, 3, 1).fused(2);
    let missing = Status::MISSING_FUSED.code();
    // a first that nothing follows, a second by itself, a first before another command
    assert_eq!(code(&queue.call(first, &one, 0).unwrap()), missing);
    assert_eq!(code(&queue.call(second, &one, 0).unwrap()), missing);
    queue.send_all(&[(first, &one), (Command::blocks(opcode::WRITE, 3, 1), &one)], 0).unwrap();
    let mut codes = [0, 1].map(|_| code(&queue.receive().unwrap()));
    codes.sort_unstable();
    assert_eq!(codes, [DONE, missing]);
    // a first before a pair
    queue.send_all(&[(first, &one), (first, &one), (second, &one)], 0).unwrap();
    let mut codes = [0, 1, 2].map(|_| code(&queue.receive().unwrap()));
    codes.sort_unstable();
    assert_eq!(codes, [DONE, DONE, missing]);
}

#[test]
fn a_pair_of_which_the_target_refuses_one_is_a_half() {
    let target = start(options());
    let mut host = host(&target, 1);
    let queue = &mut host.queues[0];
    let one = blocks(0, 1);
    let second = Command::blocks(opcode::WRITE, 3, 1).fused(2);
    let disconnect = Command::fabrics(fabrics::DISCONNECT).fused(1);
    let cids = queue.send_all(&[(disconnect, &[]), (second, &blocks(1, 1))], 0).unwrap();
    let answers = [0, 1].map(|_| queue.receive().unwrap());
    for it in answers {
        let due = if it.completion.cid() == cids[0] { DONE } else { Status::MISSING_FUSED.code() };
        assert_eq!(code(&it), due);
    }
    // a second that is a Read with too little room
    let first = Command::blocks(opcode::COMPARE, 3, 1).fused(1);
    let cids = queue.send_all(&[(first, &one), (Command::blocks(opcode::READ, 3, 1).fused(2), &[])], 0).unwrap();
    for it in [0, 1].map(|_| queue.receive().unwrap()) {
        let due = if it.completion.cid() == cids[0] { Status::MISSING_FUSED.code() } else { (0, 0x0F) };
        assert_eq!(code(&it), due);
    }
    assert_eq!(read(&mut host, 3, 1), one);
}

#[test]
fn heads_on_the_wire_count_the_entries_of_the_hosts_own_queue() {
    let target = start(options());
    for slots in [4, 32] {
        let mut host = Host::connect(&Dial { slots, ..dial(&target) }, 1).unwrap();
        // (Connect was one)
        let mut taken = 1;
        for round in 0..70 {
            if round % 3 == 0 {
                let cids = host.queues[0].send_pair(3, &blocks(0, 1), &blocks(0, 1)).unwrap();
                taken += 2;
                let answers = [0, 1].map(|_| host.queues[0].receive().unwrap());
                assert!(answers.iter().all(|it| [cids.0, cids.1].contains(&it.completion.cid())));
                assert_eq!(answers[1].completion.sqhd(), taken % slots);
            } else {
                let answer = host.queues[0].call(Command::blocks(opcode::FLUSH, 0, 0), &[], 0).unwrap();
                taken += 1;
                let it = answer.completion;
                assert_eq!((it.sqhd(), it.sqid(), it.0[14] & 1), (taken % slots, 1, 0), "round {round}");
            }
        }
    }
}

/// The completions of a target's own trace: head, phase tag and CID.
fn reaped(trace: &Path) -> Vec<(u16, u8, u16)> {
    let text = std::fs::read_to_string(trace).unwrap();
    let cqes = text.lines().filter_map(|it| it.strip_prefix("reap ")?.split(' ').nth(1));
    let byte = |hex: &str, at: usize| u8::from_str_radix(&hex[2 * at..2 * at + 2], 16).unwrap();
    let two = |hex: &str, at| u16::from_le_bytes([byte(hex, at), byte(hex, at + 1)]);
    cqes.map(|it| (two(it, 8), byte(it, 14) & 1, two(it, 12))).collect()
}

#[test]
fn numbers_begin_anew_for_each_host_where_the_controllers_go_on() {
    let (folder, slots) = (Folder::new(), 4);
    let trace = folder.file("trace");
    let config = Config::of_line("config 64 7 7 0 0 1 16 8 8").unwrap();
    let target = start(Options { config, trace: Some(trace.clone()), ..options() });
    let mut seen = vec![];
    for number in 0..5 {
        let dial = Dial { slots, ..dial(&target) }.named(&format!("nqn.{number}"));
        let mut host = Host::connect(&dial, 1).unwrap();
        for _ in 0..7 {
            let it = host.queues[0].call(Command::blocks(opcode::FLUSH, 0, 0), &[], 0).unwrap().completion;
            seen.push((it.sqhd(), it.0[14] & 1, it.cid()));
        }
        drop(host);
        until("it left", || target.connections() == 0);
    }
    drop(target);
    // on the wire: the entry of Connect, then one each time; in the controller one queue for all, with its own size and laps
    let wire = (0..35).map(|at| (((at % 7 + 2) % slots), 0)).collect::<Vec<_>>();
    let own = (0..35).map(|at| ((at + 1) % 16, 1 - (at / 8 % 2) as u8)).collect::<Vec<_>>();
    let heads = |it: &[(u16, u8, u16)]| it.iter().map(|it| (it.0, it.1)).collect::<Vec<_>>();
    let told = reaped(&trace);
    assert_eq!((heads(&seen), heads(&told)), (wire, own));
    assert!(seen.iter().map(|it| it.2).eq(told.iter().map(|it| it.2)), "each is of the same command");
}

#[test]
fn each_step_is_in_the_history_before_a_host_hears_of_it() {
    let folder = Folder::new();
    let path = folder.file("history");
    let options = Options { history: Some(path.clone()), seed: Some(3), ..options() };
    let mut checker = Checker::new(&options.config).unwrap();
    let target = start(options);
    let mut host = host(&target, 1);
    let (mut read, mut reaps) = (0, 0);
    for round in 1..=50 {
        assert!(host.queues[0].compare_and_write(9, &blocks(round - 1, 1), &blocks(round, 1)).unwrap());
        // what was appended since, as `casdisk check --follow` reads it while the target runs
        let text = std::fs::read_to_string(&path).unwrap();
        let new = &text[read..text.rfind('\n').map_or(0, |it| it + 1)];
        for line in new.lines().skip(usize::from(read == 0)) {
            checker.take_line(line).unwrap();
            reaps += usize::from(line.starts_with("reap "));
        }
        read += new.len();
        assert_eq!(reaps, 2 * usize::from(round), "both completions are written down");
    }
}

/// Eight blocks that hold this number, and no others do.
fn unlike(number: u64) -> Vec<u8> {
    let mut out = blocks(0, 8);
    for (at, block) in out.chunks_mut(BLOCK).enumerate() {
        block[..8].copy_from_slice(&(number * 8 + at as u64 + 1).to_le_bytes());
    }
    out
}

#[test]
fn commands_in_flight_end_in_another_order_by_a_seed_and_all_is_explained() {
    let folder = Folder::new();
    let (history, trace) = (folder.file("history"), folder.file("trace"));
    let (asked, seen) = (Some(history.clone()), Some(trace.clone()));
    let target = start(Options { history: asked, trace: seen, seed: Some(7), ..options() });
    let mut host = host(&target, 2);
    let (mut in_order, mut last) = (true, [0; 2]);
    for round in 0..20u64 {
        for (at, queue) in host.queues.iter_mut().enumerate() {
            let data: Vec<_> = (0..8).map(|slba| unlike(round * 16 + slba * 2 + at as u64)).collect();
            let of = |opcode, slba: u64| Command::blocks(opcode, slba * 4, 8);
            let pairs = (0..8)
                .zip(&data)
                .flat_map(|(slba, data)| [(of(opcode::WRITE, slba), &data[..]), (of(opcode::READ, slba), &[])]);
            // (in one piece, so that the target has them together on a machine of one processor, too)
            queue.send_all(&pairs.collect::<Vec<_>>(), 8 * BLOCK).unwrap();
        }
        for (at, queue) in host.queues.iter_mut().enumerate() {
            while queue.in_flight() > 0 {
                let answer = queue.receive().unwrap();
                assert_eq!(code(&answer), DONE);
                in_order &= answer.completion.cid() > last[at];
                last[at] = answer.completion.cid();
            }
        }
    }
    assert!(!in_order);
    drop(host);
    drop(target);
    is_legal(&history);
    assert!(is_explained(&trace));
    let told = vandrexu::certify_text(std::fs::read(&trace).unwrap(), std::fs::read(&history).unwrap());
    assert_eq!(told.unwrap(), b"explained\n");
}

#[test]
fn queues_come_and_go_and_leave_nothing() {
    let target = start(options());
    for round in 0..60 {
        // (a host that left has its queues until the target saw it leave)
        until("queues are free", || target.connections() <= 10);
        let mut host = host(&target, 4);
        for queue in &mut host.queues {
            for slba in 0..8 {
                queue.send(Command::blocks(opcode::WRITE, slba, 8), &blocks(round, 8), 0).unwrap();
            }
        }
        // (the host leaves with commands in flight)
    }
    until("all queues are free", || target.connections() == 0);
    let mut host = host(&target, 16);
    assert_eq!(host.queues.len(), 16);
    assert_eq!(write(&mut host, 1, &blocks(9, 1)), DONE);
    assert_eq!(read(&mut host, 1, 1), blocks(9, 1));
}

#[test]
fn a_host_that_comes_again_has_the_queue_pair_that_it_had() {
    let folder = Folder::new();
    let trace = folder.file("trace");
    let target = start(Options { trace: Some(trace.clone()), ..options() });
    let of = |number: u8| Host::connect(&dial(&target).named(&format!("nqn.{number}")), 1).unwrap();
    let write_to = |host: &mut Host, lba: u8| assert_eq!(write(host, lba.into(), &blocks(lba, 1)), DONE);
    let mut stays = of(20);
    assert!(target.has("nqn.20") && !target.has("nqn.2"));
    let visit = |number, lba| {
        write_to(&mut of(number), lba);
        until("it left", || target.connections() == 2);
    };
    for round in 0..8 {
        for number in [1, 2, 3 + round] {
            visit(number, number);
        }
        // (by a second connection it has another pair)
        visit(20, 99);
        write_to(&mut stays, 20);
    }
    assert!(!target.has("nqn.1") && !target.has("nqn.10"));
    drop(stays);
    drop(target);
    // each host's pair, by the block that it wrote
    let mut pairs: Vec<(String, String)> = std::fs::read_to_string(&trace)
        .unwrap()
        .lines()
        .filter_map(|it| it.strip_prefix("publish ")?.split_once(' '))
        .map(|(pair, entry)| (pair.to_string(), entry[80..82].to_string()))
        .collect();
    pairs.sort();
    pairs.dedup();
    // hosts 1 to 10, and 20, whose second connections have one
    assert_eq!(pairs.len(), 12, "{pairs:?}");
}

#[test]
fn a_target_that_is_a_transport_only_does_nothing_and_answers_each_command() {
    let folder = Folder::new();
    let history = folder.file("history");
    let target = start(Options { transport_only: true, history: Some(history.clone()), ..options() });
    let mut host = host(&target, 1);
    assert_eq!(write(&mut host, 3, &blocks(7, 40)), DONE);
    assert_eq!(read(&mut host, 3, 40), blocks(0, 40));
    assert!(host.queues[0].compare_and_write(3, &blocks(1, 1), &blocks(2, 1)).unwrap());
    let (none, beyond) = (Command::blocks(opcode::FLUSH, 0, 0), Command::blocks(opcode::READ, 3, 2));
    assert_eq!(code(&host.queues[0].call(none, &[], 0).unwrap()), DONE);
    assert_eq!(code(&host.queues[0].call(beyond, &[], BLOCK).unwrap()), (0, 0x0F));
    assert_eq!(host.queues[0].call(none, &[], 0).unwrap().completion.sqhd(), 8);
    drop(host);
    drop(target);
    assert_eq!(std::fs::read_to_string(history).unwrap().lines().count(), 1);
}

/// A Write of one block, with this data descriptor.
fn described(kind: u8, offset: u8, length: u32) -> Command {
    let mut it = Command::blocks(opcode::WRITE, 3, 1).with(8, length);
    (it.0[1], it.0[24], it.0[39]) = (0x40, offset, kind);
    it
}

#[test]
fn data_descriptors_are_followed_or_refused_by_their_status() {
    let target = start(options());
    let mut host = host(&target, 1);
    let queue = &mut host.queues[0];
    let mut status = |command: Command, inside: &[u8]| {
        queue.send_as_it_is(command, inside, &blocks(9, 1)).unwrap();
        code(&queue.receive().unwrap())
    };
    assert_eq!(status(described(0x01, 0, 512), &blocks(1, 1)), DONE);
    assert_eq!(status(described(0x01, 8, 512), &[&[0; 8][..], &blocks(2, 1)].concat()), DONE);
    assert_eq!(status(described(0x01, 8, 512), &blocks(3, 1)), (0, 0x0F), "less in the capsule");
    assert_eq!(status(described(0x01, 200, 512), &[0; 100]), (0, 0x16), "the offset lies behind");
    assert_eq!(status(described(0x00, 0, 512), &[]), (0, 0x11), "a type that a target can't have");
    assert_eq!(status(described(0x5A, 0, 512), &[]), DONE, "by R2T");
    assert_ne!(status(described(0x5A, 0, 1 << 30), &[]), DONE, "more than any command has: it isn't asked for");
    assert_eq!(read(&mut host, 3, 1), blocks(9, 1));
}
