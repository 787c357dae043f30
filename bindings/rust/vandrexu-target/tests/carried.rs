//! Hosts with the library's driver over a connection: what they are answered, and what their log says.
mod common;
use common::{Folder, blocks, dial, give_way, is_explained, is_legal, options, start, until};
use std::io::Write;
use std::net::{TcpListener, TcpStream};
use std::sync::atomic::{AtomicU32, Ordering};
use std::thread;
use std::time::Duration;
use vandrexu::{Error as Fault, Name, RemoteHost, RemoteSlotHost, Reply};
use vandrexu_initiator::{BLOCK, Carrier, Dial, Error, Holder, Host, Result, Trace};
use vandrexu_target::{Config, FaultKind, Options, Target};
use vandrexu_wire::{Command, Completion, Format, Reader, Side, Status, kind, opcode};

/// The most blocks of a pair of these targets, 0's based.
const ACWU: u16 = 7;

/// The slots: the blocks 64 to 67.
const FIRST: u64 = 64;
const COUNT: u32 = 4;

/// A host with one queue, which has a driver of this number.
fn plain(dial: &Dial, number: u32) -> Result<(Host, Carrier<RemoteHost>)> {
    let mut host = Host::connect(&dial.clone().named(&format!("nqn.host-{number}")), 1)?;
    let carrier = host.carrier(|queue| RemoteHost::with_slots(number, queue, ACWU, FIRST, COUNT))?;
    Ok((host, carrier))
}

/// A host with one queue, which has a slot host of this number, with serials above this one.
fn slots(dial: &Dial, number: u32, serial: u64) -> (Host, Carrier<RemoteSlotHost>) {
    let mut host = Host::connect(&dial.clone().named(&format!("nqn.host-{number}")), 1).expect("a connection");
    let carrier = host.carrier(|queue| RemoteSlotHost::new(number, queue, FIRST, COUNT, serial)).expect("memory");
    (host, carrier)
}

/// So many blocks, unlike those of another number.
fn unlike(number: u8, count: usize) -> Vec<u8> {
    (0..count * BLOCK).map(|at| (at % 251) as u8 ^ number).collect()
}

#[test]
fn what_is_begun_is_answered_whatever_is_asked_for_first() {
    let target = start(options());
    // data in capsules and by R2T, with and without digests; the last queue takes two commands at once
    let ways = [(false, 8192, 32), (true, 0, 32), (true, 512, 3)];
    for (digests, in_capsule, slots) in ways {
        let way =
            Dial { header_digest: digests, data_digest: digests, alignment: 16, in_capsule, slots, ..dial(&target) };
        let (_host, mut carrier) = plain(&way, 1).unwrap();
        let sizes = [1, 8, 16, 17, 40, 256];
        let places = [128, 130, 140, 160, 180, 256];
        let begun: Vec<_> = sizes
            .iter()
            .zip(places)
            .map(|(count, lba)| carrier.driver().write(lba, &unlike(lba as u8, *count)).unwrap())
            .collect();
        let (first, last) = (unlike(128, 1), unlike(1, 1));
        for call in begun.into_iter().rev() {
            assert_eq!(carrier.reply(call).unwrap(), Reply::Written);
        }
        let reads: Vec<_> =
            sizes.iter().zip(places).map(|(count, lba)| carrier.driver().read(lba, *count as u32).unwrap()).collect();
        let swap = carrier.driver().compare_and_write(128, &first, &last).unwrap();
        let zeroed = carrier.driver().write_zeroes(8, 256).map(|_| ()).err();
        assert_eq!(zeroed, Some(Fault::CallSlotArea));
        for ((call, lba), count) in reads.into_iter().zip(places).zip(sizes).skip(1).rev() {
            assert_eq!(carrier.reply(call).unwrap(), Reply::Read(unlike(lba as u8, count)), "{count} blocks");
        }
        assert_eq!(carrier.reply(swap).unwrap(), Reply::Swapped);
        let compared = carrier.driver().compare(128, &first).unwrap();
        assert_eq!(carrier.reply(compared).unwrap(), Reply::Differs);
        let zeroed = carrier.driver().write_zeroes(128, 1).unwrap();
        let compared = carrier.driver().compare(129, &first).unwrap();
        assert_eq!(carrier.reply(zeroed).unwrap(), Reply::Written);
        assert_eq!(carrier.reply(compared).unwrap(), Reply::Differs);
        assert!(matches!(carrier.reply(compared), Err(Error::Driver(Fault::NoCall))));
    }
}

#[test]
fn thirty_two_pairs_are_in_flight_and_asked_for_in_any_order() {
    let target = start(Options { seed: Some(4), ..options() });
    let (_host, mut carrier) = plain(&dial(&target), 1).unwrap();
    let pair = |lba: u64| (lba, blocks(0, 1), blocks(1, 1));
    let mut begin = |(lba, old, new): (u64, Vec<u8>, Vec<u8>)| carrier.driver().compare_and_write(lba, &old, &new);
    let calls: Vec<_> = (0..32).map(|at| begin(pair(at % 31)).unwrap()).collect();
    assert_eq!(begin(pair(40)), Err(Fault::CallNoRoom));
    let told = |at: usize| carrier.reply(calls[at]).unwrap();
    // 7 has no factor in common with 32; the last pair is of the block of the first
    let swapped = (0..32).map(|at| at * 7 % 32).map(told).filter(|it| *it == Reply::Swapped).count();
    assert_eq!(swapped, 31);
}

#[test]
fn all_64_commands_of_a_driver_are_answered() {
    let target = start(Options { seed: Some(9), ..options() });
    let (_host, mut carrier) = plain(&dial(&target), 1).unwrap();
    let calls: Vec<_> = (0..64).map(|lba| carrier.driver().read(lba, 1).unwrap()).collect();
    assert_eq!(carrier.driver().read(0, 1), Err(Fault::CallNoRoom));
    carrier.send().unwrap();
    for call in calls {
        assert_eq!(carrier.reply(call).unwrap(), Reply::Read(blocks(0, 1)));
    }
    assert!(carrier.compare_and_write(0, &blocks(0, 8), &blocks(1, 8)).unwrap());
    assert!(!carrier.compare_and_write(0, &blocks(0, 8), &blocks(2, 8)).unwrap());
    let beyond = carrier.compare_and_write(4096, &blocks(0, 1), &blocks(1, 1));
    assert!(matches!(beyond, Err(Error::Refused(it, _)) if it.code() == (0, 0x80)), "{beyond:?}");
    let too_long = carrier.compare_and_write(0, &blocks(0, 9), &blocks(1, 9));
    assert!(matches!(too_long, Err(Error::Driver(Fault::CallTooLong))), "{too_long:?}");
}

#[test]
fn no_more_is_sent_than_a_queue_takes() {
    let folder = Folder::new();
    let (seen, options) = (folder.file("seen"), options());
    let trace = Trace::create(&seen, &options.config.to_string(), options.config.cq_size).unwrap();
    let target = start(options);
    let mut host = Host::connect(&Dial { slots: 8, ..dial(&target) }, 1).unwrap();
    host.queues[0].trace = Some(trace.of_queue(1));
    let mut carrier = host.carrier(|queue| RemoteHost::new(1, queue, ACWU)).unwrap();
    for round in 0..3 {
        let calls =
            [0; 20].map(|_| carrier.driver().compare_and_write(3, &blocks(round, 1), &blocks(round, 1)).unwrap());
        for call in calls.into_iter().rev() {
            assert_eq!(carrier.reply(call).unwrap(), if round == 0 { Reply::Swapped } else { Reply::Differs });
        }
    }
    trace.flush().unwrap();
    let (mut in_flight, mut most) = (0, 0);
    for line in std::fs::read_to_string(&seen).unwrap().lines().skip(2) {
        in_flight += if line.starts_with("reap") { -1 } else { 2 };
        most = most.max(in_flight);
    }
    // (eight slots have room for seven entries)
    assert_eq!((in_flight, most), (0, 7));
    assert!(is_explained(&seen));
}

#[test]
fn a_queue_without_room_for_two_takes_no_pair() {
    let target = start(options());
    let (_host, mut carrier) = plain(&Dial { slots: 2, ..dial(&target) }, 1).unwrap();
    let reads = [0, 1, 2].map(|lba| carrier.driver().read(lba, 1).unwrap());
    for call in reads {
        assert_eq!(carrier.reply(call).unwrap(), Reply::Read(blocks(0, 1)));
    }
    let pair = carrier.compare_and_write(0, &blocks(0, 1), &blocks(1, 1));
    assert!(matches!(pair, Err(Error::Driver(Fault::NoRoom))), "{pair:?}");
}

#[test]
fn a_queue_is_given_another_driver_where_all_is_answered() {
    let target = start(options());
    let mut host = Host::connect(&dial(&target), 2).unwrap();
    let mut carrier = host.carrier(|queue| RemoteHost::new(1, queue, 0)).unwrap();
    host.queues[0].send(Command::blocks(opcode::FLUSH, 0, 0), &[], 0).unwrap();
    let mut another = || host.carrier(|queue| RemoteHost::new(1, queue, 0)).map(|_| ());
    assert!(matches!(another(), Err(Error::Driver(Fault::InCall))));
    host.queues.remove(0).receive().unwrap();
    let mut another = || host.carrier(|queue| RemoteHost::new(1, queue, 0)).map(|_| ());
    assert!(matches!(another(), Err(Error::Driver(Fault::NoQueue))));
    assert!(carrier.compare_and_write(3, &blocks(0, 1), &blocks(1, 1)).unwrap());
    let mut slots = carrier.with(|queue| RemoteSlotHost::new(1, queue, FIRST, COUNT, 8)).unwrap();
    assert!(slots.claim(1).unwrap());
    assert_eq!(slots.holder(1).unwrap(), Holder::Name(Name { host: 1, serial: 9 }));
    let mut carrier = slots.with(|queue| RemoteHost::new(1, queue, 0)).unwrap();
    let _ = carrier.driver().read(3, 1).unwrap();
    carrier.send().unwrap();
    let early = carrier.with(|queue| RemoteHost::new(2, queue, 0)).map(|_| ());
    assert!(matches!(early, Err(Error::Driver(Fault::InCall))));
}

#[test]
fn a_host_whose_connection_is_lost_comes_again_as_a_new_driver() {
    let folder = Folder::new();
    let with_image = || Options { image: Some(folder.file("image")), ..options() };
    let target = start(with_image());
    let (host, mut carrier) = plain(&dial(&target), 1).unwrap();
    assert!(carrier.compare_and_write(3, &blocks(0, 1), &blocks(1, 1)).unwrap());
    drop(target);
    let call = carrier.driver().compare_and_write(3, &blocks(1, 1), &blocks(2, 1)).unwrap();
    let lost = carrier.reply(call);
    assert!(matches!(lost, Err(Error::Connection(_))), "{lost:?}");
    drop((carrier, host));
    let target = start(with_image());
    let (_host, mut carrier) = plain(&dial(&target), 1).unwrap();
    assert!(matches!(carrier.reply(call), Err(Error::Driver(Fault::NoCall))), "a new driver doesn't know it");
    let read = carrier.driver().read(3, 1).unwrap();
    assert_eq!(carrier.reply(read).unwrap(), Reply::Read(blocks(1, 1)));
}

/// Takes a lock of some by pairs and gives it back, so many times; how often two had one.
fn contend(host: &mut Carrier<RemoteHost>, me: u8, rounds: u32, held: &[AtomicU32]) -> u32 {
    let (mut won, mut double, mut random) = (0, 0, common::Random(u64::from(me) * 77 + 1));
    let (free, mine) = (blocks(0, 1), blocks(me, 1));
    while won < rounds {
        let lock = random.below(held.len());
        if !host.compare_and_write(lock as u64, &free, &mine).expect("a pair") {
            give_way();
            continue;
        }
        double += u32::from(held[lock].fetch_add(1, Ordering::SeqCst) != 0);
        let reads = [0, 1].map(|_| host.driver().read(lock as u64, 1).expect("a CID"));
        for read in reads.into_iter().rev() {
            double += u32::from(host.reply(read).expect("a reply") != Reply::Read(mine.clone()));
        }
        held[lock].fetch_sub(1, Ordering::SeqCst);
        double += u32::from(!host.compare_and_write(lock as u64, &mine, &free).expect("a pair"));
        won += 1;
    }
    double
}

#[test]
fn what_hosts_with_a_driver_log_is_explained() {
    for seed in [None, Some(3)] {
        let folder = Folder::new();
        let (history, seen) = (folder.file("history"), folder.file("seen"));
        let options = Options { seed, history: Some(history.clone()), ..options() };
        let trace = Trace::create(&seen, &options.config.to_string(), options.config.cq_size).unwrap();
        let target = start(options);
        let held: Vec<AtomicU32> = (0..3).map(|_| AtomicU32::new(0)).collect();
        let double: u32 = thread::scope(|scope| {
            let all: Vec<_> = (1..=4u8)
                .map(|me| {
                    let mut host = Host::connect(&dial(&target).named(&format!("nqn.host-{me}")), 1).unwrap();
                    host.queues[0].trace = Some(trace.of_queue(me.into()));
                    let mut carrier = host.carrier(|queue| RemoteHost::new(me.into(), queue, ACWU)).unwrap();
                    let held = &held;
                    scope.spawn(move || {
                        let _host = host;
                        contend(&mut carrier, me, 30, held)
                    })
                })
                .collect();
            all.into_iter().map(|it| it.join().expect("a host")).sum()
        });
        assert_eq!(double, 0);
        trace.flush().unwrap();
        drop(target);
        is_legal(&history);
        assert!(is_explained(&seen), "seed {seed:?}");
        // a pair is handed over as one
        let log = std::fs::read_to_string(&seen).unwrap();
        let pairs = log.lines().filter(|it| it.starts_with("publish") && it.contains(" + ")).count();
        assert!(pairs >= 240, "{pairs} pairs");
    }
}

#[test]
fn what_a_wrong_target_answers_twice_or_never_is_told() {
    let fault = |kind| Options { fault: Some(vandrexu_target::Fault { kind, every: 3 }), ..options() };
    let ask = |target: &Target, patience| -> Result<()> {
        let (_host, mut carrier) = plain(&Dial { patience, ..dial(target) }, 1)?;
        for _ in 0..8 {
            let call = carrier.driver().read(3, 1)?;
            assert_eq!(carrier.reply(call)?, Reply::Read(blocks(0, 1)));
        }
        Ok(())
    };
    let twice = start(fault(FaultKind::DoubleCompletion));
    let told = ask(&twice, Duration::from_secs(20));
    assert!(matches!(told, Err(Error::Target("a completion of no command"))), "{told:?}");
    // the driver drops and counts it, and the call goes on
    let (_host, mut carrier) = plain(&dial(&twice), 2).unwrap();
    for _ in 0..20 {
        let (call, before) = (carrier.driver().read(3, 1).unwrap(), carrier.driver().dropped());
        let told = carrier.reply(call).or_else(|why| {
            assert!(matches!(why, Error::Target("a completion of no command")), "{why:?}");
            assert_eq!(carrier.driver().dropped(), before + 1);
            carrier.reply(call)
        });
        assert_eq!(told.unwrap(), Reply::Read(blocks(0, 1)));
    }
    assert_eq!(carrier.driver().dropped(), 6);
    let never = ask(&start(fault(FaultKind::LostCompletion)), Duration::from_secs(1));
    assert!(matches!(never, Err(Error::Connection(_))), "{never:?}");
    assert!(ask(&start(options()), Duration::from_secs(20)).is_ok());
}

/// Answers as a target with one I/O queue, and each Read with so many zeros and these first eight bytes of its completion.
fn answer(mut to: TcpStream, result: u64, count: usize) {
    let (mut from, format) = (Reader::new(to.try_clone().unwrap(), Side::Target, 1 << 17), Format::default());
    while let Ok(Some(pdu)) = from.take() {
        if pdu.kind() == kind::IC_REQ {
            to.write_all(&format.initialize(kind::IC_RESP, 1 << 17)).unwrap();
            continue;
        }
        let command = Command(pdu.entry());
        let is_read = command.opcode() == opcode::READ;
        if is_read {
            to.write_all(&format.data(kind::C2H_DATA, command.cid(), 0, 0, &vec![0; count], true)).unwrap();
        }
        // (a controller's number, readiness, and one I/O queue)
        let told = if is_read { result } else { (command.opcode() == opcode::FABRICS).into() };
        to.write_all(&format.response(&Completion::new(command.cid(), Status::SUCCESS, told).0)).unwrap();
    }
}

#[test]
fn what_a_wrong_target_answers_a_read_is_told() {
    let ask = |result, count| {
        let listener = TcpListener::bind("127.0.0.1:0").unwrap();
        let way = Dial::to(listener.local_addr().unwrap());
        thread::spawn(move || {
            for host in listener.incoming().flatten() {
                thread::spawn(move || answer(host, result, count));
            }
        });
        let (_host, mut carrier) = plain(&way, 1).unwrap();
        let call = carrier.driver().read(3, 1).unwrap();
        carrier.reply(call)
    };
    assert_eq!(ask(0, 512).unwrap(), Reply::Read(blocks(0, 1)));
    assert!(matches!(ask(0, 256), Err(Error::Target("less data than a Read asked for"))));
    for result in [1, 1 << 32] {
        assert!(matches!(ask(result, 512), Err(Error::Target("a completion with a reserved bit"))));
    }
}

#[test]
fn slots_are_claimed_released_and_taken_over() {
    let folder = Folder::new();
    let history = folder.file("history");
    let target = start(Options { history: Some(history.clone()), ..options() });
    let dial = dial(&target);
    let (one_host, mut one) = slots(&dial, 1, 4096);
    let (_two_host, mut two) = slots(&dial, 2, 0);
    let mine = |serial| Holder::Name(Name { host: 1, serial });
    assert!(one.claim(2).unwrap());
    assert!(!two.claim(2).unwrap());
    assert_eq!((two.holder(2).unwrap(), two.holder(1).unwrap()), (mine(4097), Holder::Nobody));
    assert!(one.release(2).unwrap());
    assert_eq!(one.holder(2).unwrap(), Holder::Nobody);
    assert!(one.claim(2).unwrap());
    assert_eq!(two.holder(2).unwrap(), mine(4098));
    // another name than the one it has
    assert!(!two.take_over(2, Name { host: 1, serial: 4097 }).unwrap());
    drop((one, one_host));
    assert!(two.take_over(2, Name { host: 1, serial: 4098 }).unwrap());
    assert!(matches!(two.claim(2), Err(Error::Driver(Fault::Held))));
    assert!(two.release(2).unwrap());
    assert!(matches!(two.release(2), Err(Error::Driver(Fault::NotHeld))));
    // a release of what was taken over from a host that isn't dead
    let (_three_host, mut three) = slots(&dial, 3, 0);
    assert!(three.claim(0).unwrap() && two.take_over(0, Name { host: 3, serial: 1 }).unwrap());
    assert!(!three.release(0).unwrap());
    assert_eq!(three.holder(0).unwrap(), Holder::Name(Name { host: 2, serial: 4 }));
    // a block that is no name, and slots that there are no blocks for
    let (_host, writer) = plain(&dial, 4).unwrap();
    let mut writer = writer.with(|queue| RemoteHost::new(4, queue, 0)).unwrap();
    let call = writer.driver().write(FIRST + 3, &blocks(0xEE, 1)).unwrap();
    assert_eq!(writer.reply(call).unwrap(), Reply::Written);
    assert_eq!(three.holder(3).unwrap(), Holder::Foreign);
    let mut beyond = three.with(|queue| RemoteSlotHost::new(3, queue, 4096, 1, 0)).unwrap();
    for refused in [beyond.claim(0).map(|_| ()), beyond.holder(0).map(|_| ())] {
        assert!(matches!(refused, Err(Error::Refused(Status(0x80), _))), "{refused:?}");
    }
    drop(target);
    is_legal(&history);
}

#[test]
fn slot_hosts_on_connections_of_their_own_never_hold_one_slot() {
    let target = start(Options { config: Config::of_line("config 4096 7 7 0 0 16 8 8 64").unwrap(), ..options() });
    let dial = Dial { slots: 8, ..dial(&target) };
    let holders = AtomicU32::new(0);
    thread::scope(|scope| {
        for number in 1..=4 {
            let (dial, holders) = (&dial, &holders);
            scope.spawn(move || {
                let (_host, mut carrier) = slots(dial, number, 0);
                let mut had = 0;
                while had < 25 {
                    if !carrier.claim(1).expect("a claim") {
                        give_way();
                        continue;
                    }
                    assert_eq!(holders.fetch_add(1, Ordering::SeqCst), 0);
                    had += 1;
                    holders.fetch_sub(1, Ordering::SeqCst);
                    assert!(carrier.release(1).expect("a release"));
                }
            });
        }
    });
    until("they are gone", || target.connections() == 0);
}
