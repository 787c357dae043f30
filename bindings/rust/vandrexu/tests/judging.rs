//! Disks with hosts that are judged: by their histories, their slots and their traces.
use vandrexu::{
    CallNumber, Checker, Config, Controller, Disk, Entry, Error, Host, Reply, SlotChecker, SlotFault, SlotReply,
    Tracer, certify_text,
};

const THREE: Config =
    Config { blocks: 8, awun: 1, acwu: 1, nabsn: 0, nabo: 0, pairs: 3, sq_size: 4, cq_size: 4, jobs: 8, cqs: 3 };

/// The slots are the blocks 3 and 4.
const FIRST: u64 = 3;
const COUNT: u32 = 2;

/// The block of a slot that is held by this name.
fn block_of(host: u8, serial: u8) -> [u8; 512] {
    let mut block = [0; 512];
    (block[0], block[8]) = (host, serial);
    block
}

/// Serves a queue, and polls until the call is over.
fn over(disk: &mut Disk, queue: u16, host: &mut Host, call: CallNumber) -> Reply {
    disk.serve(queue).expect("it is served");
    loop {
        match host.poll(call).expect("it has the call") {
            Reply::Pending => {}
            reply => return reply,
        }
    }
}

/// How many lines of a disk's history keep the discipline of these slots, and what is wrong behind them.
fn kept(disk: &Disk, first: u64, count: u32) -> (u64, Option<SlotFault>) {
    let mut legal = Checker::new(&THREE).expect("memory");
    let mut slots = SlotChecker::new(&THREE, first, count).expect("slots");
    let mut kept = 0;
    for line in disk.history(1) {
        let line = line.expect("a line");
        assert_eq!(legal.take_line(&line), Ok(()));
        match slots.take_line(&line) {
            Ok(()) => assert_eq!(slots.why(), Ok(None)),
            Err(error) => {
                let fault = slots.why().expect("memory");
                assert_eq!((error, slots.take_line(&line)), (Error::SlotsMisused, Err(Error::SlotsMisused)));
                assert_eq!(slots.why(), Ok(fault.clone()));
                return (kept, fault);
            }
        }
        kept += 1;
    }
    (kept, None)
}

#[test]
fn what_no_checker_of_slots_is_made_of() {
    let bad = Config { jobs: 0, ..THREE };
    for (first, count) in [(FIRST, 0), (65536, 1), (65535, 2), (u64::MAX, 1)] {
        assert_eq!(SlotChecker::new(&bad, first, count).err(), Some(Error::BadArea));
    }
    assert_eq!(SlotChecker::new(&bad, FIRST, COUNT).err(), Some(Error::BadJobs));
    assert_eq!(Tracer::new(&bad).err(), Some(Error::BadJobs));
}

#[test]
fn histories_and_blocks_of_a_disk() {
    let mut disk = Disk::new(&THREE, 1).expect("memory");
    let mut host = disk.host(1, 1).expect("memory");
    assert_eq!(disk.history(0).collect::<Result<Vec<_>, _>>(), Ok(vec![THREE.to_string()]));
    let data: Vec<u8> = (0..8 * 512).map(|at| (at % 256) as u8).collect();
    let call = host.write(0, &data).expect("it is begun");
    assert_eq!(over(&mut disk, 1, &mut host, call), Reply::Written);
    let lines = disk.history(0).collect::<Result<Vec<_>, _>>().expect("lines");
    assert_eq!(disk.history_count(), Ok(lines.len() as u64 - 1));
    // (the first is longer than the first room)
    assert!(lines[1].len() > 8192 && lines[2] == "fetch 1 1 1 ok");
    assert_eq!(disk.history(3).collect::<Result<Vec<_>, _>>().expect("lines"), lines[3..]);
    assert_eq!(disk.history(lines.len() as u64).next(), None);
    assert_eq!(disk.medium(7).expect("a block")[..], data[..512]);
    assert_eq!(disk.medium(8), Err(Error::NoBlock));
}

#[test]
fn hosts_of_a_disk_with_slots_keep_their_discipline() {
    let mut disk = Disk::with_slots(&THREE, 2, FIRST, COUNT).expect("memory");
    let mut one = disk.slot_host(1, 1).expect("memory");
    one.claim(0).expect("it is begun");
    disk.serve(1).expect("it is served");
    assert_eq!((one.poll(), one.poll()), (Ok(SlotReply::Pending), Ok(SlotReply::Held(0))));
    assert_eq!(kept(&disk, FIRST, COUNT), (disk.history_count().expect("a count"), None));
}

#[test]
fn rules_that_hosts_break() {
    let mut disk = Disk::new(&THREE, 2).expect("memory");
    let (mut one, mut two) = (disk.host(1, 1).expect("memory"), disk.host(2, 2).expect("memory"));
    let call = one.compare_and_write(3, &[0; 512], &block_of(1, 1)).expect("it is begun");
    assert_eq!(over(&mut disk, 1, &mut one, call), Reply::Swapped);
    let before = disk.history_count().expect("a count");
    let call = two.compare_and_write(3, &block_of(1, 1), &[0; 512]).expect("it is begun");
    assert_eq!(over(&mut disk, 2, &mut two, call), Reply::Swapped);
    let words = "a release on another completion queue than its claim".to_owned();
    assert_eq!(kept(&disk, FIRST, COUNT), (before, Some(SlotFault { place: before + 1, block: 3, words })));
    assert_eq!(kept(&disk, 4, 1).1, None);
}

#[test]
fn lines_that_are_none() {
    let mut slots = SlotChecker::new(&THREE, FIRST, COUNT).expect("slots");
    let mut tracer = Tracer::new(&THREE).expect("memory");
    for line in ["", "config 8 1 1 0 0 3 4 4 8", "fetch 1 1 1 ok "] {
        assert_eq!(slots.take_line(line), Err(Error::BadLine));
        assert_eq!(tracer.take_line(line), Err(Error::BadLine));
    }
    assert_eq!(slots.why(), Ok(None));
}

#[test]
fn traces() {
    let mut disk = Disk::new(&THREE, 1).expect("memory");
    let mut host = disk.host(1, 1).expect("memory");
    // (what is read is longer than the first room)
    let data: Vec<u8> = (0..1024).map(|at| (at % 256) as u8).collect();
    let call = host.write(0, &data).expect("it is begun");
    assert_eq!(over(&mut disk, 1, &mut host, call), Reply::Written);
    let call = host.read(0, 2).expect("it is begun");
    assert_eq!(over(&mut disk, 1, &mut host, call), Reply::Read(data));
    let (mut tracer, mut trace) = (Tracer::new(&THREE).expect("memory"), format!("{THREE}\n"));
    let mut history = trace.clone();
    for line in disk.history(1) {
        let line = line.expect("a line");
        if let Some(seen) = tracer.take_line(&line).expect("memory") {
            trace += &format!("{seen}\n");
        }
        history += &format!("{line}\n");
    }
    assert_eq!(trace.lines().count(), 5);
    assert_eq!(certify_text(&trace, &history).as_deref(), Ok(b"explained\n".as_slice()));
    let mut alone = Controller::new(&THREE).expect("memory");
    alone.publish(1, &[Entry::flush(7)]).expect("it is published");
    let line = alone.history(1).next().expect("a line").expect("a line");
    assert_eq!(Tracer::new(&THREE).expect("memory").take_line(&line), Ok(Some(line)));
}
