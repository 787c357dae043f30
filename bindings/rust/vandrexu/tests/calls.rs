//! The answers of calls that no example shows.
use std::thread;
use vandrexu::{
    Blocked, Checker, Config, Controller, Disk, Entry, Error, Found, Granted, Made, Mode, Op, Step, Task, Work,
};

const SMALL: Config =
    Config { blocks: 8, awun: 1, acwu: 1, nabsn: 0, nabo: 0, pairs: 1, sq_size: 4, cq_size: 2, jobs: 2, cqs: 1 };

#[test]
fn each_fault_of_a_configuration_is_told() {
    let rows = [
        (Config { awun: 256, ..SMALL }, Error::AwunTooLarge),
        (Config { acwu: 256, ..SMALL }, Error::AcwuTooLarge),
        (Config { awun: 3, nabsn: 2, ..SMALL }, Error::BoundaryBelowUnit),
        (Config { nabsn: 3, nabo: 4, ..SMALL }, Error::OffsetPastBoundary),
        (Config { blocks: 0, ..SMALL }, Error::BadBlocks),
        (Config { blocks: 65_537, ..SMALL }, Error::BadBlocks),
        (Config { pairs: 17, ..SMALL }, Error::BadPairs),
        (Config { sq_size: 1, ..SMALL }, Error::BadSqSize),
        (Config { cq_size: 1025, ..SMALL }, Error::BadCqSize),
        (Config { jobs: 0, ..SMALL }, Error::BadJobs),
        (Config { cqs: 2, ..SMALL }, Error::BadCqs),
    ];
    assert_eq!(SMALL.fault(), None);
    for (config, fault) in rows {
        assert_eq!(config.fault(), Some(fault));
        assert_eq!(Controller::new(&config).err(), Some(fault));
        assert_eq!(Checker::new(&config).err(), Some(fault));
    }
}

#[test]
fn a_line_of_a_configuration_has_one_spelling() {
    for line in ["config 8 1 1 0 0 2 4 4 8", "config2 8 1 1 0 0 2 4 4 8 1", "config 65536 0 0 7 3 16 1024 1024 256"] {
        assert_eq!(Config::of_line(line).map(|it| it.to_string()).as_deref(), Ok(line));
    }
    for line in [
        "",
        "config",
        "config 8 1 1 0 0 2 4 4",
        "config 8 1 1 0 0 2 4 4 8 2",
        "config2 8 1 1 0 0 2 4 4 8",
        "config2 8 1 1 0 0 2 4 4 8 2",
        "config 8  1 1 0 0 2 4 4 8",
        "config 08 1 1 0 0 2 4 4 8",
        "config +8 1 1 0 0 2 4 4 8",
        "config 8 65536 1 0 0 2 4 4 8",
        "config 4294967296 1 1 0 0 2 4 4 8",
        "config 8 1 1 0 0 2 4 4 8 ",
        "Config 8 1 1 0 0 2 4 4 8",
    ] {
        assert_eq!(Config::of_line(line), Err(Error::BadLine), "{line}");
    }
}

#[test]
fn steps_are_refused_at_the_limits() -> Result<(), Error> {
    let data = [0xB2; 512];
    let mut disk = Controller::new(&SMALL)?;
    disk.reserve(16)?;
    assert_eq!(disk.reserve(usize::MAX), Err(Error::NoMemory));
    assert_eq!((disk.fetch(0), disk.fetch(1)), (Err(Error::NoQueue), Err(Error::NoEntry)));
    assert_eq!(disk.publish(1, &[Entry::flush(1); 4]), Err(Error::NoRoom));
    disk.publish(1, &[Entry::write(1, 0, &data), Entry::write(2, 0, &data), Entry::flush(3)])?;
    let task = Task::Units { op: Op::Write, slba: 0, blocks: 1 };
    assert_eq!(disk.fetch(1)?, Work { ticket: 1, task });
    assert_eq!(disk.fetch(1)?, Work { ticket: 2, task });
    assert_eq!(disk.fetch(1), Err(Error::JobsFull));
    assert_eq!((disk.block(1), disk.post(1)), (Err(Error::WrongState), Err(Error::WrongState)));
    assert_eq!(disk.grant(1)?, Granted { unit: 0, slba: 0, blocks: 1, mode: Mode::Exclusive });
    assert_eq!((disk.grant(1), disk.grant(2)), (Err(Error::WrongState), Err(Error::Conflict)));
    assert_eq!(
        (disk.grant(3), disk.block(3), disk.post(3)),
        (Err(Error::NoTicket), Err(Error::NoTicket), Err(Error::NoTicket))
    );
    assert_eq!(disk.ready(), Some(Step::Block(1)));
    let block = Blocked { lba: 0, found: Found::Written, effect: true, ended: true };
    assert_eq!(disk.step(Step::Block(1))?, Made::Blocked(block));
    assert!(disk.post(1)?.is_success());
    disk.settle()?;
    assert_eq!(disk.ready(), None);
    assert_eq!(disk.post(2), Err(Error::CqFull));
    assert_eq!((disk.reap(2), disk.completions(2).take(2).count()), (Err(Error::NoQueue), 1));
    assert_eq!(disk.reap(1)?.completion.cid(), 1);
    assert_eq!(disk.reap(1), Err(Error::NoCompletion));
    assert_eq!(disk.completions(1).count(), 0);
    assert_eq!((disk.medium(0)?, disk.medium(8)), (data, Err(Error::NoBlock)));
    assert_eq!(disk.history_count(), 9);
    assert_eq!(format!("{disk:?}"), "Controller { history_count: 9, .. }");
    Ok(())
}

#[test]
fn a_pair_is_first_and_second() -> Result<(), Error> {
    let mut disk = Controller::new(&SMALL)?;
    let (old, new) = ([0; 1024], [0xA1; 1024]);
    let pair = [Entry::compare(7, 2, &old).blocks(2).first(), Entry::write(8, 2, &new).blocks(2).second()];
    disk.publish(1, &pair)?;
    assert_eq!(disk.fetch(1)?.task, Task::Pair { slba: 2, blocks: 2 });
    let found: Vec<_> =
        disk.steps().filter_map(|it| if let Ok((_, Made::Blocked(it))) = it { Some(it) } else { None }).collect();
    assert_eq!(
        found.iter().map(|it| it.found).collect::<Vec<_>>(),
        [Found::Equal, Found::Equal, Found::Written, Found::Written]
    );
    assert_eq!(found.iter().map(|it| it.effect).collect::<Vec<_>>(), [false, true, false, false]);
    Ok(())
}

#[test]
fn lines_are_taken_or_not() -> Result<(), Error> {
    let mut checker = Checker::new(&SMALL)?;
    for line in ["", "config 8 1 1 0 0 2 4 4 8", "fetch 1 1 1 ok\n", "medium 3 00"] {
        assert_eq!((checker.take_line(line), checker.why(line)), (Err(Error::BadLine), Err(Error::BadLine)), "{line}");
    }
    assert_eq!(checker.take_line([0xFF, 0x00]), Err(Error::BadLine));
    let line = "fetch 1 1 1 ok";
    assert_eq!(checker.why(line)?.as_deref(), Some("refused 3: no entry to fetch"));
    assert_eq!(checker.take_line(line), Err(Error::NotLegal));
    assert_eq!(checker.take_line(format!("publish 1 0000070001{} -", "0".repeat(118))), Err(Error::NotLegal));
    assert_eq!(checker.take_line(""), Err(Error::BadLine));
    assert_eq!(format!("{checker:?}"), "Checker { .. }");
    Ok(())
}

#[test]
fn lines_are_made_once_more_or_not() -> Result<(), Error> {
    let mut disk = Controller::new(&SMALL)?;
    for line in ["", "config 8 1 1 0 0 2 4 4 8", "fetch 1 1 1 ok\n", "medium 3 00"] {
        assert_eq!(disk.replay(line), Err(Error::BadLine), "{line}");
    }
    assert_eq!(disk.replay([0xFF, 0x00]), Err(Error::BadLine));
    assert_eq!(disk.replay("fetch 1 1 1 ok"), Err(Error::NoEntry));
    assert_eq!(disk.history_count(), 0);
    disk.replay(format!("publish 1 0000070001{} -", "0".repeat(118)))?;
    assert_eq!(disk.replay("fetch 1 2 1 ok"), Err(Error::OtherEntry));
    assert_eq!(disk.history(2).collect::<Result<Vec<_>, _>>()?, ["fetch 1 1 1 ok"]);
    disk.replay("post 1 00000000000000000100010007000100 -")?;
    assert_eq!(disk.reap(1)?.completion.cid(), 7);
    Ok(())
}

#[test]
fn a_handle_goes_to_another_thread() {
    let mut disk = Controller::new(&SMALL).expect("memory");
    disk.publish(1, &[Entry::write(1, 0, &[0xC3; 512])]).expect("memory");
    let mut disk = thread::spawn(move || {
        disk.fetch(1).expect("memory");
        disk.settle().expect("memory");
        disk
    })
    .join()
    .expect("the thread ends");
    assert!(disk.reap(1).is_ok_and(|it| it.completion.is_success()));
    assert_eq!(disk.medium(0), Ok([0xC3; 512]));
}

/// How many pages of memory this process has.
#[cfg(target_os = "linux")]
fn pages() -> u64 {
    let text = std::fs::read_to_string("/proc/self/statm").expect("the system says it");
    text.split(' ').nth(1).and_then(|it| it.parse().ok()).expect("a number")
}

#[test]
#[cfg(target_os = "linux")]
fn what_is_dropped_gives_its_memory_back() {
    let before = pages();
    for _ in 0..10_000 {
        let disk = Controller::new(&SMALL).expect("memory");
        drop((disk, Checker::new(&SMALL).expect("memory")));
        let mut disk = Disk::with_slots(&Config { pairs: 2, cqs: 2, ..SMALL }, 2, 0, 8).expect("memory");
        drop((disk.host(1, 1).expect("memory"), disk.slot_host(2, 2).expect("memory"), disk));
    }
    // (each has a page at least)
    assert!(pages() < before + 5_000);
}
