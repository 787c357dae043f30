//! Names, limits and timeouts.
mod common;
use common::{DONE, Folder, blocks, code, dial, host, options, read, start, until, write};
use std::io::Read;
use std::net::TcpStream;
use std::time::{Duration, Instant};
use vandrexu_initiator::{Command, Dial, Error, Host, Status, opcode};
use vandrexu_target::{Image, Options, Target};

#[test]
fn hosts_that_are_not_named_are_refused() {
    let target = start(Options { allow: vec!["nqn.one".into(), "nqn.two".into()], ..options() });
    for name in ["nqn.one", "nqn.two"] {
        Host::connect(&dial(&target).named(name), 1).unwrap();
    }
    let third = Host::connect(&dial(&target).named("nqn.three"), 1);
    assert!(matches!(third, Err(Error::Refused(it, _)) if it.is(Status::CONNECT_HOST) && it.is_final()));
}

#[test]
fn connections_are_limited_and_free_again() {
    let target = start(Options { connections: 3, patience: Duration::from_secs(1000), ..options() });
    let first = host(&target, 2);
    let second = Host::connect(&dial(&target), 0);
    assert!(matches!(second, Err(Error::Refused(it, _)) if it.is(Status::CONNECT_BUSY) && !it.is_final()));
    until("it left", || target.connections() == 3);
    // sixteen more than there may be could still be answered, and the next is closed
    let crowd = [(); 16].map(|()| TcpStream::connect(target.address()).unwrap());
    until("they are there", || target.connections() == 19);
    let mut last = TcpStream::connect(target.address()).unwrap();
    last.set_read_timeout(Some(Duration::from_secs(120))).unwrap();
    assert_eq!(last.read(&mut [0]).unwrap(), 0);
    drop((first, crowd));
    until("they are free", || target.connections() == 0);
    host(&target, 2);
}

/// How long a host that sends nothing is let be, if that is less than this.
fn let_be(patience: u64, most: Duration) -> Option<Duration> {
    let target = start(Options { patience: Duration::from_secs(patience), ..options() });
    let (began, mut silent) = (Instant::now(), TcpStream::connect(target.address()).unwrap());
    silent.set_read_timeout(Some(most)).unwrap();
    silent.read_to_end(&mut vec![]).is_ok().then(|| began.elapsed())
}

#[test]
fn a_host_that_sends_nothing_is_left() {
    assert!(let_be(1, Duration::from_secs(120)).is_some_and(|it| it >= Duration::from_secs(1)));
    assert_eq!(let_be(1000, Duration::from_secs(3)), None);
}

#[test]
fn without_keep_alive_a_host_loses_its_queues() {
    let target = start(options());
    let timeout = Duration::from_secs(2);
    let mut host = Host::connect(&Dial { keep_alive: 2000, ..dial(&target) }, 1).unwrap();
    let (began, mut last) = (Instant::now(), Instant::now());
    while began.elapsed() < 2 * timeout {
        std::thread::sleep(Duration::from_millis(200));
        let told = host.admin.call(Command::new(opcode::KEEP_ALIVE), &[], 0);
        // (where this machine did something else for longer than that, the host was late)
        if last.elapsed() > timeout {
            break;
        }
        assert_eq!(code(&told.unwrap()), DONE);
        last = Instant::now();
    }
    until("its queues end", || host.queues[0].call(Command::blocks(opcode::FLUSH, 0, 0), &[], 0).is_err());
    until("its connections end", || target.connections() == 0);
}

/// A target that lets a host take a second for what it has begun, and a host with a queue there.
fn impatient() -> (Target, Host) {
    let target = start(Options { patience: Duration::from_secs(1), ..options() });
    let host = Host::connect(&Dial { slots: 64, ..dial(&target) }, 1).unwrap();
    (target, host)
}

#[test]
fn a_host_that_sends_no_rest_of_a_pdu_is_left_also_where_it_sends_a_byte_at_a_time() {
    let (target, mut host) = impatient();
    let queue = &mut host.queues[0];
    let capsule = queue.format().command(&Command::blocks(opcode::WRITE, 3, 16).0, &blocks(1, 16));
    queue.send_bytes(&capsule[..100]).unwrap();
    assert!(queue.receive().is_err());
    host.queues.clear();
    until("it left", || target.connections() == 1);
    host.add_queue(1).unwrap();
    let (began, queue) = (Instant::now(), &mut host.queues[0]);
    // (of 8,264 bytes one each 20 milliseconds)
    let sent = capsule.iter().take_while(|it| {
        std::thread::sleep(Duration::from_millis(20));
        queue.send_bytes(&[**it]).is_ok()
    });
    let sent = sent.count();
    assert!(began.elapsed() >= Duration::from_secs(1) && sent < capsule.len() / 2, "{sent} bytes were taken");
    until("it is left", || target.connections() == 1);
}

#[test]
fn a_host_that_was_silent_for_long_may_take_its_time_again() {
    let (_target, mut host) = impatient();
    let queue = &mut host.queues[0];
    let flush = queue.format().command(&Command::blocks(opcode::FLUSH, 0, 0).0, &[]);
    for _ in 0..2 {
        std::thread::sleep(Duration::from_millis(1500));
        for piece in flush.chunks(40) {
            queue.send_bytes(piece).unwrap();
            std::thread::sleep(Duration::from_millis(50));
        }
        // (the initiator doesn't know the command)
        assert!(matches!(queue.receive(), Err(Error::Target("a completion of no command"))));
    }
}

#[test]
fn a_host_that_sends_no_data_that_was_asked_for_is_left() {
    let (target, mut host) = impatient();
    let (began, queue) = (Instant::now(), &mut host.queues[0]);
    // (by R2T, of which it hears, and sends nothing)
    let mut write = Command::blocks(opcode::WRITE, 3, 2).with(8, 1024);
    (write.0[1], write.0[39]) = (0x40, 0x5A);
    queue.send_as_it_is(write, &[], &[]).unwrap();
    queue.receive_tag().unwrap();
    assert!(queue.receive().is_err() && began.elapsed() >= Duration::from_secs(1));
    until("it is left", || target.connections() == 1);
}

#[test]
fn a_host_that_takes_nothing_is_left() {
    let (target, mut host) = impatient();
    // (15 MiB, which is more than the system keeps of what wasn't taken)
    for _ in 0..120 {
        // (the target may have left it already)
        let _ = host.queues[0].send(Command::blocks(opcode::READ, 0, 256), &[], 256 * 512);
    }
    until("it is left", || target.connections() == 1);
    assert_eq!(code(&host.identify(0x01, 0).unwrap()), DONE);
}

#[test]
fn a_host_that_reads_nothing_holds_no_other_up() {
    // (so long that the other's calls would fail first)
    let target = start(Options { patience: Duration::from_secs(1000), ..options() });
    let mut lazy = Host::connect(&Dial { slots: 64, ..dial(&target) }.named("nqn.lazy"), 1).unwrap();
    for _ in 0..60 {
        lazy.queues[0].send(Command::blocks(opcode::READ, 0, 256), &[], 256 * 512).unwrap();
    }
    let mut other = host(&target, 1);
    for round in 0..100 {
        assert_eq!(write(&mut other, 9, &blocks(round, 1)), DONE);
    }
    assert_eq!(read(&mut other, 9, 1), blocks(99, 1));
}

#[test]
fn an_image_is_of_one_target_and_of_its_volume() {
    let folder = Folder::new();
    let path = folder.file("image");
    let with_image = || Options { image: Some(path.clone()), ..options() };
    let target = start(with_image());
    let mut first = host(&target, 1);
    assert_eq!(write(&mut first, 77, &blocks(4, 9)), DONE);
    assert!(Target::start(with_image()).is_err_and(|it| it.contains("another target has it")));
    drop(first);
    drop(target);
    let target = start(with_image());
    assert_eq!(read(&mut host(&target, 1), 77, 9), blocks(4, 9));
    drop(target);
    std::fs::write(&path, vec![0; 4097 * 512]).unwrap();
    assert!(Image::open(&path, 4096).is_err());
    std::fs::write(&path, [0; 700]).unwrap();
    assert!(Image::open(&path, 4096).is_err());
}

#[test]
fn words_of_the_command_line_are_read_or_told() {
    let of = |words: &[&str]| Options::of_words(words.iter().map(ToString::to_string));
    let options = of(&["--blocks", "99", "--seed", "4", "--strict", "--fault", "torn-unit:3", "--allow", "a"]).unwrap();
    assert_eq!((options.config.blocks, options.seed, options.strict), (99, Some(4), true));
    assert_eq!(of(&["--listen", "127.0.0.1:7"]).unwrap().listen.port(), 7);
    let line = "config 8 1 1 0 0 2 4 4 8";
    assert_eq!(of(&["--config", line]).unwrap().config.to_string(), line);
    assert_eq!(of(&["--config", line, "--blocks", "9"]).unwrap().config.blocks, 9);
    let options = of(&["--nqn", "n", "--connections", "3", "--memory", "7", "--patience", "2", "--naive"]).unwrap();
    assert_eq!((&options.subsystem[..], options.connections, options.memory), ("n", 3, Some(7)));
    assert_eq!((options.patience, options.naive), (Duration::from_secs(2), true));
    assert!(Options::default().listen.ip().is_loopback());
    let no_room =
        Options { config: vandrexu_target::Config { sq_size: 2, ..common::options().config }, ..common::options() };
    assert!(Target::start(no_room).is_err_and(|it| it.contains("no room for a pair")));
    for wrong in [
        &["--blocks", "0"][..],
        &["--blocks", "65537"],
        &["--config", "config 8 1 1"],
        &["--config", "config 8 1 1 0 0 17 4 4 8"],
        &["--nqn", ""],
        &["--seed", "x"],
        &["--what", "1"],
        &["--listen"],
        &["--fault", "none"],
        &["--patience", "0"],
    ] {
        assert!(of(wrong).is_err(), "{wrong:?}");
    }
}
