//! The answers of disks and hosts, and the lines of histories, that no example shows.
use std::thread;
use vandrexu::{CallNumber, Config, Controller, Disk, Entry, Error, Host, Lines, Reply, Waiting, run_text};

const TWO: Config =
    Config { blocks: 8, awun: 1, acwu: 1, nabsn: 0, nabo: 0, pairs: 2, sq_size: 4, cq_size: 4, jobs: 8, cqs: 2 };

/// Serves a queue, and polls until the call is over.
fn over(disk: &mut Disk, queue: u16, host: &mut Host, call: CallNumber) -> Reply {
    disk.serve(queue).expect("it is served");
    loop {
        match host.poll(call).expect("it has the call") {
            Reply::Pending => {}
            reply => return reply,
        }
    }
}

#[test]
fn what_is_refused() -> Result<(), Error> {
    assert_eq!(Disk::new(&Config { jobs: 0, ..TWO }, 1).err(), Some(Error::BadJobs));
    let mut disk = Disk::new(&TWO, 1)?;
    assert_eq!((disk.host(0, 1).err(), disk.host(1, 3).err()), (Some(Error::BadNumber), Some(Error::NoQueue)));
    let mut host = disk.host(1, 1)?;
    assert_eq!((disk.host(1, 2).err(), disk.host(2, 1).err()), (Some(Error::UsedNumber), Some(Error::UsedQueue)));
    assert_eq!((disk.host(2, 2).err(), disk.hosts_left()), (Some(Error::NoHost), 0));
    assert_eq!(
        (disk.serve(1), disk.serve(3), disk.fetch(1)),
        (Err(Error::NoEntry), Err(Error::NoQueue), Err(Error::NoEntry))
    );
    assert_eq!(disk.task(), Ok(false));
    assert_eq!((disk.forget(0), disk.forget(u64::MAX)), (Ok(()), Ok(())));
    assert_eq!((host.read(0, 0), host.read(0, 257)), (Err(Error::CallLength), Err(Error::CallTooLong)));
    assert_eq!((host.write_zeroes(0, 0), host.write_zeroes(0, 257)), (Err(Error::CallLength), Err(Error::CallTooLong)));
    assert_eq!((host.write(0, &[]), host.compare(0, &[0; 511])), (Err(Error::CallLength), Err(Error::CallLength)));
    assert_eq!(host.compare_and_write(0, &[0; 512], &[0; 1024]), Err(Error::CallLength));
    assert_eq!(host.compare_and_write(0, &[0; 1536], &[0; 1536]), Err(Error::CallTooLong));
    let call = host.write(0, &[0; 512])?;
    disk.fetch(1)?;
    assert_eq!(disk.fetch(2), Err(Error::Unfinished));
    assert_eq!(disk.serve(2), Ok(()));
    assert_eq!((host.poll(call), host.poll(call)), (Ok(Reply::Written), Err(Error::NoCall)));
    assert_eq!(host.give_up(call), Err(Error::NoCall));
    assert_eq!((format!("{disk:?}"), format!("{host:?}")), ("Disk { .. }".to_owned(), "Host { .. }".to_owned()));
    // a queue of two entries takes one at a time
    let mut disk = Disk::new(&Config { sq_size: 2, ..TWO }, 1)?;
    assert_eq!(disk.host(1, 1)?.compare_and_write(0, &[0; 512], &[0; 512]), Err(Error::CallNoRoom));
    Ok(())
}

#[test]
fn a_number_and_a_completion_queue_are_one_hosts() -> Result<(), Error> {
    // (the submission queues 1 and 3 have completion queue 1, and 2 and 4 have 2)
    let mut disk = Disk::new(&Config { pairs: 4, ..TWO }, 2)?;
    // of two causes the first is told
    for (number, queue, cause) in
        [(0, 0, Error::BadNumber), (0, 1, Error::BadNumber), (1, 0, Error::NoQueue), (1, 5, Error::NoQueue)]
    {
        assert_eq!(disk.host(number, queue).err(), Some(cause));
    }
    let mut one = disk.host(u32::MAX, 3)?;
    let call = one.write(3, &[0xA1; 512])?;
    assert_eq!(over(&mut disk, 3, &mut one, call), Reply::Written);
    assert_eq!(disk.host(u32::MAX, 5).err(), Some(Error::NoQueue));
    let used = |disk: &mut Disk| {
        for queue in 1..=4 {
            assert_eq!(disk.host(u32::MAX, queue).err(), Some(Error::UsedNumber));
        }
        for queue in [1, 3] {
            assert_eq!(disk.host(1, queue).err(), Some(Error::UsedQueue));
        }
    };
    used(&mut disk);
    drop(one);
    used(&mut disk);
    // what was refused has used no pass, and no number
    let mut two = disk.host(1, 4)?;
    let call = two.compare(3, &[0xA1; 512])?;
    assert_eq!(over(&mut disk, 4, &mut two, call), Reply::Equal);
    assert_eq!((disk.host(2, 2).err(), disk.host(1, 1).err()), (Some(Error::UsedQueue), Some(Error::UsedNumber)));
    Ok(())
}

#[test]
fn a_host_ends_and_is_made_again() -> Result<(), Error> {
    let (mut disk, mut other) = (Disk::new(&TWO, 1)?, Disk::new(&TWO, 1)?);
    let stranger = other.host(2, 1)?;
    let mut host = disk.host(7, 2)?;
    assert_eq!(disk.again(7).err(), Some(Error::OtherHost));
    assert_eq!(disk.end(stranger).map_err(|(_, why)| why), Err(Error::OtherHost));
    for life in 0..100 {
        let call = host.write(3, &[life; 512])?;
        let Err((back, why)) = disk.end(host) else { panic!("it has a call") };
        assert_eq!(why, Error::InCall);
        host = back;
        host.give_up(call)?;
        assert_eq!(disk.end(host).map_err(|(_, why)| why), Ok(()));
        assert_eq!(disk.host(7, 1).err(), Some(Error::UsedNumber));
        disk.serve(2)?;
        host = disk.again(7)?;
        assert_eq!((disk.hosts_left(), disk.again(7).err()), (0, Some(Error::OtherHost)));
        assert_eq!(host.waiting().given_up, 1);
        assert_eq!(host.poll(call), Err(Error::NoCall));
        assert_eq!(host.waiting().given_up, 0);
    }
    let read = host.read(3, 1)?;
    assert_eq!(over(&mut disk, 2, &mut host, read), Reply::Read(vec![99; 512]));
    Ok(())
}

#[test]
fn each_reply() -> Result<(), Error> {
    let mut disk = Disk::new(&TWO, 2)?;
    let (mut one, mut two) = (disk.host(1, 1)?, disk.host(2, 2)?);
    let call = one.compare_and_write(3, &[0; 1024], &[0xA1; 1024])?;
    assert_eq!(one.poll(call), Ok(Reply::Pending));
    assert_eq!(over(&mut disk, 1, &mut one, call), Reply::Swapped);
    let call = two.compare_and_write(3, &[0; 512], &[0xB2; 512])?;
    assert_eq!(over(&mut disk, 2, &mut two, call), Reply::Differs);
    let call = two.compare(4, &[0xA1; 512])?;
    assert_eq!(over(&mut disk, 2, &mut two, call), Reply::Equal);
    let call = two.compare(4, &[0xB2; 512])?;
    assert_eq!(over(&mut disk, 2, &mut two, call), Reply::Differs);
    let call = one.write_zeroes(4, 1)?;
    assert_eq!(over(&mut disk, 1, &mut one, call), Reply::Written);
    let call = two.read(3, 2)?;
    assert_eq!(over(&mut disk, 2, &mut two, call), Reply::Read([[0xA1; 512], [0; 512]].concat()));
    let call = two.read(8, 1)?;
    assert_eq!(over(&mut disk, 2, &mut two, call), Reply::Failed { sct: 0, sc: 0x80 });
    assert_eq!(two.poll(call), Err(Error::NoCall));
    drop(disk);
    let call = one.write(0, &[0; 512])?;
    assert_eq!(one.poll(call), Ok(Reply::Pending));
    Ok(())
}

#[test]
fn many_calls_of_one_host() -> Result<(), Error> {
    let mut disk = Disk::new(&Config { sq_size: 80, cq_size: 80, jobs: 80, ..TWO }, 1)?;
    let mut host = disk.host(7, 2)?;
    let swapped = host.compare_and_write(3, &[0; 512], &[0xA1; 512])?;
    let reads = (0..62).map(|_| host.read(3, 1)).collect::<Result<Vec<_>, _>>()?;
    assert_eq!(host.waiting(), Waiting { calls: 63, given_up: 0 });
    // (64 CIDs, of which a pair has two)
    assert_eq!(host.read(3, 1), Err(Error::CallNoRoom));
    for _ in 0..63 {
        disk.serve(2)?;
    }
    // in another order than they were begun
    for &read in reads.iter().rev() {
        while host.poll(read)? == Reply::Pending {}
        assert_eq!(host.poll(read), Err(Error::NoCall));
    }
    assert_eq!((host.poll(swapped), host.waiting()), (Ok(Reply::Swapped), Waiting { calls: 0, given_up: 0 }));
    Ok(())
}

#[test]
fn calls_that_are_given_up_keep_their_cids() -> Result<(), Error> {
    let mut disk = Disk::new(&Config { sq_size: 80, cq_size: 80, jobs: 80, ..TWO }, 1)?;
    let mut host = disk.host(7, 2)?;
    let swapped = host.compare_and_write(3, &[0; 512], &[0xA1; 512])?;
    let reads = (0..62).map(|_| host.read(3, 1)).collect::<Result<Vec<_>, _>>()?;
    host.give_up(swapped)?;
    assert_eq!((host.give_up(swapped), host.poll(swapped)), (Err(Error::NoCall), Err(Error::NoCall)));
    assert_eq!((host.waiting(), host.read(3, 1)), (Waiting { calls: 62, given_up: 1 }, Err(Error::CallNoRoom)));
    disk.serve(2)?;
    assert_eq!((host.waiting(), host.read(3, 1)), (Waiting { calls: 62, given_up: 1 }, Err(Error::CallNoRoom)));
    // each poll reaps a completion of the pair, at its turn; behind that it is done with
    assert_eq!((host.poll(reads[0])?, host.poll(reads[0])?), (Reply::Pending, Reply::Pending));
    assert_eq!(host.waiting(), Waiting { calls: 62, given_up: 0 });
    let back = host.compare_and_write(3, &[0xA1; 512], &[0; 512])?;
    assert_eq!(host.read(3, 1), Err(Error::CallNoRoom));
    for _ in 0..63 {
        disk.serve(2)?;
    }
    while host.poll(back)? == Reply::Pending {}
    assert_eq!(host.poll(reads[61])?, Reply::Read(vec![0xA1; 512]));
    assert_eq!(host.waiting(), Waiting { calls: 61, given_up: 0 });
    Ok(())
}

/// Begins a call, or polls, until nobody else has the controller.
fn when_free<T>(mut ask: impl FnMut() -> Result<T, Error>) -> T {
    loop {
        match ask() {
            Err(Error::Busy) => thread::yield_now(),
            done => return done.expect("it is done"),
        }
    }
}

/// Polls until the call is over.
fn reply_of(host: &mut Host, call: CallNumber) -> Reply {
    loop {
        match when_free(|| host.poll(call)) {
            Reply::Pending => thread::yield_now(),
            reply => return reply,
        }
    }
}

/// Adds to a count that lies in block 0 by Compare and Write, so many times.
fn add(host: &mut Host, times: u32) {
    let mut old = [0; 512];
    let mut added = 0;
    while added < times {
        let mut new = old;
        let count = u16::from_le_bytes([old[0], old[1]]) + 1;
        new[..2].copy_from_slice(&count.to_le_bytes());
        let call = when_free(|| host.compare_and_write(0, &old, &new));
        match reply_of(host, call) {
            Reply::Swapped => (old, added) = (new, added + 1),
            Reply::Differs => {
                let call = when_free(|| host.read(0, 1));
                let Reply::Read(data) = reply_of(host, call) else { panic!("a Read reads") };
                old.copy_from_slice(&data);
            }
            other => panic!("{other:?}"),
        }
    }
}

#[test]
fn hosts_on_threads_of_their_own_count_together() {
    let mut disk = Disk::new(&TWO, 2).expect("memory");
    let hosts = [1, 2].map(|queue| disk.host(queue.into(), queue).expect("memory"));
    let threads = hosts.map(|mut host| {
        thread::spawn(move || {
            add(&mut host, 100);
            host
        })
    });
    while threads.iter().any(|it| !it.is_finished()) {
        for queue in 1..=2 {
            match disk.serve(queue) {
                Ok(()) | Err(Error::NoEntry | Error::Busy) => {}
                Err(other) => panic!("{other}"),
            }
        }
        thread::yield_now();
    }
    let [one, _two] = threads;
    let mut host = one.join().expect("it ends");
    let call = host.read(0, 1).expect("it has no call");
    let Reply::Read(data) = over(&mut disk, 1, &mut host, call) else { panic!("a Read reads") };
    assert_eq!((u16::from_le_bytes([data[0], data[1]]), &data[2..]), (200, &[0; 510][..]));
}

#[test]
fn the_lines_of_a_history_are_what_a_run_prints() -> Result<(), Error> {
    let mut disk = Controller::new(&Config { blocks: 1024, awun: 255, ..TWO })?;
    assert_eq!(disk.history(0).collect::<Result<Vec<_>, _>>()?, ["config 1024 255 1 0 0 2 4 4 8"]);
    assert_eq!(disk.history(1).count(), 0);
    // lines longer than any piece
    let data: Vec<u8> = (0..64 * 512).map(|at| (at % 251) as u8).collect();
    for cid in 0..3 {
        disk.publish(1, &[Entry::write(cid, 3, &data).blocks(64)])?;
        disk.fetch(1)?;
        disk.settle()?;
        disk.reap(1)?;
    }
    let lines = disk.history(0).collect::<Result<Vec<_>, _>>()?;
    assert_eq!(lines.len() as u64, disk.history_count() + 1);
    let hex: String = data.iter().map(|it| format!("{it:02X}")).collect();
    let blocks: Vec<_> = hex.as_bytes().chunks(1024).map(|it| String::from_utf8_lossy(it).into_owned()).collect();
    let step = |cid| format!("publish 1 write 0 {cid} 3 63 {}\nfetch 1\nsettle\nreap 1\n", blocks.join("."));
    let script = format!("{}\n{}{}{}", lines[0], step(0), step(1), step(2));
    let text = run_text(script, Lines::HISTORY).expect("the script is one");
    assert_eq!(String::from_utf8_lossy(&text).lines().collect::<Vec<_>>(), lines);
    for from in [1, 2, 69, lines.len() - 1, lines.len(), lines.len() + 7] {
        let rest = disk.history(from as u64).collect::<Result<Vec<_>, _>>()?;
        assert_eq!(rest, lines[from.min(lines.len())..]);
    }
    assert_eq!(disk.history(u64::MAX).count(), 0);
    disk.forget(69);
    assert_eq!(disk.history(69).collect::<Result<Vec<_>, _>>()?, lines[69..]);
    let told: Vec<_> = disk.history(0).collect();
    assert_eq!(told, [Ok(lines[0].clone()), Err(Error::Forgotten)]);
    assert_eq!(disk.history(68).collect::<Vec<_>>(), [Err(Error::Forgotten)]);
    assert_eq!(disk.history_count() + 1, lines.len() as u64);
    Ok(())
}
