//! The answers of slot hosts, each call with each that can be had.
use std::sync::atomic::{AtomicU32, Ordering};
use std::thread;
use vandrexu::{CallNumber, Config, Disk, Error, Host, Name, Reply, SlotHost, SlotReply, Waiting};

const TWO: Config =
    Config { blocks: 8, awun: 1, acwu: 1, nabsn: 0, nabo: 0, pairs: 2, sq_size: 4, cq_size: 4, jobs: 8, cqs: 2 };
const THREE: Config = Config { pairs: 3, cqs: 3, ..TWO };

/// The slots are the blocks 2 to 5.
const FIRST: u64 = 2;
const COUNT: u32 = 4;

/// Two hosts, each with the submission queue of its number.
fn two_hosts() -> (Disk, SlotHost, SlotHost) {
    let mut disk = Disk::with_slots(&TWO, 2, FIRST, COUNT).expect("memory");
    let [one, two] = [1, 2].map(|queue| disk.slot_host(queue.into(), queue).expect("memory"));
    (disk, one, two)
}

/// Serves a queue, and polls until the call is over.
fn over(disk: &mut Disk, queue: u16, host: &mut SlotHost) -> SlotReply {
    disk.serve(queue).expect("it is served");
    loop {
        match host.poll().expect("it has a call") {
            SlotReply::Pending => {}
            reply => {
                assert_eq!(host.poll(), Err(Error::NoCall));
                return reply;
            }
        }
    }
}

/// The same of a host of the other kind.
fn plain_over(disk: &mut Disk, queue: u16, host: &mut Host, call: CallNumber) -> Reply {
    disk.serve(queue).expect("it is served");
    loop {
        match host.poll(call).expect("it has the call") {
            Reply::Pending => {}
            reply => return reply,
        }
    }
}

/// A host of this number on this queue is made of neither kind, for this cause.
fn refuses(disk: &mut Disk, number: u32, queue: u16, cause: Error) {
    let made = (disk.slot_host(number, queue).err(), disk.host(number, queue).err());
    assert_eq!(made, (Some(cause), Some(cause)), "host {number} on queue {queue}");
}

/// Claims any slot, each one once it is served.
fn any(disk: &mut Disk, queue: u16, host: &mut SlotHost) -> SlotReply {
    host.claim_any().expect("it is begun");
    loop {
        assert_eq!(host.claim_any(), Err(Error::InCall));
        assert!(matches!(disk.serve(queue), Ok(()) | Err(Error::NoEntry)));
        match host.poll().expect("it has a call") {
            SlotReply::Pending => {}
            reply => return reply,
        }
    }
}

#[test]
fn of_any_slots_the_first_that_nobody_has() -> Result<(), Error> {
    let (mut disk, mut one, mut two) = two_hosts();
    for slot in (0..COUNT).step_by(2) {
        assert_eq!(any(&mut disk, 1, &mut one), SlotReply::Held(slot));
        assert_eq!(any(&mut disk, 2, &mut two), SlotReply::Held(slot + 1));
    }
    assert_eq!(any(&mut disk, 1, &mut one), SlotReply::Taken);
    two.release(1)?;
    assert_eq!(over(&mut disk, 2, &mut two), SlotReply::Released);
    assert_eq!(any(&mut disk, 1, &mut one), SlotReply::Held(1));
    assert_eq!(one.claim(1), Err(Error::Held));
    drop(two);
    one.ask_holder(3)?;
    let SlotReply::Of(name) = over(&mut disk, 1, &mut one) else { panic!("it has a name") };
    one.take_over(3, name)?;
    assert_eq!(over(&mut disk, 1, &mut one), SlotReply::Held(3));
    // behind a takeover, too
    one.release(2)?;
    assert_eq!(over(&mut disk, 1, &mut one), SlotReply::Released);
    assert_eq!(any(&mut disk, 1, &mut one), SlotReply::Held(2));
    Ok(())
}

#[test]
fn what_no_disk_with_slots_is_made_of() -> Result<(), Error> {
    let bad = Config { jobs: 0, ..TWO };
    for (first, count) in [(FIRST, 0), (65536, 1), (65535, 2), (0, 65537), (u64::MAX, 1), (u64::MAX, u32::MAX)] {
        // (the area is looked at before the configuration)
        for config in [TWO, bad] {
            assert_eq!(Disk::with_slots(&config, 1, first, count).err(), Some(Error::BadArea));
        }
    }
    assert_eq!(Disk::with_slots(&bad, 1, FIRST, COUNT).err(), Some(Error::BadJobs));
    for (first, count) in [(65535, 1), (0, 65536)] {
        drop(Disk::with_slots(&TWO, 1, first, count)?.slot_host(1, 1)?);
    }
    Ok(())
}

#[test]
fn what_no_slot_host_is_made_of() -> Result<(), Error> {
    // a disk without slots, whatever the number and the queue are
    let mut disk = Disk::new(&TWO, 1)?;
    for (number, queue) in [(1, 1), (0, 1), (1, 0)] {
        assert_eq!(disk.slot_host(number, queue).err(), Some(Error::BadArea));
    }
    // of two causes the first is told
    let mut disk = Disk::with_slots(&TWO, 1, FIRST, COUNT)?;
    for (number, queue, cause) in
        [(0, 1, Error::BadNumber), (0, 3, Error::BadNumber), (1, 0, Error::NoQueue), (1, 3, Error::NoQueue)]
    {
        refuses(&mut disk, number, queue, cause);
    }
    let host = disk.slot_host(1, 1)?;
    assert_eq!(format!("{host:?}"), "SlotHost { .. }");
    let used = |disk: &mut Disk| {
        refuses(disk, 1, 3, Error::NoQueue);
        refuses(disk, 1, 1, Error::UsedNumber);
        refuses(disk, 1, 2, Error::UsedNumber);
        refuses(disk, 2, 1, Error::UsedQueue);
        refuses(disk, 2, 2, Error::NoHost);
    };
    used(&mut disk);
    drop(host);
    used(&mut disk);
    Ok(())
}

#[test]
fn a_second_host_of_a_number_or_a_completion_queue_is_refused() -> Result<(), Error> {
    // (the submission queues 1 and 3 have completion queue 1, and 2 and 4 have 2)
    let mut disk = Disk::with_slots(&Config { pairs: 4, ..TWO }, 2, FIRST, COUNT)?;
    let mut one = disk.slot_host(1, 1)?;
    // the second host of number 1, the third, and so on
    for queue in 1..=4 {
        refuses(&mut disk, 1, queue, Error::UsedNumber);
    }
    for queue in [1, 3] {
        refuses(&mut disk, 2, queue, Error::UsedQueue);
    }
    // what was refused has used no pass, and no number
    let mut two = disk.host(2, 4)?;
    let call = two.write(0, &[0xA1; 512])?;
    one.claim(0)?;
    assert_eq!(over(&mut disk, 1, &mut one), SlotReply::Held(0));
    assert_eq!(plain_over(&mut disk, 4, &mut two, call), Reply::Written);
    let used = |disk: &mut Disk| {
        for queue in 1..=4 {
            refuses(disk, 1, queue, Error::UsedNumber);
            refuses(disk, 2, queue, Error::UsedNumber);
            refuses(disk, 3, queue, Error::UsedQueue);
        }
    };
    used(&mut disk);
    drop((one, two));
    used(&mut disk);
    Ok(())
}

#[test]
fn one_call_at_a_time() -> Result<(), Error> {
    let (mut disk, mut one, _two) = two_hosts();
    let dead = Name { host: 2, serial: 1 };
    assert_eq!(one.poll(), Err(Error::NoCall));
    one.claim(1)?;
    for slot in [1, 2, COUNT] {
        for call in [one.claim(slot), one.release(slot), one.take_over(slot, dead), one.ask_holder(slot)] {
            assert_eq!(call, Err(Error::InCall));
        }
    }
    assert_eq!(one.poll(), Ok(SlotReply::Pending));
    assert_eq!(over(&mut disk, 1, &mut one), SlotReply::Held(1));
    one.ask_holder(0)?;
    assert_eq!(one.release(1), Err(Error::InCall));
    assert_eq!(over(&mut disk, 1, &mut one), SlotReply::Free);
    one.release(1)?;
    assert_eq!(one.claim(1), Err(Error::InCall));
    assert_eq!(over(&mut disk, 1, &mut one), SlotReply::Released);
    one.take_over(2, dead)?;
    assert_eq!(one.take_over(2, dead), Err(Error::InCall));
    assert_eq!(over(&mut disk, 1, &mut one), SlotReply::Taken);
    Ok(())
}

#[test]
fn there_is_no_such_slot() {
    let (_disk, mut one, _two) = two_hosts();
    for slot in [COUNT, u32::MAX] {
        let dead = Name { host: 2, serial: 1 };
        for call in [one.claim(slot), one.release(slot), one.take_over(slot, dead), one.ask_holder(slot)] {
            assert_eq!(call, Err(Error::NoSlot));
        }
    }
    assert_eq!(one.poll(), Err(Error::NoCall));
}

#[test]
fn two_hosts_claim_one_slot() -> Result<(), Error> {
    let (mut disk, mut one, mut two) = two_hosts();
    assert_eq!(one.release(1), Err(Error::NotHeld));
    one.claim(1)?;
    two.claim(1)?;
    // who is served first has it
    assert_eq!(over(&mut disk, 2, &mut two), SlotReply::Held(1));
    assert_eq!(over(&mut disk, 1, &mut one), SlotReply::Taken);
    assert_eq!((one.release(1), two.claim(1)), (Err(Error::NotHeld), Err(Error::Held)));
    one.ask_holder(1)?;
    assert_eq!(over(&mut disk, 1, &mut one), SlotReply::Of(Name { host: 2, serial: 1 }));
    // a second slot beside it
    two.claim(3)?;
    assert_eq!(over(&mut disk, 2, &mut two), SlotReply::Held(3));
    two.release(1)?;
    assert_eq!(over(&mut disk, 2, &mut two), SlotReply::Released);
    assert_eq!(two.release(1), Err(Error::NotHeld));
    two.ask_holder(1)?;
    assert_eq!(over(&mut disk, 2, &mut two), SlotReply::Free);
    one.claim(1)?;
    assert_eq!(over(&mut disk, 1, &mut one), SlotReply::Held(1));
    // (the first of its serials was that of the claim that found the slot taken)
    two.ask_holder(1)?;
    assert_eq!(over(&mut disk, 2, &mut two), SlotReply::Of(Name { host: 1, serial: 2 }));
    two.ask_holder(3)?;
    assert_eq!(over(&mut disk, 2, &mut two), SlotReply::Of(Name { host: 2, serial: 2 }));
    two.release(3)?;
    assert_eq!(over(&mut disk, 2, &mut two), SlotReply::Released);
    Ok(())
}

#[test]
fn the_slots_of_a_dropped_host_are_taken_over() -> Result<(), Error> {
    let (mut disk, mut one, mut two) = two_hosts();
    for slot in [0, 2] {
        one.claim(slot)?;
        assert_eq!(over(&mut disk, 1, &mut one), SlotReply::Held(slot));
    }
    two.claim(3)?;
    assert_eq!(over(&mut disk, 2, &mut two), SlotReply::Held(3));
    drop(one);
    two.ask_holder(0)?;
    let first = Name { host: 1, serial: 1 };
    assert_eq!(over(&mut disk, 2, &mut two), SlotReply::Of(first));
    for bad in [Name { host: 0, serial: 1 }, Name { host: 1, serial: 0 }, Name { host: 2, serial: 1 }] {
        assert_eq!(two.take_over(0, bad), Err(Error::BadName));
    }
    assert_eq!(two.take_over(3, first), Err(Error::Held));
    // (what was refused is no takeover)
    two.claim(1)?;
    assert_eq!(over(&mut disk, 2, &mut two), SlotReply::Held(1));
    two.take_over(0, first)?;
    assert_eq!(over(&mut disk, 2, &mut two), SlotReply::Held(0));
    assert_eq!((two.take_over(0, first), two.claim(0)), (Err(Error::Held), Err(Error::Held)));
    two.release(1)?;
    assert_eq!(over(&mut disk, 2, &mut two), SlotReply::Released);
    // another name than the slot has, and one of a slot that is free
    for slot in [2, 1] {
        two.take_over(slot, first)?;
        assert_eq!(over(&mut disk, 2, &mut two), SlotReply::Taken);
    }
    two.take_over(2, Name { host: 1, serial: 2 })?;
    assert_eq!(over(&mut disk, 2, &mut two), SlotReply::Held(2));
    two.ask_holder(2)?;
    assert_eq!(over(&mut disk, 2, &mut two), SlotReply::Of(Name { host: 2, serial: 6 }));
    // a host that took slots over claims again
    two.claim(1)?;
    assert_eq!(over(&mut disk, 2, &mut two), SlotReply::Held(1));
    two.ask_holder(1)?;
    assert_eq!(over(&mut disk, 2, &mut two), SlotReply::Of(Name { host: 2, serial: 7 }));
    // what was taken over is released, and what was claimed before and behind
    for slot in [0, 1, 2, 3] {
        two.release(slot)?;
        assert_eq!(over(&mut disk, 2, &mut two), SlotReply::Released);
        assert_eq!(two.release(slot), Err(Error::NotHeld));
        two.ask_holder(slot)?;
        assert_eq!(over(&mut disk, 2, &mut two), SlotReply::Free);
    }
    Ok(())
}

/// A disk with a slot host, which holds the first slot and the last one, and a host of the other kind.
fn beside_slots() -> (Disk, SlotHost, Host) {
    let mut disk = Disk::with_slots(&TWO, 2, FIRST, COUNT).expect("memory");
    let (mut one, two) = (disk.slot_host(1, 1).expect("memory"), disk.host(2, 2).expect("memory"));
    for slot in [0, COUNT - 1] {
        one.claim(slot).expect("it is begun");
        assert_eq!(over(&mut disk, 1, &mut one), SlotReply::Held(slot));
    }
    (disk, one, two)
}

/// What each call is answered that writes so many blocks, one or two.
fn writes(host: &mut Host, lba: u64, blocks: u8) -> [Result<CallNumber, Error>; 3] {
    let data = vec![0xEE; 512 * usize::from(blocks)];
    [host.write(lba, &data), host.write_zeroes(lba, blocks.into()), host.compare_and_write(lba, &data, &data)]
}

#[test]
fn a_plain_host_writes_beside_slots_and_none_of_them() -> Result<(), Error> {
    let (mut disk, mut one, mut two) = beside_slots();
    let refused: [Result<CallNumber, Error>; 3] = [Err(Error::CallSlotArea); 3];
    for slot in 0..COUNT {
        assert_eq!(writes(&mut two, FIRST + u64::from(slot), 1), refused, "slot {slot}");
    }
    // of two blocks one is the first slot, or the last one
    assert_eq!((writes(&mut two, 1, 2), writes(&mut two, 5, 2)), (refused, refused));
    // from block 0 to the first slot, from the last slot to block 7, and all blocks
    for (lba, blocks) in [(0, 3), (5, 3), (0, 8)] {
        assert_eq!(two.write(lba, &vec![0xEE; 512 * blocks]), Err(Error::CallSlotArea));
    }
    assert_eq!(two.write_zeroes(0, 256), Err(Error::CallSlotArea));
    // nothing was published
    assert_eq!((two.waiting(), disk.serve(2)), (Waiting { calls: 0, given_up: 0 }, Err(Error::NoEntry)));
    for lba in [1, 6] {
        let call = two.write(lba, &[0xEE; 512])?;
        assert_eq!(plain_over(&mut disk, 2, &mut two, call), Reply::Written);
        let call = two.compare_and_write(lba, &[0xEE; 512], &[0xA1; 512])?;
        assert_eq!(plain_over(&mut disk, 2, &mut two, call), Reply::Swapped);
        let call = two.write_zeroes(lba, 1)?;
        assert_eq!(plain_over(&mut disk, 2, &mut two, call), Reply::Written);
    }
    // and up to the slots: the blocks 0 and 1, 6 and 7
    for lba in [0, 6] {
        let call = two.write(lba, &[0xEE; 1024])?;
        assert_eq!(plain_over(&mut disk, 2, &mut two, call), Reply::Written);
    }
    for (slot, serial) in [(0, 1), (3, 2)] {
        one.ask_holder(slot)?;
        assert_eq!(over(&mut disk, 1, &mut one), SlotReply::Of(Name { host: 1, serial }));
        assert_eq!(one.claim(slot), Err(Error::Held));
        one.release(slot)?;
        assert_eq!(over(&mut disk, 1, &mut one), SlotReply::Released);
        one.ask_holder(slot)?;
        assert_eq!(over(&mut disk, 1, &mut one), SlotReply::Free);
        assert_eq!(writes(&mut two, FIRST + u64::from(slot), 1), refused);
    }
    Ok(())
}

#[test]
fn what_a_plain_host_is_answered_about_slots() -> Result<(), Error> {
    let (mut disk, _one, mut two) = beside_slots();
    let call = two.compare(FIRST, &[0; 512])?;
    assert_eq!(plain_over(&mut disk, 2, &mut two, call), Reply::Differs);
    let call = two.read(FIRST, COUNT)?;
    // also with a call under way; and a length comes before a slot
    assert_eq!(writes(&mut two, FIRST, 1), [Err(Error::CallSlotArea); 3]);
    let Reply::Read(data) = plain_over(&mut disk, 2, &mut two, call) else { panic!("a Read reads") };
    let names: Vec<_> = data.chunks(512).map(|it| (it[0], it[8])).collect();
    assert_eq!(names, [(1, 1), (0, 0), (0, 0), (1, 2)]);
    assert_eq!((two.write(FIRST, &[]), two.write(FIRST, &[0; 511])), (Err(Error::CallLength), Err(Error::CallLength)));
    assert_eq!(
        (two.write_zeroes(FIRST, 0), two.write_zeroes(FIRST, 257)),
        (Err(Error::CallLength), Err(Error::CallTooLong))
    );
    assert_eq!(two.compare_and_write(FIRST, &[0; 512], &[0; 1024]), Err(Error::CallLength));
    assert_eq!(two.compare_and_write(FIRST, &[0; 1536], &[0; 1536]), Err(Error::CallTooLong));
    Ok(())
}

#[test]
fn a_host_that_is_dropped_before_its_release_is_served_is_not_made_again() -> Result<(), Error> {
    // host 2 takes the slot over before the release takes effect, or too late
    for too_late in [false, true] {
        let mut disk = Disk::with_slots(&THREE, 3, FIRST, COUNT)?;
        let (mut one, mut two) = (disk.slot_host(1, 1)?, disk.slot_host(2, 2)?);
        one.claim(0)?;
        assert_eq!(over(&mut disk, 1, &mut one), SlotReply::Held(0));
        one.release(0)?;
        drop(one);
        // (its claim would have the same name, and the release would end it)
        for queue in 1..=3 {
            refuses(&mut disk, 1, queue, Error::UsedNumber);
        }
        refuses(&mut disk, 3, 1, Error::UsedQueue);
        let dead = Name { host: 1, serial: 1 };
        two.ask_holder(0)?;
        assert_eq!(over(&mut disk, 2, &mut two), SlotReply::Of(dead));
        two.take_over(0, dead)?;
        let taken = if too_late {
            disk.serve(1)?;
            over(&mut disk, 2, &mut two)
        } else {
            let taken = over(&mut disk, 2, &mut two);
            disk.serve(1)?;
            taken
        };
        refuses(&mut disk, 1, 3, Error::UsedNumber);
        refuses(&mut disk, 3, 1, Error::UsedQueue);
        let mut three = disk.slot_host(3, 3)?;
        three.claim(0)?;
        let claimed = over(&mut disk, 3, &mut three);
        // one of the two believes that it has the slot, and the block says so, too
        let (holder, other, name) = if too_late {
            assert_eq!((taken, claimed), (SlotReply::Taken, SlotReply::Held(0)));
            (&mut three, &mut two, Name { host: 3, serial: 1 })
        } else {
            assert_eq!((taken, claimed), (SlotReply::Held(0), SlotReply::Taken));
            (&mut two, &mut three, Name { host: 2, serial: 1 })
        };
        assert_eq!((holder.claim(0), other.release(0)), (Err(Error::Held), Err(Error::NotHeld)));
        two.ask_holder(0)?;
        assert_eq!(over(&mut disk, 2, &mut two), SlotReply::Of(name));
    }
    Ok(())
}

#[test]
fn calls_that_fail() -> Result<(), Error> {
    // slot 6 is block 8, which the volume doesn't have
    let mut disk = Disk::with_slots(&TWO, 1, FIRST, 7)?;
    let mut host = disk.slot_host(1, 1)?;
    let failed = SlotReply::Failed { sct: 0, sc: 0x80 };
    host.claim(6)?;
    assert_eq!(over(&mut disk, 1, &mut host), failed);
    assert_eq!(host.release(6), Err(Error::NotHeld));
    host.ask_holder(6)?;
    assert_eq!(over(&mut disk, 1, &mut host), failed);
    host.take_over(6, Name { host: 2, serial: 1 })?;
    assert_eq!(over(&mut disk, 1, &mut host), failed);
    Ok(())
}

#[test]
fn a_queue_without_room_for_a_pair() -> Result<(), Error> {
    // (a queue of two entries takes one at a time)
    let mut disk = Disk::with_slots(&Config { sq_size: 2, ..TWO }, 2, FIRST, COUNT)?;
    let (mut host, mut plain) = (disk.slot_host(1, 1)?, disk.host(2, 2)?);
    let dead = Name { host: 2, serial: 1 };
    assert_eq!((host.claim(0), host.take_over(0, dead)), (Err(Error::CallNoRoom), Err(Error::CallNoRoom)));
    assert_eq!(host.poll(), Err(Error::NoCall));
    host.ask_holder(0)?;
    assert_eq!(over(&mut disk, 1, &mut host), SlotReply::Free);
    // (a slot comes before the room)
    let mut swap = |lba| plain.compare_and_write(lba, &[0; 512], &[0; 512]);
    assert_eq!((swap(FIRST), swap(FIRST - 1)), (Err(Error::CallSlotArea), Err(Error::CallNoRoom)));
    Ok(())
}

#[test]
fn a_completion_queue_with_room_for_one() -> Result<(), Error> {
    let mut disk = Disk::with_slots(&Config { cq_size: 2, ..TWO }, 1, FIRST, COUNT)?;
    let mut host = disk.slot_host(1, 1)?;
    host.claim(0)?;
    // (what was fetched is kept, and goes on once there is room)
    assert_eq!(disk.serve(1), Err(Error::CqFull));
    assert_eq!(host.poll(), Ok(SlotReply::Pending));
    disk.serve(1)?;
    assert_eq!(host.poll(), Ok(SlotReply::Held(0)));
    Ok(())
}

#[test]
fn a_host_outlives_its_disk() -> Result<(), Error> {
    let (mut disk, mut one, mut two) = two_hosts();
    one.claim(0)?;
    assert_eq!(over(&mut disk, 1, &mut one), SlotReply::Held(0));
    drop(disk);
    two.claim(0)?;
    one.release(0)?;
    assert_eq!((one.poll(), two.poll()), (Ok(SlotReply::Pending), Ok(SlotReply::Pending)));
    Ok(())
}

/// Begins a call, or polls, until nobody else has the controller.
fn when_free<T>(mut ask: impl FnMut() -> Result<T, Error>) -> T {
    loop {
        match ask() {
            Err(Error::Busy) => thread::yield_now(),
            done => return done.expect("it is done"),
        }
    }
}

/// Polls until the call is over, which another thread serves.
fn reply_of(host: &mut SlotHost) -> SlotReply {
    loop {
        match when_free(|| host.poll()) {
            SlotReply::Pending => thread::yield_now(),
            reply => return reply,
        }
    }
}

/// How many hosts have slot 0, and how many had it at once.
static HOLDERS: AtomicU32 = AtomicU32::new(0);
static MOST: AtomicU32 = AtomicU32::new(0);

/// Has slot 0 so many times.
fn lock(host: &mut SlotHost, times: u32) {
    let mut had = 0;
    while had < times {
        when_free(|| host.claim(0));
        match reply_of(host) {
            SlotReply::Held(0) => had += 1,
            reply => {
                assert_eq!(reply, SlotReply::Taken);
                continue;
            }
        }
        MOST.fetch_max(HOLDERS.fetch_add(1, Ordering::SeqCst) + 1, Ordering::SeqCst);
        thread::yield_now();
        HOLDERS.fetch_sub(1, Ordering::SeqCst);
        when_free(|| host.release(0));
        assert_eq!(reply_of(host), SlotReply::Released);
    }
}

#[test]
fn hosts_on_threads_of_their_own_never_have_one_slot_at_once() {
    let (mut disk, one, two) = two_hosts();
    let mut threads: Vec<_> =
        [one, two].into_iter().map(|mut host| thread::spawn(move || lock(&mut host, 100))).collect();
    while !threads.is_empty() {
        for queue in 1..=2 {
            match disk.serve(queue) {
                Ok(()) | Err(Error::NoEntry | Error::Busy) => {}
                Err(other) => panic!("{other}"),
            }
        }
        thread::yield_now();
        // (one that failed is told at once: the other one may wait for its slot for ever)
        let (ended, running): (Vec<_>, Vec<_>) = threads.into_iter().partition(|it| it.is_finished());
        threads = running;
        for it in ended {
            it.join().expect("it ends");
        }
    }
    assert_eq!(MOST.load(Ordering::SeqCst), 1);
}
