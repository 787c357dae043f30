//! The answers of hosts of a controller that is somewhere else. What they tell is carried to one in the same process.
use std::sync::mpsc::channel;
use std::thread;
use vandrexu::{
    CallNumber, Completion, Config, Controller, Entry, Error, Name, Outgoing, Reaped, RemoteHost, RemoteSlotHost,
    Reply, SlotReply, Waiting,
};

const THREE: Config =
    Config { blocks: 8, awun: 1, acwu: 1, nabsn: 0, nabo: 0, pairs: 3, sq_size: 8, cq_size: 8, jobs: 8, cqs: 3 };

/// The slots are the blocks 2 to 5.
const FIRST: u64 = 2;
const COUNT: u32 = 4;

/// A host of either kind.
trait Carried {
    fn next(&mut self) -> Option<Outgoing>;
    fn bring(&mut self, reaped: &Reaped);
}

impl Carried for RemoteHost {
    fn next(&mut self) -> Option<Outgoing> {
        self.outgoing().expect("memory")
    }

    fn bring(&mut self, reaped: &Reaped) {
        self.incoming(reaped.completion, &reaped.data).expect("memory");
    }
}

impl Carried for RemoteSlotHost {
    fn next(&mut self) -> Option<Outgoing> {
        self.outgoing().expect("memory")
    }

    fn bring(&mut self, reaped: &Reaped) {
        self.incoming(reaped.completion, &reaped.data).expect("memory");
    }
}

/// Publishes a batch: a command, or a fused pair.
fn publish(disk: &mut Controller, batch: &[Outgoing]) {
    let entries: Vec<_> = batch.iter().map(|it| Entry::raw(it.entry, &it.data)).collect();
    disk.publish(batch[0].queue, &entries).expect("room");
}

/// Carries what the host has begun to the controller, which serves the last ticket first, and the completions back.
fn carry(disk: &mut Controller, queue: u16, host: &mut impl Carried) {
    let told: Vec<_> = std::iter::from_fn(|| host.next()).collect();
    told.chunk_by(|one, _| one.more).for_each(|batch| publish(disk, batch));
    let mut tickets = vec![];
    while let Ok(work) = disk.fetch(queue) {
        tickets.push(work.ticket);
    }
    while let Some(ticket) = tickets.pop() {
        while disk.grant(ticket).is_ok() {
            while !disk.block(ticket).expect("its turn").ended {}
        }
        while disk.post(ticket).is_ok() {}
    }
    for reaped in disk.completions(queue) {
        host.bring(&reaped.expect("memory"));
    }
}

/// Polls until the call is over. No call has its number then.
fn over(host: &mut RemoteHost, call: CallNumber) -> Reply {
    loop {
        match host.poll(call).expect("it is in flight") {
            Reply::Pending => {}
            reply => {
                assert_eq!(host.poll(call), Err(Error::NoCall));
                return reply;
            }
        }
    }
}

/// A completion with success for the command with this CID of submission queue 1.
fn success(cid: u8) -> [u8; 16] {
    [0, 0, 0, 0, 0, 0, 0, 0, 0, 0, 1, 0, cid, 0, 1, 0]
}

#[test]
fn what_is_refused() -> Result<(), Error> {
    // of two causes the first is told
    for (number, queue, first, count, cause) in [
        (0, 0, 65537, 0, Error::BadNumber),
        (0, 1, 0, 0, Error::BadNumber),
        (1, 0, 65537, 0, Error::NoQueue),
        (1, 1, 65537, 0, Error::BadArea),
        (1, 1, 65536, 1, Error::BadArea),
        (1, 1, u64::MAX, u32::MAX, Error::BadArea),
    ] {
        assert_eq!(RemoteHost::with_slots(number, queue, 0, first, count).err(), Some(cause));
    }
    assert_eq!(
        (RemoteHost::new(0, 1, 0).err(), RemoteHost::new(1, 0, 0).err()),
        (Some(Error::BadNumber), Some(Error::NoQueue))
    );
    drop(RemoteHost::with_slots(u32::MAX, u16::MAX, u16::MAX, 65536, 0)?);
    let mut host = RemoteHost::with_slots(1, 1, 1, FIRST, COUNT)?;
    let blocks = [0xA1; 1536];
    for (call, cause) in [
        (host.read(0, 0), Error::CallLength),
        (host.write_zeroes(FIRST, 0), Error::CallLength),
        (host.write(FIRST, &[]), Error::CallLength),
        (host.compare(0, &blocks[..511]), Error::CallLength),
        (host.compare_and_write(0, &blocks[..512], &blocks[..1024]), Error::CallLength),
        (host.read(0, 257), Error::CallTooLong),
        (host.write_zeroes(FIRST, 257), Error::CallTooLong),
        (host.compare_and_write(FIRST, &blocks, &blocks), Error::CallTooLong),
        (host.write(FIRST - 1, &blocks[..1024]), Error::CallSlotArea),
        (host.write_zeroes(FIRST + 3, 2), Error::CallSlotArea),
        (host.compare_and_write(FIRST, &blocks[..512], &blocks[..512]), Error::CallSlotArea),
    ] {
        assert_eq!(call, Err(cause));
    }
    assert_eq!((host.outgoing(), host.dropped()), (Ok(None), 0));
    let read = host.read(FIRST, 1)?;
    assert_eq!((host.compare(FIRST, &blocks[..512]).is_ok(), host.poll(read)), (true, Ok(Reply::Pending)));
    assert_eq!(format!("{host:?}"), "RemoteHost { dropped: 0, .. }");
    Ok(())
}

#[test]
fn calls_in_flight_are_polled_in_any_order() -> Result<(), Error> {
    let (mut disk, mut host) = (Controller::new(&THREE)?, RemoteHost::new(7, 2, 1)?);
    let before = host.write(0, &[0xB2; 512])?;
    carry(&mut disk, 2, &mut host);
    assert_eq!(over(&mut host, before), Reply::Written);
    let wrote = host.write(4, &[0xA1; 1024])?;
    let read = host.read(0, 1)?;
    let late = host.compare_and_write(3, &[0; 512], &[0xB2; 512])?;
    let early = host.compare_and_write(3, &[0; 512], &[0xA1; 512])?;
    let compared = host.compare(6, &[0; 512])?;
    for call in [compared, early, late, read, wrote] {
        assert_eq!(host.poll(call), Ok(Reply::Pending));
    }
    carry(&mut disk, 2, &mut host);
    assert_eq!(over(&mut host, late), Reply::Differs);
    assert_eq!(over(&mut host, wrote), Reply::Written);
    assert_eq!(over(&mut host, compared), Reply::Equal);
    assert_eq!(over(&mut host, early), Reply::Swapped);
    assert_eq!(over(&mut host, read), Reply::Read(vec![0xB2; 512]));
    let zeroed = host.write_zeroes(3, 2)?;
    carry(&mut disk, 2, &mut host);
    assert_eq!(over(&mut host, zeroed), Reply::Written);
    let (read, compared) = (host.read(4, 2)?, host.compare(3, &[0xA1; 512])?);
    carry(&mut disk, 2, &mut host);
    assert_eq!(over(&mut host, compared), Reply::Differs);
    assert_eq!(over(&mut host, read), Reply::Read([[0; 512], [0xA1; 512]].concat()));
    // LBA Out of Range
    let failed = host.compare_and_write(8, &[0; 512], &[0; 512])?;
    carry(&mut disk, 2, &mut host);
    assert_eq!(over(&mut host, failed), Reply::Failed { sct: 0, sc: 0x80 });
    assert_eq!(host.dropped(), 0);
    Ok(())
}

#[test]
fn entries_are_told_in_the_order_of_their_calls() -> Result<(), Error> {
    let mut host = RemoteHost::new(1, 300, 1)?;
    assert_eq!(host.outgoing()?, None);
    let (mut old, new) = (vec![0xA1; 1024], vec![0xB2; 1024]);
    host.compare_and_write(6, &old, &new)?;
    host.read(0, 256)?;
    // (the data was copied)
    old.fill(0);
    let compare = Entry::compare(0, 6, &[0xA1; 1024]).blocks(2).first().bytes;
    let write = Entry::write(1, 6, &new).blocks(2).second().bytes;
    let read = Entry::read(2, 0).blocks(256).bytes;
    for (entry, data, more) in [(compare, vec![0xA1; 1024], true), (write, new, false), (read, vec![], false)] {
        assert_eq!(host.outgoing()?, Some(Outgoing { queue: 300, entry, data, more }));
    }
    assert_eq!(host.outgoing()?, None);
    Ok(())
}

#[test]
fn up_to_64_commands_are_in_flight() -> Result<(), Error> {
    let mut host = RemoteHost::new(1, 1, 0)?;
    let calls: Vec<_> = (0..63).map(|lba| host.read(lba, 1)).collect::<Result<_, _>>()?;
    assert_eq!(host.compare_and_write(0, &[0; 512], &[0; 512]), Err(Error::CallNoRoom));
    let last = host.read(63, 1)?;
    assert_eq!((host.read(0, 1), calls.contains(&last)), (Err(Error::CallNoRoom), false));
    for cid in 0..64 {
        assert_eq!(host.outgoing()?.map(|it| it.entry[2]), Some(cid));
    }
    host.incoming(Completion(success(63)), &[0xA1; 512])?;
    assert_eq!(over(&mut host, last), Reply::Read(vec![0xA1; 512]));
    // its number and its CID are used again
    assert_eq!(host.read(9, 1)?, last);
    assert_eq!(host.outgoing()?.map(|it| it.entry[2]), Some(63));
    Ok(())
}

#[test]
fn calls_that_are_given_up_keep_their_cids() -> Result<(), Error> {
    let mut host = RemoteHost::new(1, 1, 0)?;
    let calls = (0..64).map(|lba| host.read(lba, 1)).collect::<Result<Vec<_>, _>>()?;
    for call in [calls[3], calls[9]] {
        host.give_up(call)?;
        assert_eq!((host.give_up(call), host.read(0, 1)), (Err(Error::NoCall), Err(Error::CallNoRoom)));
    }
    assert_eq!(host.waiting(), Waiting { calls: 62, given_up: 2 });
    host.incoming(Completion(success(9)), &[0xB2; 512])?;
    host.incoming(Completion(success(63)), &[0xA1; 512])?;
    // that of CID 3 has its turn, and takes the completion of CID 9; the call that is polled takes its own
    assert_eq!(host.poll(calls[63]), Ok(Reply::Read(vec![0xA1; 512])));
    assert_eq!(host.waiting(), Waiting { calls: 61, given_up: 2 });
    // then that of CID 9, also where no call has the number that is polled
    assert_eq!(host.poll(calls[63]), Err(Error::NoCall));
    assert_eq!(host.waiting(), Waiting { calls: 61, given_up: 1 });
    let _ = (host.read(0, 1)?, host.read(0, 1)?);
    assert_eq!((host.read(0, 1), host.dropped()), (Err(Error::CallNoRoom), 0));
    assert_eq!(host.waiting(), Waiting { calls: 63, given_up: 1 });
    Ok(())
}

#[test]
fn completions_that_no_call_is_owed_are_dropped() -> Result<(), Error> {
    let mut host = RemoteHost::new(1, 1, 0)?;
    let (one, two) = (host.read(0, 1)?, host.read(1, 1)?);
    // of no command, of another queue, with a bit of the first two dwords, and with one above the Status Code Type
    let changes = [(12, 9), (13, 1), (10, 2), (11, 1), (0, 1), (7, 0x80), (15, 0x10), (15, 0x80)];
    for (count, (place, value)) in (0..).zip(changes) {
        let mut cqe = success(1);
        cqe[place] = value;
        host.incoming(Completion(cqe), &[])?;
        assert_eq!(host.dropped(), count);
        assert_eq!((host.poll(two), host.dropped()), (Ok(Reply::Pending), count + 1), "byte {place}");
    }
    // of one that comes twice the first counts
    for (cid, byte) in [(0, 0xA1), (0, 0xB2), (1, 0xC3)] {
        host.incoming(Completion(success(cid)), &[byte; 512])?;
    }
    assert_eq!(over(&mut host, two), Reply::Read(vec![0xC3; 512]));
    assert_eq!(over(&mut host, one), Reply::Read(vec![0xA1; 512]));
    assert_eq!(host.dropped(), 9);
    Ok(())
}

#[test]
fn a_host_on_another_thread_than_its_controller() -> Result<(), Error> {
    let (to_disk, entries) = channel::<Vec<Outgoing>>();
    let (to_host, completions) = channel::<Reaped>();
    let served = thread::spawn(move || {
        let mut disk = Controller::new(&THREE).expect("memory");
        for batch in entries {
            publish(&mut disk, &batch);
            disk.fetch(1).expect("an entry");
            disk.settle().expect("memory");
            for reaped in disk.completions(1) {
                to_host.send(reaped.expect("memory")).expect("a host");
            }
        }
        disk.medium(0).expect("a block")
    });
    let mut host = thread::spawn(move || RemoteHost::new(1, 1, 0)).join().expect("it ends")?;
    for count in 0..100 {
        let call = host.compare_and_write(0, &[count; 512], &[count + 1; 512])?;
        to_disk.send(std::iter::from_fn(|| host.next()).collect()).expect("a controller");
        for _ in 0..2 {
            host.bring(&completions.recv().expect("a controller"));
        }
        assert_eq!(over(&mut host, call), Reply::Swapped);
    }
    drop(to_disk);
    assert_eq!(served.join().expect("it ends"), [100; 512]);
    Ok(())
}

/// A controller and two slot hosts, each on the queue of its number; the serials of the first are above 4,096.
fn two_hosts() -> (Controller, RemoteSlotHost, RemoteSlotHost) {
    let [one, two] = [(1, 4096), (2, 0)]
        .map(|(queue, serial)| RemoteSlotHost::new(queue.into(), queue, FIRST, COUNT, serial).expect("memory"));
    (Controller::new(&THREE).expect("memory"), one, two)
}

/// Carries the host's call, which was begun, until it is over.
fn slot_over(disk: &mut Controller, queue: u16, host: &mut RemoteSlotHost) -> SlotReply {
    loop {
        carry(disk, queue, host);
        match host.poll().expect("it has a call") {
            SlotReply::Pending => {}
            reply => {
                assert_eq!(host.poll(), Err(Error::NoCall));
                return reply;
            }
        }
    }
}

/// The block of a slot that is held by this name.
fn block_of(name: Name) -> [u8; 512] {
    let mut block = [0; 512];
    block[..4].copy_from_slice(&name.host.to_le_bytes());
    block[8..16].copy_from_slice(&name.serial.to_le_bytes());
    block
}

#[test]
fn what_no_slot_host_is_made_of() -> Result<(), Error> {
    for (number, queue, first, count, cause) in [
        (0, 0, FIRST, 0, Error::BadArea),
        (1, 1, 65536, 1, Error::BadArea),
        (1, 1, 65535, 2, Error::BadArea),
        (1, 1, u64::MAX, u32::MAX, Error::BadArea),
        (0, 0, FIRST, COUNT, Error::BadNumber),
        (1, 0, FIRST, COUNT, Error::NoQueue),
    ] {
        assert_eq!(RemoteSlotHost::new(number, queue, first, count, 0).err(), Some(cause));
    }
    let mut host = RemoteSlotHost::new(u32::MAX, u16::MAX, 0, 65536, 0)?;
    assert_eq!((host.claim(65536), host.claim(65535)), (Err(Error::NoSlot), Ok(())));
    assert_eq!(format!("{host:?}"), "RemoteSlotHost { dropped: 0, .. }");
    Ok(())
}

#[test]
fn two_hosts_claim_one_slot() -> Result<(), Error> {
    let (mut disk, mut one, mut two) = two_hosts();
    let dead = Name { host: 7, serial: 1 };
    for slot in [COUNT, u32::MAX] {
        for call in [one.claim(slot), one.release(slot), one.take_over(slot, dead), one.ask_holder(slot)] {
            assert_eq!(call, Err(Error::NoSlot));
        }
    }
    assert_eq!((one.poll(), one.release(1), one.outgoing()), (Err(Error::NoCall), Err(Error::NotHeld), Ok(None)));
    one.claim(1)?;
    for call in [one.claim(1), one.claim_any(), one.release(1), one.take_over(1, dead), one.ask_holder(COUNT)] {
        assert_eq!(call, Err(Error::InCall));
    }
    assert_eq!(one.poll(), Ok(SlotReply::Pending));
    // who is served first has it
    two.claim(1)?;
    assert_eq!(slot_over(&mut disk, 2, &mut two), SlotReply::Held(1));
    assert_eq!(slot_over(&mut disk, 1, &mut one), SlotReply::Taken);
    assert_eq!((one.release(1), two.claim(1)), (Err(Error::NotHeld), Err(Error::Held)));
    one.ask_holder(1)?;
    assert_eq!(slot_over(&mut disk, 1, &mut one), SlotReply::Of(Name { host: 2, serial: 1 }));
    two.release(1)?;
    assert_eq!(slot_over(&mut disk, 2, &mut two), SlotReply::Released);
    two.ask_holder(1)?;
    assert_eq!(slot_over(&mut disk, 2, &mut two), SlotReply::Free);
    one.claim(1)?;
    assert_eq!(slot_over(&mut disk, 1, &mut one), SlotReply::Held(1));
    // (the first of its claims was of a slot that was taken)
    assert_eq!(disk.medium(FIRST + 1)?, block_of(Name { host: 1, serial: 4098 }));
    Ok(())
}

#[test]
fn of_any_slots_the_first_that_nobody_has() -> Result<(), Error> {
    let (mut disk, mut one, mut two) = two_hosts();
    for slot in (0..COUNT).step_by(2) {
        one.claim_any()?;
        assert_eq!(slot_over(&mut disk, 1, &mut one), SlotReply::Held(slot));
        two.claim_any()?;
        assert_eq!(slot_over(&mut disk, 2, &mut two), SlotReply::Held(slot + 1));
    }
    one.claim_any()?;
    assert_eq!(slot_over(&mut disk, 1, &mut one), SlotReply::Taken);
    Ok(())
}

#[test]
fn the_slots_of_a_dropped_host_are_taken_over() -> Result<(), Error> {
    let (mut disk, mut one, mut two) = two_hosts();
    for slot in [0, 2] {
        one.claim(slot)?;
        assert_eq!(slot_over(&mut disk, 1, &mut one), SlotReply::Held(slot));
    }
    drop(one);
    two.ask_holder(0)?;
    let dead = Name { host: 1, serial: 4097 };
    assert_eq!(slot_over(&mut disk, 2, &mut two), SlotReply::Of(dead));
    for bad in [Name { host: 0, serial: 1 }, Name { host: 1, serial: 0 }, Name { host: 2, serial: 1 }] {
        assert_eq!(two.take_over(0, bad), Err(Error::BadName));
    }
    // another name than the slot has
    two.take_over(2, dead)?;
    assert_eq!(slot_over(&mut disk, 2, &mut two), SlotReply::Taken);
    two.take_over(0, dead)?;
    assert_eq!(slot_over(&mut disk, 2, &mut two), SlotReply::Held(0));
    assert_eq!(disk.medium(FIRST)?, block_of(Name { host: 2, serial: 2 }));
    assert_eq!(two.take_over(0, dead), Err(Error::Held));
    two.release(0)?;
    assert_eq!(slot_over(&mut disk, 2, &mut two), SlotReply::Released);
    // whoever has the dead one's number has names of its own, and nothing of what that one held
    let mut again = RemoteSlotHost::new(1, 3, FIRST, COUNT, 4098)?;
    again.claim(0)?;
    assert_eq!(slot_over(&mut disk, 3, &mut again), SlotReply::Held(0));
    assert_eq!(disk.medium(FIRST)?, block_of(Name { host: 1, serial: 4099 }));
    assert_eq!(again.release(2), Err(Error::NotHeld));
    Ok(())
}

#[test]
fn what_slot_hosts_alone_bring_about_never() -> Result<(), Error> {
    let (mut disk, mut one, mut two) = two_hosts();
    // a block that is no name
    let mut writer = RemoteHost::new(3, 3, 0)?;
    let call = writer.write(FIRST + 1, &[0xEE; 512])?;
    carry(&mut disk, 3, &mut writer);
    assert_eq!(over(&mut writer, call), Reply::Written);
    one.ask_holder(1)?;
    assert_eq!(slot_over(&mut disk, 1, &mut one), SlotReply::Foreign);
    // a slot that was taken over from a host that isn't dead: Compare Failure
    one.claim(0)?;
    assert_eq!(slot_over(&mut disk, 1, &mut one), SlotReply::Held(0));
    two.take_over(0, Name { host: 1, serial: 4097 })?;
    assert_eq!(slot_over(&mut disk, 2, &mut two), SlotReply::Held(0));
    one.release(0)?;
    assert_eq!(slot_over(&mut disk, 1, &mut one), SlotReply::Failed { sct: 2, sc: 0x85 });
    assert_eq!(one.release(0), Err(Error::NotHeld));
    // slots that there are no blocks for: LBA Out of Range
    let mut beyond = RemoteSlotHost::new(4, 1, 8, 1, 0)?;
    beyond.claim(0)?;
    assert_eq!(slot_over(&mut disk, 1, &mut beyond), SlotReply::Failed { sct: 0, sc: 0x80 });
    beyond.ask_holder(0)?;
    assert_eq!(slot_over(&mut disk, 1, &mut beyond), SlotReply::Failed { sct: 0, sc: 0x80 });
    Ok(())
}

#[test]
fn no_serial_is_above_the_last() -> Result<(), Error> {
    let (mut disk, mut host) = (Controller::new(&THREE)?, RemoteSlotHost::new(1, 1, FIRST, COUNT, u64::MAX - 1)?);
    host.claim(0)?;
    assert_eq!(slot_over(&mut disk, 1, &mut host), SlotReply::Held(0));
    assert_eq!(disk.medium(FIRST)?, block_of(Name { host: 1, serial: u64::MAX }));
    let dead = Name { host: 2, serial: 1 };
    for call in [host.claim(1), host.claim_any(), host.take_over(1, dead)] {
        assert_eq!(call, Err(Error::CallNoSerial));
    }
    assert_eq!(host.outgoing()?, None);
    // (a release draws none)
    host.release(0)?;
    assert_eq!(slot_over(&mut disk, 1, &mut host), SlotReply::Released);
    Ok(())
}

#[test]
fn completions_that_no_slot_call_is_owed_are_dropped() -> Result<(), Error> {
    let mut host = RemoteSlotHost::new(1, 1, FIRST, COUNT, 0)?;
    host.claim(3)?;
    let mut reserved = success(1);
    reserved[4] = 1;
    for cqe in [success(2), reserved, success(0), success(0), success(1)] {
        host.incoming(Completion(cqe), &[])?;
    }
    assert_eq!(host.dropped(), 0);
    for _ in 0..4 {
        assert_eq!(host.poll(), Ok(SlotReply::Pending));
    }
    assert_eq!((host.dropped(), host.poll(), host.dropped()), (3, Ok(SlotReply::Held(3)), 3));
    Ok(())
}
