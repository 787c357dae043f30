//! What the calls answer that safe Rust can't ask: handles that own nothing or something already, rooms that are too
//! small, and data that aren't those of the entries.
use std::ptr;
use vandrexu_sys::*;

const CONFIG: vandrexu_config = vandrexu_config {
    blocks: 8,
    awun: 1,
    acwu: 1,
    nabsn: 0,
    nabo: 0,
    pairs: 1,
    sq_size: 4,
    cq_size: 4,
    jobs: 8,
    cqs: 1,
};

/// An entry of one block of namespace 1.
fn entry(opcode: u8, cid: u8, count: usize) -> vandrexu_entry {
    let mut bytes = [0; 64];
    (bytes[0], bytes[2], bytes[4]) = (opcode, cid, 1);
    vandrexu_entry { bytes, count }
}

#[test]
fn a_handle_owns_nothing_before_it_is_made_and_after_it_is_freed() {
    let (mut disk, mut checker) = (VANDREXU_CONTROLLER_NONE, VANDREXU_CHECKER_NONE);
    let mut work = vandrexu_work::default();
    unsafe {
        for _ in 0..2 {
            assert_eq!(vandrexu_controller_fetch(&mut disk, 1, &mut work), VANDREXU_NO_HANDLE);
            assert_eq!(vandrexu_checker_take_line(&mut checker, b"".as_ptr(), 0), VANDREXU_NO_HANDLE);
            assert_eq!(vandrexu_controller_new(&CONFIG, &mut disk), VANDREXU_DONE);
            assert_eq!(vandrexu_checker_new(&CONFIG, &mut checker), VANDREXU_DONE);
            assert_eq!(vandrexu_controller_new(&CONFIG, &mut disk), VANDREXU_IN_USE);
            assert_eq!(vandrexu_checker_new(&CONFIG, &mut checker), VANDREXU_IN_USE);
            for _ in 0..2 {
                vandrexu_controller_free(&mut disk);
                vandrexu_checker_free(&mut checker);
                assert_eq!((disk.at, disk.live), (ptr::null_mut(), 0));
                assert_eq!((checker.at, checker.live), (ptr::null_mut(), 0));
            }
        }
    }
    assert_eq!(work, vandrexu_work::default());
}

#[test]
fn so_does_the_handle_of_a_slot_host() {
    let (mut disk, mut host) = (VANDREXU_DISK_NONE, VANDREXU_SLOT_HOST_NONE);
    let mut reply = vandrexu_slot_reply { kind: 9, ..Default::default() };
    unsafe {
        for _ in 0..2 {
            assert_eq!(vandrexu_slot_host_new(&mut disk, 1, 1, &mut host), VANDREXU_NO_HANDLE);
            assert_eq!(vandrexu_slot_host_new(&mut disk, 0, 0, &mut host), VANDREXU_NO_HANDLE);
            for answer in [
                vandrexu_slot_claim(&mut host, 0),
                vandrexu_slot_claim_any(&mut host),
                vandrexu_slot_release(&mut host, 0),
                vandrexu_slot_take_over(&mut host, 0, 2, 1),
                vandrexu_slot_ask_holder(&mut host, 0),
                vandrexu_slot_poll(&mut host, &mut reply),
            ] {
                assert_eq!(answer, VANDREXU_NO_HANDLE);
            }
            assert_eq!(vandrexu_slot_disk_new(&CONFIG, 2, 2, 4, &mut disk), VANDREXU_DONE);
            assert_eq!(vandrexu_slot_disk_new(&CONFIG, 2, 2, 4, &mut disk), VANDREXU_IN_USE);
            // (of two causes the first is told: no slots, and a host's handle that owns something)
            assert_eq!(vandrexu_slot_disk_new(&CONFIG, 2, 2, 0, &mut disk), VANDREXU_BAD_AREA);
            assert_eq!(vandrexu_slot_host_new(&mut disk, 1, 1, &mut host), VANDREXU_DONE);
            assert_eq!(vandrexu_slot_host_new(&mut disk, 1, 1, &mut host), VANDREXU_IN_USE);
            vandrexu_disk_free(&mut disk);
            assert_eq!(vandrexu_slot_host_new(&mut disk, 1, 1, &mut host), VANDREXU_IN_USE);
            for _ in 0..2 {
                vandrexu_disk_free(&mut disk);
                vandrexu_slot_host_free(&mut host);
                assert_eq!((host.at, host.live), (ptr::null_mut(), 0));
            }
        }
    }
    assert_eq!(reply, vandrexu_slot_reply { kind: 9, ..Default::default() });
}

#[test]
fn a_room_that_is_too_small_is_told_how_much_is_wanted() {
    let mut disk = VANDREXU_CONTROLLER_NONE;
    let (mut work, mut granted, mut blocked) =
        (vandrexu_work::default(), vandrexu_granted::default(), vandrexu_blocked::default());
    let (mut cqe, mut count, mut out, data) = ([0; 16], 7, [7; 512], [0xA1; 512]);
    unsafe {
        assert_eq!(vandrexu_controller_new(&CONFIG, &mut disk), VANDREXU_DONE);
        let entries = [entry(1, 1, 512), entry(2, 2, 0)];
        let mut publish =
            |count, length| vandrexu_controller_publish(&mut disk, 1, entries.as_ptr(), count, data.as_ptr(), length);
        assert_eq!(
            (publish(2, 511), publish(2, 0), publish(1, 511)),
            (VANDREXU_BAD_ENTRY, VANDREXU_BAD_ENTRY, VANDREXU_BAD_ENTRY)
        );
        assert_eq!(publish(2, 512), VANDREXU_DONE);
        for ticket in 1..=2 {
            assert_eq!(vandrexu_controller_fetch(&mut disk, 1, &mut work), VANDREXU_DONE);
            assert_eq!(vandrexu_controller_grant(&mut disk, ticket, &mut granted), VANDREXU_DONE);
            assert_eq!(vandrexu_controller_block(&mut disk, ticket, &mut blocked), VANDREXU_DONE);
            assert_eq!(vandrexu_controller_post(&mut disk, ticket, cqe.as_mut_ptr()), VANDREXU_DONE);
            assert_eq!(vandrexu_controller_reap(&mut disk, 1, cqe.as_mut_ptr(), &mut count), VANDREXU_DONE);
        }
        assert_eq!(count, 512);
        assert_eq!(vandrexu_controller_data(&mut disk, out.as_mut_ptr(), 511, &mut count), VANDREXU_TOO_SMALL);
        assert_eq!((count, out), (512, [7; 512]));
        assert_eq!(vandrexu_controller_data(&mut disk, out.as_mut_ptr(), 512, &mut count), VANDREXU_DONE);
        assert_eq!(out, data);
        vandrexu_controller_free(&mut disk);
    }
}

#[test]
fn so_do_the_handles_of_remote_hosts() {
    let (mut remote, mut host) = (VANDREXU_REMOTE_NONE, VANDREXU_REMOTE_SLOT_HOST_NONE);
    let mut entry = vandrexu_outgoing { bytes: [9; 64], count: 9, more: 9, queue: 9, zeros: [9; 6] };
    let (mut reply, mut slot_reply) = (vandrexu_reply::default(), vandrexu_slot_reply::default());
    let (mut call, mut count, mut needed, mut given_up, mut out, cqe) = (7, 7, 7, 7, [7; 512], [0; 16]);
    unsafe {
        for _ in 0..2 {
            for answer in [
                vandrexu_remote_read(&mut remote, 0, 1, &mut call),
                vandrexu_remote_poll(&mut remote, 0, &mut reply),
                vandrexu_remote_give_up(&mut remote, 0),
                vandrexu_remote_waiting(&mut remote, &mut needed, &mut given_up),
                vandrexu_remote_data(&mut remote, out.as_mut_ptr(), 512, &mut needed),
                vandrexu_remote_outgoing(&mut remote, &mut entry, out.as_mut_ptr(), 512),
                vandrexu_remote_incoming(&mut remote, cqe.as_ptr(), out.as_ptr(), 0),
                vandrexu_remote_dropped(&mut remote, &mut count),
                vandrexu_remote_slot_claim(&mut host, 0),
                vandrexu_remote_slot_claim_any(&mut host),
                vandrexu_remote_slot_release(&mut host, 0),
                vandrexu_remote_slot_take_over(&mut host, 0, 2, 1),
                vandrexu_remote_slot_ask_holder(&mut host, 0),
                vandrexu_remote_slot_poll(&mut host, &mut slot_reply),
                vandrexu_remote_slot_outgoing(&mut host, &mut entry, out.as_mut_ptr(), 512),
                vandrexu_remote_slot_incoming(&mut host, cqe.as_ptr(), out.as_ptr(), 0),
                vandrexu_remote_slot_dropped(&mut host, &mut count),
            ] {
                assert_eq!(answer, VANDREXU_NO_HANDLE);
            }
            assert_eq!(vandrexu_remote_new(1, 1, 0, 0, 0, &mut remote), VANDREXU_DONE);
            assert_eq!(vandrexu_remote_new(0, 0, 0, 65537, 0, &mut remote), VANDREXU_IN_USE);
            assert_eq!(vandrexu_remote_slot_host_new(1, 1, 2, 4, 0, &mut host), VANDREXU_DONE);
            assert_eq!(vandrexu_remote_slot_host_new(0, 0, 2, 0, 0, &mut host), VANDREXU_IN_USE);
            for _ in 0..2 {
                vandrexu_remote_free(&mut remote);
                vandrexu_remote_slot_host_free(&mut host);
                assert_eq!((remote.at, remote.live), (ptr::null_mut(), 0));
                assert_eq!((host.at, host.live), (ptr::null_mut(), 0));
            }
        }
    }
    assert_eq!((call, count, needed, given_up, out, entry.bytes), (7, 7, 7, 7, [7; 512], [9; 64]));
    assert_eq!((reply, slot_reply), (vandrexu_reply::default(), vandrexu_slot_reply::default()));
}

#[test]
fn so_is_that_of_an_entry_that_is_to_be_carried() {
    let mut remote = VANDREXU_REMOTE_NONE;
    let mut entry = vandrexu_outgoing { bytes: [9; 64], count: 9, more: 9, queue: 9, zeros: [9; 6] };
    let (mut call, mut needed, mut out, data, mut cqe) = (7, 7, [7; 512], [0xA1; 512], [0; 16]);
    (cqe[10], cqe[12]) = (1, 1);
    let mut reply = vandrexu_reply::default();
    unsafe {
        assert_eq!(vandrexu_remote_new(1, 1, 0, 0, 0, &mut remote), VANDREXU_DONE);
        assert_eq!(vandrexu_remote_write(&mut remote, 3, data.as_ptr(), 512, &mut call), VANDREXU_DONE);
        assert_eq!(vandrexu_remote_read(&mut remote, 3, 1, &mut call), VANDREXU_DONE);
        assert_eq!(vandrexu_remote_outgoing(&mut remote, &mut entry, out.as_mut_ptr(), 511), VANDREXU_TOO_SMALL);
        assert_eq!((entry.bytes[0], entry.count, entry.more, entry.queue, entry.zeros), (1, 512, 0, 1, [0; 6]));
        assert_eq!(out, [7; 512]);
        assert_eq!(vandrexu_remote_outgoing(&mut remote, &mut entry, out.as_mut_ptr(), 512), VANDREXU_DONE);
        assert_eq!((entry.bytes[0], out), (1, data));
        assert_eq!(vandrexu_remote_outgoing(&mut remote, &mut entry, out.as_mut_ptr(), 0), VANDREXU_DONE);
        assert_eq!(vandrexu_remote_outgoing(&mut remote, &mut entry, out.as_mut_ptr(), 0), VANDREXU_NOTHING_READY);
        out = [7; 512];
        assert_eq!(vandrexu_remote_incoming(&mut remote, cqe.as_ptr(), data.as_ptr(), 512), VANDREXU_DONE);
        assert_eq!(vandrexu_remote_poll(&mut remote, call, &mut reply), VANDREXU_DONE);
        assert_eq!(vandrexu_remote_data(&mut remote, out.as_mut_ptr(), 511, &mut needed), VANDREXU_TOO_SMALL);
        assert_eq!((reply.kind, needed, out), (VANDREXU_REPLY_READ, 512, [7; 512]));
        vandrexu_remote_free(&mut remote);
    }
}
