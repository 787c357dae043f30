//! What both kinds of parts do alike.

use peer::parts::{Cids, Jobs, Reserved, submission, waiting};
use peer::queues::SubmissionQueue;
use peer::{Entry, Mode, Range, Submission};
use std::collections::BTreeMap;

// Whether these tickets are in flight and no other up to the last that was put.
fn assert_has(jobs: &Jobs<u64>, there: &BTreeMap<u64, u64>, last: u64) {
    assert!(jobs.iter().eq(there.iter().map(|(ticket, job)| (*ticket, job))));
    for ticket in 0..=last + 1 {
        assert_eq!(jobs.get(ticket), there.get(&ticket), "ticket {ticket}");
    }
}

#[test]
fn tickets_are_found_while_they_are_in_flight() {
    for limit in [1, 2, 3, 8] {
        let (mut jobs, mut there) = (Jobs::new(limit), BTreeMap::new());
        for ticket in 1..=200 {
            // where all slots are taken one goes: the oldest, the newest or one between, in turn
            if jobs.is_full() {
                let place = [0, limit - 1, limit / 2][ticket as usize % 3];
                let gone = *there.keys().nth(place).expect("a ticket");
                assert_eq!(jobs.remove(gone), there.remove(&gone));
                assert!(jobs.remove(gone).is_none());
            }
            jobs.insert(ticket, 1000 + ticket);
            there.insert(ticket, 1000 + ticket);
            assert_eq!(jobs.is_full(), there.len() == limit);
            assert_has(&jobs, &there, ticket);
        }
    }
}

#[test]
fn a_change_of_a_job_stays() {
    let mut jobs = Jobs::new(2);
    jobs.insert(7, 3);
    *jobs.get_mut(7).expect("a job") = 4;
    assert_eq!(jobs.get(7), Some(&4));
    assert!(jobs.get_mut(8).is_none());
}

#[test]
fn a_cid_is_in_use_until_each_of_its_users_has_ended() {
    for cid in [0, 63, 64, 65_535] {
        let mut cids = Cids::default();
        assert!(!cids.has(cid));
        (0..3).for_each(|_| cids.put(cid));
        for _ in 0..3 {
            assert!(cids.has(cid));
            cids.release(cid);
        }
        assert!(!cids.has(cid));
    }
}

#[test]
fn cids_are_in_use_each_by_itself() {
    let mut cids = Cids::default();
    [5, 64, 65_535].into_iter().for_each(|cid| cids.put(cid));
    cids.release(64);
    let there: Vec<u16> = (0..=65_535).filter(|cid| cids.has(*cid)).collect();
    assert_eq!(there, [5, 65_535]);
}

#[test]
fn a_ring_of_three_slots_takes_two_entries_and_its_head_wraps() {
    let mut ring = SubmissionQueue::new(3);
    let mut history = Vec::new();
    for (turn, head) in [2, 1, 0, 2].into_iter().enumerate() {
        let batch = [0, 1].map(|place| Submission { entry: [2 * turn as u8 + place; 64], payload: Vec::new() });
        assert_eq!(ring.room(), 2);
        ring.waiting.extend(waiting(&batch, history.len()));
        history.push(Entry::Publish { queue: 1, batch: batch.to_vec() });
        assert_eq!(ring.room(), 0);
        for wanted in &batch {
            let taken = ring.take().expect("an entry");
            assert_eq!(submission(&history, &taken), wanted);
        }
        assert!(ring.take().is_none());
        assert_eq!(ring.head, head);
    }
}

const MODES: [Mode; 2] = [Mode::Shared, Mode::Exclusive];

fn range(slba: u64, blocks: u32) -> Range {
    Range { slba, blocks }
}

#[test]
fn two_units_conflict_where_they_share_a_block_and_one_is_exclusive() {
    for (held, asked) in MODES.into_iter().flat_map(|held| MODES.map(|asked| (held, asked))) {
        let mut reserved = Reserved::new(8);
        reserved.hold(1, range(2, 3), held);
        let one_is_exclusive = held == Mode::Exclusive || asked == Mode::Exclusive;
        for (slba, blocks, shares) in [(0, 2, false), (0, 3, true), (3, 1, true), (4, 4, true), (0, 8, true), (5, 3, false)] {
            let conflicts = reserved.conflicts(range(slba, blocks), asked);
            assert_eq!(conflicts, shares && one_is_exclusive, "{blocks} blocks from {slba}, {held:?}, {asked:?}");
        }
        reserved.release(1, range(2, 3), held);
        assert!(!reserved.conflicts(range(0, 8), Mode::Exclusive));
    }
}

#[test]
fn a_block_that_units_share_is_free_when_the_last_of_them_ends() {
    let mut reserved = Reserved::new(4);
    reserved.hold(1, range(0, 2), Mode::Shared);
    reserved.hold(2, range(1, 2), Mode::Shared);
    reserved.release(1, range(0, 2), Mode::Shared);
    assert!(!reserved.conflicts(range(0, 1), Mode::Exclusive));
    assert!(reserved.conflicts(range(1, 1), Mode::Exclusive));
    reserved.release(2, range(1, 2), Mode::Shared);
    assert!(!reserved.conflicts(range(0, 4), Mode::Exclusive));
}
