//! Whether the controller is the same over each kind of parts: on each workload, as it is and with steps left out at
//! random, so that others are refused, its history is legal, and its answers, next steps, blocks and history come to the
//! number that stands here, whatever the parts are.

use peer::Core;
use peer::check::check;
use peer::text::put_entry;
use trials::asked::{Asked, step_of};
use trials::lists::*;

/// All that was written, as one number (FNV-1a).
struct Digest(u64);

impl Digest {
    fn take(&mut self, bytes: &[u8]) {
        self.0 = bytes.iter().fold(self.0, |sum, byte| (sum ^ u64::from(*byte)).wrapping_mul(0x100_0000_01B3));
    }
}

// Makes these steps; how many are refused.
fn make(list: &List, asked: &[Asked], digest: &mut Digest) -> usize {
    let mut core = Core::new(list.config);
    let mut refused = 0;
    for asked in asked {
        let answer = core.step(step_of(&list.bytes, asked).expect("a step"));
        refused += usize::from(answer.is_err());
        digest.take(format!("{answer:?}{:?}", core.ready()).as_bytes());
    }
    for lba in 0..u64::from(list.config.blocks) {
        let block = core.medium(lba).expect("a block");
        if block.iter().any(|byte| *byte != 0) {
            digest.take(&lba.to_le_bytes());
            digest.take(block);
        }
    }
    let mut lines = Vec::new();
    core.history().iter().for_each(|entry| put_entry(&mut lines, entry));
    digest.take(&lines);
    assert_eq!(check(&list.config, core.history()), Ok(()));
    refused
}

// Of each list, whole and with one step in so many left out.
fn digest_of(lists: impl IntoIterator<Item = (List, u64)>) -> u64 {
    let mut digest = Digest(0xCBF2_9CE4_8422_2325);
    for (seed, (list, one_in)) in (1..).zip(lists) {
        make(&list, &list.asked, &mut digest);
        let random = Random::new(seed);
        let some: Vec<Asked> = list.asked.iter().filter(|_| !random.one_in(one_in)).copied().collect();
        assert!(make(&list, &some, &mut digest) > 0, "no step is refused");
    }
    digest.0
}

#[test]
fn one_ticket_at_a_time() {
    let lists = [
        (writes(numbers(1024, 0), 1, 200), 7),
        (writes(numbers(64, 15), 16, 20), 20),
        (reads(numbers(64, 15), 16, 20), 20),
        (pairs(numbers(64, 0), 100), 7),
        (over_boundaries(20), 20),
    ];
    assert_eq!(digest_of(lists), 0x78B6_15FF_C4AE_8966);
}

#[test]
fn many_tickets() {
    let lists = [
        (in_flight(256, 200), 20),
        (idle_in_flight(20, 100), 20),
        (flushes_beside(20, 100), 20),
        (grants_beside(20, 16, 10), 20),
        (many_open(1), 50),
    ];
    assert_eq!(digest_of(lists), 0x2B8A_031E_B702_4A39);
}

#[test]
fn mixed_operations() {
    assert_eq!(digest_of((1..=5).map(|seed| (mixed(seed, 3_000), 50))), 0x4F18_8FBC_7282_F893);
}
