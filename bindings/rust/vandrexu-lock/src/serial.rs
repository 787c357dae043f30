//! Serials of names. A host's number may have had names before, of runs that ended and of others that go on, and none of them
//! may come again: a release that was late would free the slot of whoever has its name now.
use std::collections::hash_map::RandomState;
use std::hash::BuildHasher;
use std::process;
use std::time::{Duration, SystemTime};

/// How many bits of a serial are by chance. The others, above them, are milliseconds, and last until the year 2109.
const CHANCE: u32 = 22;

/// A serial of this moment, with these bits of chance.
fn of_moment(since_1970: Duration, chance: u64) -> u64 {
    (since_1970.as_millis() as u64) << CHANCE | chance >> (64 - CHANCE)
}

/// Bits that the system's own random numbers make, and the moment and the process with them.
fn chance(since_1970: Duration) -> u64 {
    RandomState::new().hash_one((since_1970.as_nanos(), process::id()))
}

/// A serial for a new slot host, above which it draws its own. It rises with the clock. Where the clock goes back, or stands,
/// it is another all the same, but for one chance in four million of each serial that was drawn in the same millisecond.
pub fn serial() -> u64 {
    let now = SystemTime::now().duration_since(SystemTime::UNIX_EPOCH).unwrap_or_default();
    of_moment(now, chance(now))
}

#[cfg(test)]
mod tests {
    use super::{Duration, chance, of_moment, serial};
    use std::collections::HashSet;

    #[test]
    fn a_serial_rises_with_each_millisecond_whatever_the_chance() {
        let at = |millis, chance| of_moment(Duration::from_millis(millis), chance);
        assert_eq!((at(1, 0), at(1, u64::MAX)), (1 << 22, (2 << 22) - 1));
        assert!(at(1_790_000_000_000, u64::MAX) < at(1_790_000_000_001, 0));
        // (the last day of 2108)
        assert!(at(4_386_355_200_000, u64::MAX) < u64::MAX - 1_000_000);
        assert!(serial() > at(1_700_000_000_000, 0));
    }

    #[test]
    fn where_the_clock_stands_or_goes_back_no_serial_comes_again() {
        let one = Duration::from_millis(1_790_000_000_000);
        // (of 64 in one millisecond two are alike once in two thousand runs, so it is 64 bits that are compared)
        let drawn: HashSet<u64> = (0..64).map(|_| chance(one)).collect();
        assert_eq!(drawn.len(), 64);
        let serials: HashSet<u64> = (0..64).map(|_| of_moment(one, chance(one))).collect();
        assert!(serials.len() > 60, "{} of 64", serials.len());
    }
}
