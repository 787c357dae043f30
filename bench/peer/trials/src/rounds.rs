//! What the history of a race says of its rounds and its slots. Each host has one submission queue.

use std::collections::HashMap;

/// A claim or a release that isn't answered.
struct Swap {
    is_claim: bool,
    slot: u64,
}

/// What is known after some lines: the pairs that aren't answered by submission queue and the second's identifier, the
/// rounds that each host made, and how many slots are held by what hosts were told.
#[derive(Default)]
struct Rounds {
    unanswered: HashMap<(u64, u64), Swap>,
    made: HashMap<u64, u64>,
    held: i64,
}

// Some bytes of a word in hexadecimal, the least first.
fn number(word: &str, bytes: std::ops::Range<usize>) -> Option<u64> {
    bytes.rev().try_fold(0, |sum, place| Some(sum << 8 | u64::from_str_radix(word.get(2 * place..2 * place + 2)?, 16).ok()?))
}

impl Rounds {
    // A pair of a Compare with what a slot has and a Write of what it will have; a claim compares with zeros.
    fn publish(&mut self, words: &[&str]) -> Option<()> {
        let [queue, compare, old, "+", write, _] = words else { return None };
        let swap = Swap { is_claim: *old == "00", slot: number(compare, 40..48)? };
        self.unanswered.insert((queue.parse().ok()?, number(write, 2..4)?), swap);
        Some(())
    }

    // The completion of a pair's second says what became of it: a claim's round ends where the slot is won or was the last.
    fn reap(&mut self, words: &[&str], slots: u64) -> Option<()> {
        let [_, completion] = words else { return None };
        let (queue, cid) = (number(completion, 10..12)?, number(completion, 12..14)?);
        let Some(swap) = self.unanswered.remove(&(queue, cid)) else { return Some(()) };
        let is_good = number(completion, 14..16)? | 1 == 1;
        if is_good {
            self.held += if swap.is_claim { 1 } else { -1 };
        }
        if swap.is_claim && (is_good || swap.slot + 1 == slots) {
            *self.made.entry(queue).or_default() += 1;
        }
        Some(())
    }

    fn take(&mut self, line: &str, slots: u64) -> Option<()> {
        let words: Vec<&str> = line.split(' ').collect();
        match words.first() {
            Some(&"publish") => self.publish(&words[1..]),
            Some(&"reap") => self.reap(&words[1..], slots),
            _ => Some(()),
        }
    }
}

/// Whether each of so many hosts made so many rounds on so many slots, and each slot is free in the end.
pub fn are_made(output: &[u8], hosts: u64, slots: u64, rounds: u64) -> bool {
    let mut now = Rounds::default();
    let is_read = std::str::from_utf8(output).is_ok_and(|text| text.lines().all(|line| now.take(line, slots).is_some()));
    let is_made = (1..=hosts).all(|host| now.made.get(&host) == Some(&rounds)) && now.made.len() as u64 == hosts;
    is_read && is_made && now.held == 0 && now.unanswered.is_empty()
}

#[cfg(test)]
mod tests {
    use super::are_made;

    // The line of a pair on slot 0 by queue 1 under this identifier, and of its answer.
    fn pair(cid: u8, old: &str, new: &str, status: &str) -> String {
        let entry = |opcode: &str| format!("{opcode}{cid:02X}00{}", "00".repeat(60));
        let completion = format!("{}0100{cid:02X}00{status}", "00".repeat(10));
        format!("publish 1 {} {old} + {} {new}\nreap 1 {completion}\n", entry("0501"), entry("0102"))
    }

    #[test]
    fn rounds_and_slots_are_read() {
        let (claim, lost, release) = (pair(1, "00", "0A", "0100"), pair(1, "00", "0A", "1300"), pair(2, "0A", "00", "0100"));
        let text = |lines: &[&String]| lines.iter().map(|line| line.as_str()).collect::<String>().into_bytes();
        assert!(are_made(&text(&[&claim, &release]), 1, 1, 1));
        assert!(are_made(&text(&[&claim, &release, &lost]), 1, 1, 2));
        // A slot that stays held, a round that wasn't made, a host that made none, a claim that wasn't the last slot's.
        assert!(!are_made(&text(&[&claim]), 1, 1, 1));
        assert!(!are_made(&text(&[&claim, &release]), 1, 1, 2));
        assert!(!are_made(&text(&[&claim, &release]), 2, 1, 1));
        assert!(!are_made(&text(&[&lost]), 1, 2, 1));
        assert!(!are_made(b"publish 1\n", 1, 1, 0));
    }
}
