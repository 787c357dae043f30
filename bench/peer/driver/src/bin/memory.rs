//! The memory of the product and of the peer: the peak of a run less that of an empty one, for each step.

use driver::{by_hand, product};
use trials::lists::*;
use driver::memory::counted;

fn main() {
    println!("an entry of the peer's history has {} bytes", size_of::<peer::Entry>());
    println!("| workload | steps | product bytes/step | peer bytes/step | ratio | product allocations/step | peer allocations/step | largest block asked, product | peer |");
    println!("|---|---|---|---|---|---|---|---|---|");
    for (name, list) in [
        ("Writes of 1 block, 98,304 steps", writes(numbers(1024, 0), 1, 16_384)),
        ("Writes of 1 block, 131,070 steps", writes(numbers(1024, 0), 1, 21_845)),
        ("Flushes, refused steps left out", {
            let mut list = List::new(numbers(16, 0));
            let entry = list.entry(&peer::sqe::command(FLUSH, 0, 0, 0, 0), &[]);
            (1..=26_214).for_each(|ticket| list.alone(ticket, entry, 0, &[]));
            list
        }),
        ("fused pairs of 1 block", pairs(numbers(1024, 0), 14_563)),
        ("Reads of 256 blocks", reads(numbers(1024, 255), 256, 251)),
        ("Writes of 256 blocks", writes(numbers(1024, 255), 256, 251)),
        ("16 queues, 256 tickets, mixed", mixed(7, 131_000)),
        ("256 open units", many_open(12)),
    ] {
        let (n, a, b) = (&list.config, &list.asked[..], &list.bytes[..]);
        let steps = a.len() as f64;
        let (ours, our_calls, our_largest) = counted(|| product::run(n, a, b));
        let (theirs, their_calls, their_largest) = counted(|| by_hand::run(n, a, b));
        let (our_base, _, _) = counted(|| product::run(n, &[], b));
        let (their_base, _, _) = counted(|| by_hand::run(n, &[], b));
        println!(
            "| {name} | {steps} | {:.1} | {:.1} | {:.2} | {:.2} | {:.2} | {our_largest} | {their_largest} |",
            (ours - our_base) as f64 / steps,
            (theirs - their_base) as f64 / steps,
            (ours - our_base) as f64 / (theirs - their_base) as f64,
            our_calls as f64 / steps,
            their_calls as f64 / steps,
        );
        println!("| .. an empty controller | | {our_base} | {their_base} | {:.2} | | | | |", our_base as f64 / their_base as f64);
    }
    println!("\n| text | lines | product bytes/line | peer bytes/line | ratio | product allocations/line | peer allocations/line |\n|---|---|---|---|---|---|---|");
    for (name, list) in [("script: Writes of 1 block", writes(numbers(1024, 0), 1, 2_000)), ("script: mixed", mixed(7, 20_000))] {
        let script = list.script();
        let mut output = Vec::new();
        by_hand::script(&script, &mut output);
        let history: Vec<u8> = output.split_inclusive(|byte| *byte == b'\n').filter(|line| !line.starts_with(b"refused")).collect::<Vec<_>>().concat();
        let lines = history.iter().filter(|byte| **byte == b'\n').count() as f64;
        let (ours, our_calls, _) = counted(|| product::parse(&list.config, &history));
        let (theirs, their_calls, _) = counted(|| by_hand::parse(&history));
        println!("| {name}, its history read | {lines} | {:.1} | {:.1} | {:.2} | {:.2} | {:.2} |", ours as f64 / lines, theirs as f64 / lines, ours as f64 / theirs as f64, our_calls as f64 / lines, their_calls as f64 / lines);
    }
}
