//! Times the product and the peer by calls, interleaved, and prints medians and ratios: bench [REPEATS] [WORD..]
//! runs the tables whose names contain one of the words.

use driver::{by_hand, product};
use trials::lists::*;
use std::cell::RefCell;
use std::hint::black_box;
use std::time::Instant;

fn median(times: &mut [f64]) -> f64 {
    times.sort_by(f64::total_cmp);
    times[times.len() / 2]
}

fn time<T>(run: impl FnOnce() -> T) -> f64 {
    let start = Instant::now();
    black_box(run());
    start.elapsed().as_nanos() as f64
}

struct Row {
    ours: f64,
    theirs: f64,
    // of the least times
    least: f64,
}

fn compare(repeats: usize, ours: impl Fn() -> u64, theirs: impl Fn() -> u64) -> Row {
    assert_eq!(ours(), theirs());
    let (mut one, mut other) = (Vec::new(), Vec::new());
    for turn in 0..repeats {
        if turn % 2 == 0 {
            one.push(time(&ours));
            other.push(time(&theirs));
        } else {
            other.push(time(&theirs));
            one.push(time(&ours));
        }
    }
    let (ours, theirs) = (median(&mut one), median(&mut other));
    Row { ours, theirs, least: one[0] / other[0] }
}

fn row(repeats: usize, name: &str, list: &List) {
    let (n, a, b) = (&list.config, &list.asked[..], &list.bytes[..]);
    let steps = a.len() as f64;
    let whole = compare(repeats, || product::run(n, a, b), || by_hand::run(n, a, b));
    let empty = compare(repeats, || product::run(n, &[], b), || by_hand::run(n, &[], b));
    let (mut all, mut freed) = (Vec::new(), Vec::new());
    for _ in 0..repeats {
        let (one, two) = by_hand::run_timed(n, a, b);
        all.push(one as f64);
        freed.push(two as f64);
    }
    let freed = median(&mut freed) / median(&mut all);
    let net = |all: f64, empty: f64| (all - empty) / steps;
    let (mine, other) = (net(whole.ours, empty.ours), net(whole.theirs, empty.theirs));
    println!(
        "| {name} | {steps} | {:.1} | {:.1} | {:.2} | {:.2} | {mine:.1} | {other:.1} | {:.2} | {:.1} M | {:.1} M | {:.0} % |",
        whole.ours / steps,
        whole.theirs / steps,
        whole.ours / whole.theirs,
        whole.least,
        mine / other,
        1000.0 / (whole.ours / steps),
        1000.0 / (whole.theirs / steps),
        100.0 * freed,
    );
}

fn head(name: &str) {
    let peer = if cfg!(feature = "boxed") { "boxed" } else { "indexed" };
    println!("\n{name}, beside the {peer} peer\n");
    println!("| workload | steps | product ns/step | peer ns/step | ratio | ratio of least | product less an empty run | peer less an empty run | ratio | product steps/s | peer steps/s | peer: freeing, of the steps |");
    println!("|---|---|---|---|---|---|---|---|---|---|---|---|");
}

fn main() {
    let words: Vec<String> = std::env::args().skip(1).collect();
    let repeats = words.first().and_then(|word| word.parse().ok()).unwrap_or(11);
    let wants = |name: &str| {
        let mut named = words.iter().filter(|word| word.parse::<u64>().is_err()).peekable();
        named.peek().is_none() || named.any(|word| name.contains(word.as_str()))
    };
    if wants("workloads") {
        head("Workloads");
        row(repeats, "(a) Writes of 1 block", &writes(numbers(1024, 0), 1, 20_000));
        row(repeats, "(b) fused pairs of 1 block", &pairs(numbers(1024, 0), 15_000));
        row(repeats, "(c) Reads of 256 blocks", &reads(numbers(1024, 255), 256, 400));
        row(repeats, "(d) Writes of 256 blocks", &writes(numbers(1024, 255), 256, 400));
        row(repeats, "(e) 16 queues, 256 tickets, mixed", &mixed(7, 200_000));
        row(repeats, "(f) the same, 256 open units", &many_open(15));
    }
    if wants("flight") {
        head("Growth with tickets in flight: the oldest ends, a new one comes, all have open units");
        for tickets in [1, 2, 4, 8, 16, 32, 64, 128, 256] {
            row(repeats, &format!("{tickets} in flight"), &in_flight(tickets, 10_000));
        }
    }
    if wants("idle") {
        head("Growth with tickets in flight: the newest ends, the others stay with open units");
        for tickets in [1, 4, 16, 64, 256] {
            row(repeats, &format!("{tickets} in flight"), &idle_in_flight(tickets, 10_000));
        }
    }
    if wants("volume") {
        head("Growth with the blocks of the volume: Writes of 1 block");
        for blocks in [16, 1024, 65_536] {
            row(repeats, &format!("{blocks} blocks"), &writes(numbers(blocks, 0), 1, 10_000));
        }
    }
    if wants("parts") {
        println!("\nWhat grows with 255 tickets beside, a turn: the nanoseconds with 255 less those with 0\n");
        println!("| part | product 0 beside | product 255 | peer 0 beside | peer 255 | product grows by | peer grows by |\n|---|---|---|---|---|---|---|");
        type Make = fn(u16, usize) -> List;
        let parts: [(&str, Make, f64); 4] = [
            ("Fetch (a turn of Flush): the CIDs in use", |beside, turns| flushes_beside(beside, turns), 1.0),
            ("Grant and last Block (of 16 units): conflicts, release", |beside, turns| grants_beside(beside, 16, turns / 16), 16.0),
            ("a turn of six steps, the newest ends", |beside, turns| idle_in_flight(beside + 1, turns), 1.0),
            ("a turn of six steps, the oldest ends", |beside, turns| in_flight(beside + 1, turns), 1.0),
        ];
        for (name, make, units) in parts {
            let turns = 16_000;
            let of = |beside: u16| {
                let (list, base) = (make(beside, turns), make(beside, 16));
                let (n, a, b) = (&list.config, &list.asked[..], &list.bytes[..]);
                let all = compare(repeats, || product::run(n, a, b), || by_hand::run(n, a, b));
                let (a, b) = (&base.asked[..], &base.bytes[..]);
                let less = compare(repeats, || product::run(n, a, b), || by_hand::run(n, a, b));
                let turns = if units > 1.0 { turns as f64 / 16.0 * units } else { turns as f64 };
                ((all.ours - less.ours) / turns, (all.theirs - less.theirs) / turns)
            };
            let (few, many) = (of(0), of(255));
            println!(
                "| {name} | {:.0} | {:.0} | {:.0} | {:.0} | {:.0} | {:.0} |",
                few.0, many.0, few.1, many.1, many.0 - few.0, many.1 - few.1
            );
        }
    }
    if wants("ready") {
        println!("\nOne call of ready, where no ticket can go on: each owes a completion to a queue that is full\n");
        println!("| tickets in flight | product ns | peer ns | ratio |\n|---|---|---|---|");
        for tickets in [1u16, 4, 16, 64, 256] {
            // one completion is posted; the others are owed, and the queue of 2 slots is full
            let mut numbers = numbers(4096, 0);
            (numbers.jobs, numbers.cq_size, numbers.sq_size) = (tickets.min(255) + 1, 2, 1024);
            let mut list = List::new(numbers);
            let entry = list.entry(&peer::sqe::command(FLUSH, 0, 0, 0, 0), &[]);
            for _ in 0..=tickets.min(255) {
                list.publish(1, 1, entry, 0, 0);
                list.fetch(1);
            }
            list.post(1);
            let times = 20_000;
            let (n, a, b) = (&list.config, &list.asked[..], &list.bytes[..]);
            let row = compare(repeats, || product::ready(n, a, b, times), || by_hand::ready(n, a, b, times));
            println!("| {tickets} | {:.1} | {:.1} | {:.2} |", row.ours / times as f64, row.theirs / times as f64, row.ours / row.theirs);
        }
    }
    if wants("texts") {
        println!("\nTexts in memory\n\n| text | bytes | product ns/line | peer ns/line | ratio |\n|---|---|---|---|---|");
        for (name, list, script) in [
            ("scripts: Writes of one byte's blocks, with settle", settled_steps(5_000), Some(settled(5_000).into())),
            ("scripts: Writes of 1 block, all bytes spelled", writes(numbers(1024, 0), 1, 2_000), None),
            ("scripts: fused pairs", pairs(numbers(1024, 0), 2_000), None),
            ("scripts: Reads of 256 blocks", reads(numbers(1024, 255), 256, 40), None),
            ("scripts: Writes of 256 blocks", writes(numbers(1024, 255), 256, 40), None),
            ("scripts: 16 queues, mixed", mixed(7, 20_000), None),
        ] {
            let script: Vec<u8> = script.unwrap_or_else(|| list.script());
            let (n, lines_of) = (&list.config, |text: &[u8]| text.iter().filter(|byte| **byte == b'\n').count() as f64);
            let mut output = Vec::new();
            by_hand::script(&script, &mut output);
            let lines = lines_of(&script);
            // neither text is copied out
            let row = compare(repeats, || product::script(&script), || by_hand::script(&script, &mut Vec::new()));
            println!("| {name} | {} | {:.0} | {:.0} | {:.2} |", script.len(), row.ours / lines, row.theirs / lines, row.ours / row.theirs);
            let lines = lines_of(&output);
            let row = compare(repeats, || product::parse(n, &output), || by_hand::parse(&output));
            println!("| its history, read | {} | {:.0} | {:.0} | {:.2} |", output.len(), row.ours / lines, row.theirs / lines, row.ours / row.theirs);
            let (ours, theirs) = (RefCell::new((product::controller_of(n, &list.asked, &list.bytes), vec![0; 1 << 20])), by_hand::history_of(&output));
            let write = || {
                let (controller, room) = &mut *ours.borrow_mut();
                product::print(controller, room, 4)
            };
            let row = compare(repeats, write, || by_hand::print(&theirs, 4));
            println!("| its history, written | {} | {:.0} | {:.0} | {:.2} |", output.len(), row.ours / 4.0 / lines, row.theirs / 4.0 / lines, row.ours / row.theirs);
            let script = refused(&script);
            let lines = lines_of(&script);
            let row = compare(repeats, || product::read_script(&script), || by_hand::read_script(&script));
            println!("| the script, read and refused | {} | {:.0} | {:.0} | {:.2} |", script.len(), row.ours / lines, row.theirs / lines, row.ours / row.theirs);
        }
    }
    if wants("check") {
        println!("\nLines of a history read and checked, in memory\n\n| history | entries | product us | peer us | ratio | product ns/entry | peer ns/entry | product: times the last | peer: times the last |\n|---|---|---|---|---|---|---|---|---|");
        type Make = fn(usize) -> List;
        let makes: [(&str, Make); 6] = [
            ("Writes of 1 block", |steps| writes(numbers(1024, 0), 1, steps / 6)),
            ("fused pairs", |steps| pairs(numbers(1024, 0), steps / 9)),
            ("Reads of 16 blocks", |steps| reads(numbers(1024, 15), 16, (steps / 21).max(1))),
            ("Writes of 16 blocks", |steps| writes(numbers(1024, 15), 16, (steps / 21).max(1))),
            ("Writes of 256 blocks, so few tickets", |steps| writes(numbers(1024, 255), 256, (steps / 261).max(1))),
            ("mixed", |steps| mixed(7, steps)),
        ];
        for (name, make) in makes {
            let mut last = (0.0, 0.0);
            for steps in [100, 1_000, 10_000, 100_000] {
                let list = make(steps);
                let mut text = Vec::new();
                by_hand::script(&list.script(), &mut text);
                let text: Vec<u8> = text
                    .split_inclusive(|byte| *byte == b'\n')
                    .filter(|line| !line.starts_with(b"refused") && !line.starts_with(b"config"))
                    .collect::<Vec<_>>()
                    .concat();
                let entries = text.iter().filter(|byte| **byte == b'\n').count();
                let n = &list.config;
                let times = (100_000 / steps) as u64;
                let row = compare(repeats, || product::check_lines(n, &text, times), || by_hand::check_lines(n, &text, times));
                let (ours, theirs) = (row.ours / times as f64, row.theirs / times as f64);
                println!(
                    "| {name} | {entries} | {:.1} | {:.1} | {:.0} | {:.0} | {:.1} | {:.1} | {:.1} |",
                    ours / 1e3,
                    theirs / 1e3,
                    ours / theirs,
                    ours / entries as f64,
                    theirs / entries as f64,
                    if last.0 > 0.0 { ours / last.0 } else { 0.0 },
                    if last.1 > 0.0 { theirs / last.1 } else { 0.0 },
                );
                last = (ours, theirs);
            }
        }
    }
}
