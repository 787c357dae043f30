//! Runs one workload of one side over and over, for a profiler: spin product|peer WORKLOAD TIMES. Behind a workload may
//! stand what is done of its texts: -script runs its script, -read reads the script's lines, -parse those of its history,
//! -print writes them, five times, and -check checks their entries. BLOCKS:SLOTS:TICKETS:TURNS is `grown` of these numbers.

use driver::{by_hand, product};
use trials::lists::*;
use std::time::Instant;

fn main() {
    let words: Vec<String> = std::env::args().skip(1).collect();
    let [side, name, times] = &words[..] else {
        panic!("spin product|peer WORKLOAD TIMES");
    };
    let times: u64 = times.parse().expect("a number");
    let list = match name.split('-').next().unwrap() {
        "writes" => writes(numbers(1024, 0), 1, 20_000),
        "pairs" => pairs(numbers(1024, 0), 15_000),
        "reads256" => reads(numbers(1024, 255), 256, 400),
        "writes256" => writes(numbers(1024, 255), 256, 400),
        "bounded" => over_boundaries(5_000),
        "mixed" => mixed(7, 200_000),
        "open" => many_open(15),
        "flight" => in_flight(256, 20_000),
        "short" => mixed(7, 4_000),
        "lines" => writes(numbers(1024, 0), 1, 333),
        "settled" => settled_steps(2_500),
        _ => {
            let sizes: Vec<u32> = name.split(':').map(|word| word.parse().expect("a workload, or four numbers")).collect();
            let &[blocks, slots, tickets, turns] = &sizes[..] else { panic!("no workload {name}") };
            grown(blocks, slots as u16, tickets as u16, turns as usize)
        }
    };
    let (n, a, b) = (&list.config, &list.asked[..], &list.bytes[..]);
    let (mut script, mut output, mut room) = (Vec::new(), Vec::new(), vec![0; 1 << 20]);
    let does = name.split('-').nth(1);
    if does.is_some() {
        script = if name.starts_with("settled") { settled(2_500).into() } else { list.script() };
    }
    // (where the script itself is run, it isn't run before, or a profiler counts it twice)
    if matches!(does, Some("parse" | "print" | "check")) {
        by_hand::script(&script, &mut output);
    }
    if does == Some("read") {
        script = refused(&script);
    }
    let history: Vec<u8> = output
        .split_inclusive(|byte| *byte == b'\n')
        .filter(|line| !line.starts_with(b"refused") && !line.starts_with(b"config"))
        .collect::<Vec<_>>()
        .concat();
    let written = (does == Some("print")).then(|| (product::controller_of(n, a, b), by_hand::history_of(&history)));
    let (mut ours, theirs) = written.unzip();
    let start = Instant::now();
    for _ in 0..times {
        std::hint::black_box(match (side.as_str(), does) {
            ("product", None) => product::run(n, a, b),
            ("product", Some("script")) => product::script(&script),
            ("product", Some("read")) => product::read_script(&script),
            ("product", Some("parse")) => product::parse(n, &history),
            ("product", Some("print")) => product::print(ours.as_mut().unwrap(), &mut room, 5),
            ("product", Some("check")) => product::check_lines(n, &history, 1),
            ("peer", None) => by_hand::run(n, a, b),
            ("peer", Some("script")) => by_hand::script(&script, &mut Vec::new()),
            ("peer", Some("read")) => by_hand::read_script(&script),
            ("peer", Some("parse")) => by_hand::parse(&history),
            ("peer", Some("print")) => by_hand::print(theirs.as_ref().unwrap(), 5),
            ("peer", Some("check")) => by_hand::check_lines(n, &history, 1),
            _ => panic!("product or peer, and script, read, parse, print or check"),
        });
    }
    let all = start.elapsed().as_nanos() as f64 / times as f64;
    let lines = |text: &[u8]| text.iter().filter(|byte| **byte == b'\n').count();
    let (what, count) = match does {
        None => ("step", a.len()),
        Some("script" | "read") => ("line", lines(&script)),
        Some("print") => ("line", 5 * lines(&history)),
        Some(_) => ("line", lines(&history)),
    };
    println!("{side} {name}: {:.1} ns a {what} of {count}", all / count as f64);
}
