//! Whether the product and the peer agree on scripts that the product draws by seeds, and on checks of the history of
//! each, as it is and edited in each way: agree CASDISK FOLDER FIRST-SEED HOW-MANY. A failure says its seed, and what
//! differs is left in the folder.

use peer::script::{Kinds, RunFault, check_text, run_script};
use std::sync::atomic::{AtomicU64, Ordering::Relaxed};
use trials::drawn::Seed;
use trials::edits::{Edit, edited, history_of};
use trials::lists::{List, Random, in_flight, many_open, mixed, numbers, pairs, reads, writes};
use trials::program::{Program, by_seeds};

static LINES: AtomicU64 = AtomicU64::new(0);

/// Of each way of editing how many histories were checked, and of how many of them was said that they aren't legal, and
/// that a line is none.
static EDITED: [[AtomicU64; 3]; Edit::ALL.len()] = [const { [const { AtomicU64::new(0) }; 3] }; Edit::ALL.len()];

// The exit status, and the words on standard error.
fn end_of(done: &Result<bool, RunFault>) -> (i32, String) {
    let words = match done {
        Ok(_) => String::new(),
        Err(RunFault::BadLine(line)) => format!("bad line {line}\n"),
        Err(RunFault::BadConfig(number)) => format!("bad config {number}\n"),
        Err(fault) => format!("{fault:?}\n"),
    };
    (done.as_ref().map_or_else(|fault| fault.status().into(), |well| (!well).into()), words)
}

// Whether it ended so; behind a refused configuration a second line says which number is refused.
fn is_so(came: (i32, &str), due: (i32, String)) -> bool {
    let same = if due.1.starts_with("bad config ") { came.1.starts_with(&due.1) } else { came.1 == due.1 };
    came.0 == due.0 && same
}

fn same_script(program: &Program, script: &[u8], seed: u64) -> Vec<u8> {
    let mut theirs = Vec::new();
    let done = run_script(script, &mut theirs, Kinds::ALL).map(|()| true);
    let file = program.put("script", script);
    let (status, ours, words) = program.run(&["run", &file]);
    assert!(is_so((status, &words), end_of(&done)) && ours == theirs, "scripts differ at seed {seed}: {file}");
    LINES.fetch_add(ours.split(|byte| *byte == b'\n').count() as u64, Relaxed);
    ours
}

fn same_check(program: &Program, history: &[u8], seed: u64) -> i32 {
    let mut theirs = Vec::new();
    let done = check_text(history, &mut theirs);
    let file = program.put("history", history);
    let (status, ours, words) = program.run(&["check", &file]);
    assert!(is_so((status, &words), end_of(&done)) && ours == theirs, "checks differ at seed {seed}: {file}");
    status
}

// The history of a script, as it is and edited in each way.
fn same_checks(program: &Program, output: &[u8], seed: u64) {
    let history = history_of(output);
    assert_eq!(same_check(program, &history.concat(), seed), 0, "a history that isn't legal at seed {seed}");
    for (edit, counts) in Edit::ALL.iter().zip(&EDITED) {
        let random = Random::new(seed ^ 0xABCD ^ (*edit as u64 + 1) << 32);
        if let Some(other) = edited(*edit, &history, &random) {
            let status = same_check(program, &other.concat(), seed) as usize;
            counts[0].fetch_add(1, Relaxed);
            if status > 0 {
                counts[status].fetch_add(1, Relaxed);
            }
        }
    }
}

fn compare(program: &Program, seed: u64) {
    let output = same_script(program, &Seed(seed).script(program), seed);
    same_checks(program, &output, seed);
}

fn long_lists() -> [List; 7] {
    [
        writes(numbers(1024, 0), 1, 300),
        writes(numbers(1024, 255), 256, 6),
        reads(numbers(1024, 255), 256, 6),
        pairs(numbers(1024, 0), 300),
        mixed(1, 20_000),
        many_open(1),
        in_flight(256, 400),
    ]
}

fn main() {
    let (program, many) = by_seeds(compare);
    for list in long_lists() {
        let output = same_script(&program, &list.script(), 0);
        same_checks(&program, &output, 0);
    }
    println!("{} scripts, {} lines of text, and the checks of their histories: all agree", many + 7, LINES.load(Relaxed));
    for (edit, counts) in Edit::ALL.iter().zip(&EDITED) {
        let [made, bad, none] = counts.each_ref().map(|count| count.load(Relaxed));
        println!("{}: {made} histories, not legal {bad}, a bad line in {none}: all agree", edit.name());
        assert!(bad > 0, "no history is bad by this edit");
    }
}
