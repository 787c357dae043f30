//! Each allocation of the worked runs refused in turn, of the calls of a driver and of a small race; and what memory they take.

use crate::edits::history_of;
use crate::program::{Ended, Refused};
use crate::rounds::are_made;
use crate::tally::{Bench, NO_MEMORY, is_told, is_told_early};

/// How many worked runs there are.
pub const ROWS: u64 = 22;

/// A small race: its hosts, slots and rounds.
const RACE: [&str; 9] = ["race", "--hosts", "2", "--workers", "2", "--slots", "2", "--rounds", "2"];
const SMALL: [u64; 3] = [2, 2, 2];

/// A long one, of which an early allocation is refused.
const LONG_RACE: [&str; 9] = ["race", "--hosts", "4", "--workers", "2", "--slots", "4", "--rounds", "500"];
const LONG: [u64; 3] = [4, 4, 500];

/// How many of its first allocations are refused, each in a race of its own.
pub const EARLY: u64 = 240;

/// The last word: a program ends once what it needs is made, or goes on to its end. Both take as much memory.
pub const FIRST: &str = "first";
pub const WHOLE: &str = "whole";

/// How often a run is made in one process.
const OFTEN: u64 = 1000;

// Each allocation of the program: it ends for want of memory. Where one growth alone is refused the kit's vectors ask for less,
// and it may end well.
fn program(bench: &Bench, words: &[&str], row: u64) -> Ended {
    let whole = bench.casdisk.refusing(words, Refused::NONE);
    assert_eq!((whole.status, whole.held), (0, 0), "{} of run {row} with memory", words[0]);
    for number in 1..=whole.asked {
        let one = bench.casdisk.refusing(words, Refused::one(number));
        let is_whole = one.status == 0 && one.output == whole.output && one.held == 0;
        let is_right = (is_whole || is_told_early(&one, &whole.output)) && one.refused == 1;
        bench.tally.see(format_args!("{}, run {row}, refusal {number}", words[0]), 1, is_right);
        let all = bench.casdisk.refusing(words, Refused::from(number));
        let is_right = is_told_early(&all, &whole.output);
        bench.tally.see(format_args!("no memory from there on, run {row}, refusal {number}"), 1, is_right);
    }
    whole
}

// A run's script, and the check of its history.
fn texts(bench: &Bench, row: u64) {
    let script = bench.runs.run(&["script", &row.to_string(), "0"]).1;
    let file = bench.casdisk.put("script", &script);
    let whole = program(bench, &["run", &file], row);
    comments(bench, row, &script, whole.asked);
    let file = bench.casdisk.put("history", &history_of(&whole.output).concat());
    program(bench, &["check", &file], row);
    program(bench, &["explain", &file], row);
}

// Comments ask for no memory.
fn comments(bench: &Bench, row: u64, script: &[u8], asked: u64) {
    let mut more = Vec::new();
    for line in script.split_inclusive(|byte| *byte == b'\n') {
        more.extend_from_slice(line);
        more.extend_from_slice(b"# a comment\n");
    }
    let file = bench.casdisk.put("more", &more);
    let now = bench.casdisk.refusing(&["run", &file], Refused::NONE);
    bench.tally.see(format_args!("comments, run {row}"), 1, now.status == 0 && now.asked == asked);
}

// Each allocation of a run whose steps are asked again: want of memory is told once at most, and the history is that of the
// run with memory. In one call there is an answer for each step, or all come back.
fn steps(bench: &Bench, way: &str, row: u64) {
    let row_word = row.to_string();
    let words = [way, &row_word, "0", WHOLE];
    let before = bench.runs.refusing(&[way, &row_word, "0", FIRST], Refused::NONE).asked;
    let whole = bench.runs.refusing(&words, Refused::NONE);
    assert_eq!((whole.status, whole.held, &whole.words[..]), (0, 0, &b"0\n"[..]), "{way} of run {row} with memory");
    for number in before + 1..=whole.asked {
        let one = bench.runs.refusing(&words, Refused::one(number));
        let is_back = way == "together" && one.status == NO_MEMORY;
        let is_whole = one.status == 0 && one.output == whole.output && matches!(&one.words[..], b"0\n" | b"1\n");
        let is_right = (is_back || is_whole) && one.refused == 1 && one.held == 0;
        bench.tally.see(format_args!("{way}, run {row}, refusal {number}"), 1, is_right);
    }
    often(bench, way, row, &whole);
}

// The same run a thousand times in one process: it gives all back, and has no more memory at any time than after a few runs. The
// C library may give some bytes more than it is asked for, but less than one a run.
fn often(bench: &Bench, way: &str, row: u64, whole: &Ended) {
    let row = row.to_string();
    let again = |times: u64| bench.runs.refusing(&[way, &row, &(times - 1).to_string(), WHOLE], Refused::NONE);
    let (few, many) = (again(4), again(OFTEN));
    let is_same = (many.status, &many.output, many.held) == (0, &whole.output, 0);
    let is_right = is_same && many.most - few.most < OFTEN as i64;
    bench.tally.see(format_args!("{way}, run {row}, {} bytes and then {}", few.most, many.most), 0, is_right);
}

// After room was made for the Grants, Blocks and Reaps that come next, every later allocation is refused.
fn promised(bench: &Bench, row: u64) {
    let row_word = row.to_string();
    for place in 0.. {
        let place_word = place.to_string();
        let before = bench.runs.refusing(&["promised", &row_word, &place_word, FIRST], Refused::NONE);
        if before.status != 0 {
            // there are no more steps
            return;
        }
        let now = bench.runs.refusing(&["promised", &row_word, &place_word, WHOLE], Refused::from(before.asked + 1));
        bench.tally.see(format_args!("promised steps, run {row}, step {place}"), 1, now.status == 0 && now.held == 0);
    }
}

/// All that is tried of a worked run.
pub fn row(bench: &Bench, row: u64) {
    texts(bench, row);
    for way in ["steps", "attempts", "works", "together"] {
        steps(bench, way, row);
    }
    promised(bench, row);
}

// Calls that take no memory ask for none, and go as before where there is none.
fn quiet(bench: &Bench) {
    let before = bench.runs.refusing(&["quiet", "0", "0", FIRST], Refused::NONE);
    let now = bench.runs.refusing(&["quiet", "0", "0", WHOLE], Refused::from(before.asked + 1));
    let is_right = (now.status, now.asked, now.held) == (0, before.asked, 0);
    bench.tally.see(format_args!("calls that take no memory"), 1, is_right);
}

// A Publish asks for its data once.
fn one_copy(bench: &Bench) {
    let asked = |blocks: &str| {
        let before = bench.runs.refusing(&["publish", "0", blocks, FIRST], Refused::NONE);
        bench.runs.refusing(&["publish", "0", blocks, WHOLE], Refused::NONE).bytes - before.bytes
    };
    bench.tally.see(format_args!("the copy of a Publish"), 0, asked("256") - asked("1") == 255 * 512);
}

// Blocks take no memory but for the history, which has a Publish, a Fetch and a Grant before them: when it has grown it is at
// least twice as long before it grows again.
fn doubling(bench: &Bench) {
    let asked = |blocks: u64| bench.runs.refusing(&["write", "0", &blocks.to_string()], Refused::NONE).asked;
    let (mut last, mut full) = (asked(0), 0);
    let mut growths = 0;
    for blocks in 1..=256 {
        let now = asked(blocks);
        if now == last {
            continue;
        }
        let entries = 3 + blocks - 1;
        let is_right = now == last + 1 && entries >= 2 * full;
        bench.tally.see(format_args!("a growth of the history from {full} to {entries} entries"), 0, is_right);
        (last, full, growths) = (now, entries, growths + 1);
    }
    bench.tally.see(format_args!("{growths} growths of the history"), 0, (4..=8).contains(&growths));
}

/// What is tried once: the calls and the claims of a driver, and how memory is taken.
pub fn once(bench: &Bench) {
    steps(bench, "calls", 0);
    steps(bench, "slots", 0);
    quiet(bench);
    one_copy(bench);
    doubling(bench);
}

// What a race printed is a legal history, or a beginning of one.
fn is_legal(bench: &Bench, output: &[u8]) -> bool {
    let length = output.iter().rposition(|byte| *byte == b'\n').map_or(0, |place| place + 1);
    if length == 0 {
        return true;
    }
    let file = bench.casdisk.put("history", &output[..length]);
    bench.casdisk.run(&["check", &file]) == (0, b"legal\n".to_vec(), String::new())
}

/// How many allocations a small race asks for: that differs from race to race.
pub fn race_asks(bench: &Bench) -> u64 {
    (0..4).map(|_| bench.casdisk.refusing(&RACE, Refused::NONE).asked).max().unwrap_or(0)
}

// Whether a race ended well: it printed a history in which each host made its rounds and each slot is free in the end.
fn is_whole_race(ended: &Ended, [hosts, slots, rounds]: [u64; 3]) -> bool {
    (ended.status, &ended.words[..], ended.held) == (0, b"", 0) && are_made(&ended.output, hosts, slots, rounds)
}

/// A small race whose allocation of this number is refused, and one without memory from there on: it ends, as it does where
/// that allocation never comes, or for want of memory.
pub fn race(bench: &Bench, number: u64) {
    let one = bench.casdisk.refusing(&RACE, Refused::one(number));
    let is_right = is_whole_race(&one, SMALL) || one.refused == 1 && is_told(&one);
    bench.tally.see(format_args!("a race, refusal {number}"), 1, is_right && is_legal(bench, &one.output));
    let all = bench.casdisk.refusing(&RACE, Refused::from(number));
    let is_right = all.refused == 0 && is_whole_race(&all, SMALL) || all.refused > 0 && is_told(&all);
    bench.tally.see(format_args!("a race without memory from {number} on"), 1, is_right && is_legal(bench, &all.output));
}

/// How many allocations a long race asks for at the least: that differs from race to race.
pub fn long_race_asks(bench: &Bench) -> u64 {
    let races: Vec<Ended> = (0..2).map(|_| bench.casdisk.refusing(&LONG_RACE, Refused::NONE)).collect();
    assert!(races.iter().all(|it| is_whole_race(it, LONG)), "a long race with memory");
    races.iter().map(|it| it.asked).min().unwrap_or(0)
}

/// A long race whose allocation of this number, an early one, is refused: want of memory ends all its threads, so it asks for
/// few more.
pub fn long_race(bench: &Bench, number: u64, asks: u64) {
    let one = bench.casdisk.refusing(&LONG_RACE, Refused::one(number));
    let is_early = one.refused == 1 && is_told(&one) && one.asked < number + (asks - number) / 4;
    bench.tally.see(format_args!("a long race, refusal {number}"), 1, is_early || is_whole_race(&one, LONG));
}
