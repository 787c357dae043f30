//! Random scripts with some of their memory refused.

use crate::drawn::Seed;
use crate::edits::history_of;
use crate::lists::Random;
use crate::program::Refused;
use crate::tally::{Bench, is_told_early};
use crate::worked::{FIRST, WHOLE};
use peer::script::{Kinds, run_script};

/// One in so many allocations is refused where steps are asked again: a step that takes hundreds needs a good chance.
const ONE_IN: u64 = 400;

/// How often scripts are run, with other allocations refused each time: to draw them takes longer.
pub const TIMES: u64 = 4;

// What the peer prints of a script, and its exit status.
fn by_the_peer(script: &[u8]) -> (Vec<u8>, i32) {
    let mut output = Vec::new();
    let status = run_script(script, &mut output, Kinds::ALL).map_or_else(|fault| fault.status().into(), |()| 0);
    (output, status)
}

// A script, drawn without memory from some allocation on: it comes whole, or a beginning of it.
fn drawn(bench: &Bench, seed: Seed, random: &Random, script: &[u8]) {
    let number = 1 + random.up_to(3000);
    let now = bench.casdisk.refusing(&seed.words().each_ref().map(|word| word.as_str()), Refused::from(number));
    let is_whole = (now.status, now.refused, now.held) == (0, 0, 0) && now.output == script;
    let is_right = is_whole || now.refused > 0 && is_told_early(&now, script);
    bench.tally.see(format_args!("no memory from allocation {number} on while it is drawn, script `{seed}`"), 1, is_right);
}

// A history of a script that isn't whole, checked with memory or without.
fn checked(bench: &Bench, seed: Seed, random: &Random, output: &[u8]) {
    let whole_lines = output.iter().rposition(|byte| *byte == b'\n').map_or(0, |place| place + 1);
    let history = history_of(&output[..whole_lines]).concat();
    if history.is_empty() {
        return;
    }
    let file = bench.casdisk.put("history", &history);
    let refused = if random.one_in(4) { Refused::from(1 + random.up_to(100)) } else { Refused::NONE };
    let now = bench.casdisk.refusing(&["check", &file], refused);
    let is_legal = now.status == 0 && now.output == b"legal\n" && now.held == 0;
    let is_right = is_legal || now.refused > 0 && is_told_early(&now, b"");
    bench.tally.see(format_args!("a check of what was printed, script `{seed}`"), 1, is_right);
}

/// The script of a seed by the program, without memory from some growth on: its text is that of the peer, or a beginning. What
/// it printed is legal.
pub fn by_program(bench: &Bench, seed: Seed) {
    let random = Random::new(seed.0 ^ 0x5EED);
    let script = seed.script(&bench.casdisk);
    drawn(bench, seed, &random, &script);
    let (theirs, status) = by_the_peer(&script);
    let file = bench.casdisk.put("script", &script);
    let number = 1 + random.up_to(3000);
    let refused = if random.one_in(2) { Refused::one(number) } else { Refused::from(number) };
    let now = bench.casdisk.refusing(&["run", &file], refused);
    let is_whole = now.status == status && now.output == theirs && now.held == 0;
    let is_right = is_whole || now.refused > 0 && is_told_early(&now, &theirs);
    bench.tally.see(format_args!("no memory at allocation {number} of a run, script `{seed}`"), 1, is_right);
    checked(bench, seed, &random, &now.output);
}

// How many of these texts stand at the beginning, one behind the other, and what is left behind them.
fn taken_off<'a>(texts: &[Vec<u8>], mut output: &'a [u8]) -> (u64, &'a [u8]) {
    let mut count = 0;
    while let Some(rest) = texts.get(count).and_then(|text| output.strip_prefix(&text[..])) {
        output = rest;
        count += 1;
    }
    (count as u64, output)
}

/// So many random scripts in one process, some times, where allocations are refused at random and what wants memory is asked for
/// again: each history is that of the peer, which has memory, and the checker says that it is legal.
pub fn asked_again(bench: &Bench, first: u64, count: u64) {
    let (mut texts, mut wanted) = (Vec::new(), Vec::new());
    for seed in (first..first + count).map(Seed) {
        let script = seed.script(&bench.casdisk);
        let mut history = history_of(&by_the_peer(&script).0)[1..].concat();
        history.extend_from_slice(b"legal\n");
        wanted.push(history);
        texts.push(script.strip_suffix(b"\n").unwrap_or(&script).to_vec());
    }
    let file = bench.runs.put("scripts", &texts.join(&b"\n\n"[..]));
    let before = bench.runs.refusing(&["many", &file, FIRST], Refused::NONE).asked;
    for time in 0..TIMES {
        let refused = Refused::from(before + 1).one_in(ONE_IN, first ^ time << 32);
        let now = bench.runs.refusing(&["many", &file, WHOLE], refused);
        let (right, left) = taken_off(&wanted, &now.output);
        let is_right = (now.status, now.held, right) == (0, 0, count) && left.is_empty() && now.refused > 0;
        // the first script that isn't as it should be, where one isn't
        let seed = Seed(first + right.min(count - 1));
        bench.tally.see(format_args!("{count} scripts from seed {first} on, script `{seed}`"), now.refused, is_right);
    }
}
