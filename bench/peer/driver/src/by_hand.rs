//! The peer, by functions of the same shape as the product's.

use peer::{Config, Core};
use std::hint::black_box;
use std::time::Instant;
use trials::asked::{Asked, step_of};

/// Makes a step, and says whether it was accepted; None where its entries don't lie among the bytes.
#[inline(never)]
fn step(core: &mut Core, bytes: &[u8], asked: &Asked) -> Option<bool> {
    Some(core.step(step_of(bytes, asked)?).is_ok())
}

fn run_all(core: &mut Core, asked: &[Asked], bytes: &[u8]) -> Option<u64> {
    let mut accepted = 0;
    for one in asked {
        accepted += u64::from(step(core, bytes, one)?);
    }
    Some(accepted)
}

/// Makes all steps over a new controller; how many were accepted.
#[inline(never)]
pub fn run(config: &Config, asked: &[Asked], bytes: &[u8]) -> u64 {
    run_all(&mut Core::new(*config), asked, bytes).unwrap_or(u64::MAX)
}

/// The same; how many nanoseconds the steps took, and how many it took to let the controller go.
#[inline(never)]
pub fn run_timed(config: &Config, asked: &[Asked], bytes: &[u8]) -> (u64, u64) {
    let mut core = Core::new(*config);
    let start = Instant::now();
    run_all(&mut core, asked, bytes).expect("entries among the bytes");
    let steps = start.elapsed().as_nanos() as u64;
    let start = Instant::now();
    drop(core);
    (steps, start.elapsed().as_nanos() as u64)
}

/// Makes all steps, and then asks what is ready so many times; how often it was something.
#[inline(never)]
pub fn ready(config: &Config, asked: &[Asked], bytes: &[u8], times: u64) -> u64 {
    let mut core = Core::new(*config);
    run_all(&mut core, asked, bytes).expect("entries among the bytes");
    (0..times).filter(|_| core.ready().is_some()).count() as u64
}

/// Runs a script, whose text goes to `out`; whether all its lines were good.
#[inline(never)]
pub fn script(script: &[u8], out: &mut Vec<u8>) -> u64 {
    out.clear();
    u64::from(peer::script::run_script(script, out, peer::script::Kinds::ALL).is_ok())
}

/// Reads and runs a script, and shows none of its lines but the configuration; whether all were good.
#[inline(never)]
pub fn read_script(script: &[u8]) -> u64 {
    u64::from(peer::script::run_script(script, &mut Vec::new(), peer::script::Kinds::NONE).is_ok())
}

fn entries_of(text: &[u8]) -> impl Iterator<Item = peer::Entry> {
    text.split(|byte| *byte == b'\n').filter_map(peer::text::entry_line)
}

/// Reads and checks the lines of a history so many times; how often they were legal.
#[inline(never)]
pub fn check_lines(config: &Config, text: &[u8], times: u64) -> u64 {
    let is_legal = |_: &u64| peer::check::check(config, black_box(&entries_of(text).collect::<Vec<_>>())).is_ok();
    (0..times).filter(is_legal).count() as u64
}

/// Reads the lines of a history; how many are lines.
#[inline(never)]
pub fn parse(text: &[u8]) -> u64 {
    entries_of(text).map(black_box).count() as u64
}

/// The entries of a history's lines, for `print`.
pub fn history_of(text: &[u8]) -> Vec<peer::Entry> {
    entries_of(text).collect()
}

/// Writes the lines of a history so many times; how many bytes there were.
#[inline(never)]
pub fn print(entries: &[peer::Entry], times: u64) -> u64 {
    let (mut bytes, mut line) = (0, Vec::new());
    for _ in 0..times {
        for entry in entries {
            line.clear();
            peer::text::put_entry(&mut line, entry);
            // its line feed is not counted
            bytes += line.len() as u64 - 1;
        }
    }
    bytes
}
