//! Writes a workload as a script: dump NAME STEPS FILE, NAME one of writes, bytes, pairs, reads256, writes256, mixed.

use trials::lists::*;

fn main() {
    let words: Vec<String> = std::env::args().skip(1).collect();
    let [name, steps, file] = &words[..] else {
        panic!("dump NAME STEPS FILE");
    };
    let steps: usize = steps.parse().expect("a number of steps");
    let list = match name.as_str() {
        "bytes" => writes(numbers(1024, 0), 1, steps / 6),
        "pairs" => pairs(numbers(1024, 0), steps / 9),
        "reads256" => reads(numbers(1024, 255), 256, steps / 261),
        "writes256" => writes(numbers(1024, 255), 256, steps / 261),
        "mixed" => mixed(7, steps),
        "writes" => return std::fs::write(file, settled(steps / 4)).expect("written"),
        _ => panic!("no workload {name}"),
    };
    std::fs::write(file, list.script()).expect("written");
}
