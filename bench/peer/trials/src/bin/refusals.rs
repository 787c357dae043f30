//! Refuses each allocation of the product's programs in turn, in each worked run and in each command with its options, and
//! looks at what follows; then some at random, of scripts that the product draws by seeds. It prints how many refusals were
//! tried, and which went wrong: refusals CASDISK RUNS LIBRARY FOLDER HOW-MANY-SCRIPTS FIRST-SEED, where RUNS is the program
//! `refusal_runs`, LIBRARY refuse.so.

use std::path::Path;
use std::sync::atomic::{AtomicUsize, Ordering::Relaxed};
use trials::at_random::{TIMES, asked_again, by_program};
use trials::commands::{ASKED, RACES, command, seeded_race};
use trials::drawn::Seed;
use trials::program::Program;
use trials::tally::{Bench, Tally};
use trials::worked::{EARLY, ROWS, long_race, long_race_asks, once, race, race_asks, row};

/// How many random scripts are run in one process.
const TOGETHER: u64 = 250;

/// One in so many random scripts is run by the program, too.
const BY_PROGRAM: u64 = 6;

#[derive(Clone, Copy)]
enum Task {
    Row(u64),
    Once,
    Race(u64),
    /// The allocation that is refused, and how many such a race asks for.
    LongRace(u64, u64),
    ByProgram(Seed),
    /// The first seed.
    AskedAgain(u64),
    Command(&'static str),
    SeededRace(&'static str),
}

fn do_task(bench: &Bench, task: Task) {
    match task {
        Task::Row(number) => row(bench, number),
        Task::Once => once(bench),
        Task::Race(number) => race(bench, number),
        Task::LongRace(number, asks) => long_race(bench, number, asks),
        Task::ByProgram(seed) => by_program(bench, seed),
        Task::AskedAgain(first) => asked_again(bench, first, TOGETHER),
        Task::Command(asked) => command(bench, asked),
        Task::SeededRace(options) => seeded_race(bench, options),
    }
}

// All tasks, the longest first.
fn tasks_of(race_asks: u64, long_race_asks: u64, scripts: u64, first: u64) -> Vec<Task> {
    let mut tasks: Vec<Task> = (0..ROWS).map(Task::Row).collect();
    tasks.push(Task::Once);
    tasks.extend(RACES.map(Task::SeededRace));
    tasks.extend(ASKED.map(Task::Command));
    tasks.extend((first..first + scripts).step_by(TOGETHER as usize).map(Task::AskedAgain));
    tasks.extend((1..=race_asks).map(Task::Race));
    tasks.extend((1..=EARLY).map(|number| Task::LongRace(number, long_race_asks)));
    tasks.extend((first..first + scripts / BY_PROGRAM).map(Seed).map(Task::ByProgram));
    tasks
}

fn main() {
    let words: Vec<String> = std::env::args().skip(1).collect();
    let [casdisk, runs, library, folder, scripts, first] = &words[..] else {
        panic!("refusals CASDISK RUNS LIBRARY FOLDER HOW-MANY-SCRIPTS FIRST-SEED");
    };
    let (scripts, first): (u64, u64) = (scripts.parse().expect("a number"), first.parse().expect("a number"));
    let threads = std::thread::available_parallelism().map_or(2, |n| n.get());
    let (tally, next) = (Tally::default(), AtomicUsize::new(0));
    let bench_of = |part: usize| {
        let room = Path::new(folder).join(part.to_string());
        let program = |file: &str| Program::new(Path::new(file), Path::new(library), &room);
        Bench { casdisk: program(casdisk), runs: program(runs), tally: &tally }
    };
    let race_asks = race_asks(&bench_of(0));
    let tasks = tasks_of(race_asks, long_race_asks(&bench_of(0)), scripts, first);
    std::thread::scope(|scope| {
        for part in 0..threads {
            let (bench, tasks, next) = (bench_of(part), &tasks, &next);
            scope.spawn(move || {
                while let Some(task) = tasks.get(next.fetch_add(1, Relaxed)) {
                    do_task(&bench, *task);
                }
            });
        }
    });
    let (tried, wrong) = (tally.tried.load(Relaxed), tally.wrong.load(Relaxed));
    let asked = ASKED.len() + RACES.len();
    println!("{ROWS} worked runs, {asked} command lines, races of {race_asks} allocations, {scripts} random scripts from seed {first} on, {TIMES} times");
    println!("{tried} refusals tried, {wrong} wrong");
    std::process::exit(i32::from(wrong > 0));
}
