//! Every command of the program with each of its options, and each allocation of that refused in turn: it ends for want of
//! memory and says so, or as it does with memory. A file that it is asked to write is whole, or isn't made.

use crate::program::{Ended, Program, Refused};
use crate::tally::{Bench, NO_MEMORY};
use std::fs;

/// Command lines, without the program's name. Words in capitals name files (`give` makes them, but for `FOUND` and `REFUTING`,
/// which the program may write); behind `<` stands what standard input has.
pub const ASKED: [&str; 77] = [
    "run SCRIPT",
    "run --why SCRIPT",
    "run --flush SCRIPT",
    "run --check SCRIPT",
    "run --from HISTORY FURTHER",
    "run --from HISTORY --flush --why FURTHER",
    "run --from WRONG FURTHER",
    "run --show publish,reap SCRIPT",
    "run --trace SCRIPT",
    "run --trace --why SCRIPT",
    "run --trace - < SCRIPT",
    "check HISTORY",
    "check --why HISTORY",
    "check --quiet HISTORY",
    "check --follow HISTORY",
    "check --follow --why HISTORY",
    "check --slots 0 1 HISTORY",
    "check --slots 0 1 --why HISTORY",
    "check WRONG",
    "check --why WRONG",
    "check --follow WRONG",
    "check --follow --why WRONG",
    "check --slots 0 1 WRONG",
    "check - < HISTORY",
    "explain HISTORY",
    "explain --why HISTORY",
    "explain --follow HISTORY",
    "explain --slots 0 1 HISTORY",
    "explain WRONG",
    "explain --follow --why WRONG",
    "explain --slots 0 1 WRONG",
    "explain - < WRONG",
    "certify SEEN HISTORY",
    "certify --why SEEN HISTORY",
    "certify --delayed SEEN HISTORY",
    "certify SEEN WRONG",
    "certify OTHER HISTORY",
    "certify SEEN - < HISTORY",
    "certify - HISTORY < SEEN",
    "refute UNSEEN REFUTATION",
    "refute --why UNSEEN REFUTATION",
    "refute READ REFUTATION",
    "refute - REFUTATION < UNSEEN",
    "observe SEEN",
    "observe --why SEEN",
    "observe --steps 100000 SEEN",
    "observe --steps 3 SEEN",
    "observe UNSEEN",
    "observe - < SEEN",
    "observe --witness FOUND SEEN",
    "observe --witness FOUND --why SEEN",
    "observe --refutation REFUTING UNSEEN",
    "observe --witness FOUND --refutation REFUTING SEEN",
    "observe --witness FOUND --refutation REFUTING UNSEEN",
    "tell HISTORY",
    "tell --why HISTORY",
    "tell --color always HISTORY",
    "tell SEEN",
    "tell - < HISTORY",
    "draw HISTORY",
    "draw --from 2 --to 9 HISTORY",
    "draw --blocks --slots 0 1 --why HISTORY",
    "draw - < HISTORY",
    "draw --trace SEEN HISTORY",
    "draw --trace SEEN --why HISTORY",
    "draw --trace SEEN - < HISTORY",
    "draw --trace OTHER HISTORY",
    "draw --trace SEEN WRONG",
    "draw --page HISTORY",
    "draw --page --why WRONG",
    "random --seed 7 --lines 30",
    "random --seed 7 --lines 30 --like slots --config NUMBERS",
    "shrink SCRIPT < FAILS",
    "shrink --why SCRIPT < FAILS",
    "shrink SCRIPT < PASSES",
    "help race",
    "--version",
];

/// A race, and what may be asked of it besides where it goes by a seed.
const RACE: &str = "race --hosts 3 --workers 2 --slots 1 --rounds 1";
pub const RACES: [&str; 8] = [
    "--seed 5",
    "--queues 2 --bias host=3,worker=2 --seed 5 --quiet --why",
    "--seeds 5..6",
    "--seed 5 --trace",
    "--crash 1 --seed 5",
    "--crash 1 --seeds 5..6",
    "--crash 1 --seed 5 --trace",
    "--crash 2",
];

/// A Read of a block of zeros.
const READ: &str = "config 8 1 1 0 0 2 4 4 8\npublish 1 read 0 1 3 0 -\nfetch 1\nsettle\nreap 1\n";

/// The files that a command may write.
const WRITTEN: [&str; 2] = ["FOUND", "REFUTING"];

/// What is said of want of memory: by commands of two files also for which of them there was none.
const TOLD: [&[u8]; 4] = [b"no memory\n", b"trace: no memory\n", b"history: no memory\n", b"refutation: no memory\n"];

// What the program prints.
fn printed(casdisk: &Program, words: &str) -> Vec<u8> {
    let (status, output, said) = casdisk.run(&words.split(' ').collect::<Vec<_>>());
    assert!(status == 0, "`casdisk {words}` ended with {status}: {said}");
    output
}

// Makes the files of this thread's folder: a script, a history, it without its fifth line, a script that goes on from it, what
// hosts saw of it and of another one, what they saw of a Read, the same with data that nobody wrote, and what refutes that;
// answers for `shrink`.
fn give(casdisk: &Program) {
    let race = format!("{RACE} --seed 5");
    let history = printed(casdisk, &race);
    let lines = history.split_inclusive(|byte| *byte == b'\n').enumerate();
    let wrong: Vec<&[u8]> = lines.filter(|(place, _)| *place != 5).map(|(_, line)| line).collect();
    casdisk.put("SCRIPT", &printed(casdisk, "random --seed 7 --lines 40 --like pairs"));
    casdisk.put("WRONG", &wrong.concat());
    casdisk.put("HISTORY", &history);
    let first = history.split_inclusive(|byte| *byte == b'\n').next().expect("a configuration line");
    casdisk.put("FURTHER", &[first, b"settle\n"].concat());
    casdisk.put("SEEN", &printed(casdisk, &format!("{race} --trace")));
    casdisk.put("OTHER", &printed(casdisk, &format!("{RACE} --seed 6 --trace")));
    let script = casdisk.put("script of a Read", READ.as_bytes());
    let read = casdisk.run(&["run", "--trace", &script]).1;
    let unseen = [read.strip_suffix(b" 00\n").expect("data of zeros"), b" A1\n"].concat();
    casdisk.put("READ", &read);
    let (unseen, refutation) = (casdisk.put("UNSEEN", &unseen), casdisk.put("REFUTATION", b""));
    casdisk.run(&["observe", "--refutation", &refutation, &unseen]);
    casdisk.put("FAILS", &b"fails\n".repeat(2000));
    casdisk.put("PASSES", b"passes\n");
}

// What came of a command line: how it ended, and what stands in each file that it may have written.
type Came = (Ended, [Option<Vec<u8>>; 2]);

fn come(casdisk: &Program, asked: &str, refused: Refused) -> Came {
    let paths = WRITTEN.map(|name| casdisk.room.join(name));
    paths.iter().for_each(|path| drop(fs::remove_file(path)));
    let (words, input) = asked.split_once(" < ").map_or((asked, None), |(words, input)| (words, Some(casdisk.room.join(input))));
    let words: Vec<String> = words.split(' ').map(|word| word_of(casdisk, word)).collect();
    let words: Vec<&str> = words.iter().map(|word| &word[..]).collect();
    (casdisk.reading(&words, input.as_deref(), refused), paths.map(|path| fs::read(path).ok()))
}

// A word: a name of a file, numbers that make one word, or what stands there.
fn word_of(casdisk: &Program, word: &str) -> String {
    match word {
        "NUMBERS" => "8 1 1 0 0 2 4 4 8".into(),
        _ if word.len() > 1 && word.bytes().all(|byte| byte.is_ascii_uppercase()) => {
            casdisk.room.join(word).to_str().expect("a name").into()
        }
        _ => word.into(),
    }
}

// Whether it came as it does with memory, or ended for want of memory and said so: after a beginning of its output, and
// without a file of its own.
fn is_right((now, written): &Came, (whole, all): &Came) -> bool {
    let is_whole = (now.status, &now.output, &now.words, written) == (whole.status, &whole.output, &whole.words, all);
    let is_told = now.status == NO_MEMORY && TOLD.contains(&&now.words[..]) && written.iter().all(Option::is_none);
    now.held == 0 && (is_whole || is_told && whole.output.starts_with(&now.output))
}

/// Each allocation of a command line: it is refused alone, and with all behind it.
pub fn command(bench: &Bench, asked: &str) {
    give(&bench.casdisk);
    let whole = come(&bench.casdisk, asked, Refused::NONE);
    let is_known = matches!(whole.0.status, 0 | 1 | 5) && whole.0.held == 0;
    bench.tally.see(format_args!("`{asked}` with memory"), 0, is_known);
    for number in 1..=whole.0.asked {
        for (refused, words) in [(Refused::one(number), "refused"), (Refused::from(number), "the first refused")] {
            let now = come(&bench.casdisk, asked, refused);
            let is_right = now.0.refused > 0 && is_right(&now, &whole);
            bench.tally.see(format_args!("`{asked}`, allocation {number} {words}"), 1, is_right);
            if now.0.status < 0 {
                // (it hung, or was killed: that is known now)
                return;
            }
        }
    }
}

/// The same of a race that goes by a seed.
pub fn seeded_race(bench: &Bench, options: &str) {
    command(bench, &format!("{RACE} {options}"));
}
