//! Whether the product says of small traces what a search says that makes every step: observe CASDISK FOLDER FIRST-SEED
//! HOW-MANY. A trace of which they differ is left in the folder.

use outside::brute::{Said, brute};
use outside::change::{Change, change};
use outside::making::{MOST_ENTRIES, random_trace};
use std::sync::atomic::{AtomicU64, Ordering::Relaxed};
use trials::lists::Random;
use trials::program::{Program, by_seeds};

/// How many states are looked at before a trace is left undecided.
const MOST_STATES: usize = 200_000;

/// Of each change how many traces were explained, were not, and were left undecided.
static SAID: [[AtomicU64; 3]; Change::ALL.len()] = [const { [const { AtomicU64::new(0) }; 3] }; Change::ALL.len()];

/// Seeds of traces of which an earlier search said what isn't so, and whether they have a head. They are compared in each
/// run.
const ONCE_WRONG: [(u64, bool); 8] = [
    (397_382, false),
    (661_011, false),
    (725_346, false),
    (761_699, false),
    (36_156, true),
    (74_053, true),
    (471_508, true),
    (622_787, true),
];

static WITNESSES: AtomicU64 = AtomicU64::new(0);

/// Traces that are refuted, and those of them where that takes more lines than there is no history for.
static REFUTED: AtomicU64 = AtomicU64::new(0);
static REFUTED_LATER: AtomicU64 = AtomicU64::new(0);

// The number of the line that an answer of this word names.
fn line_told(output: &[u8], word: &str) -> Option<usize> {
    let text = std::str::from_utf8(output).ok()?.strip_prefix(word)?.strip_prefix(": up to line ")?;
    text.split_once(": ")?.0.parse().ok()
}

// Whether this is what may be said of a trace whose fewest first lines without a history are so many: the line at which
// they end, or, where a refutation is found only of more lines, a later one.
fn is_told(status: i32, output: &[u8], lines: usize) -> bool {
    match status {
        1 => line_told(output, "refuted").is_some_and(|told| {
            REFUTED.fetch_add(1, Relaxed);
            REFUTED_LATER.fetch_add(u64::from(told > lines), Relaxed);
            told >= lines
        }),
        6 => line_told(output, "not found") == Some(lines),
        _ => false,
    }
}

// What is to be said; and the file of a witness, which is looked at now and then. Some traces have options.
fn compare(program: &Program, seed: u64, has_head: bool) {
    let random = Random::new(seed ^ 0x0B5E_47E5);
    let head = Random::new(seed ^ 0x0071_0115);
    let mut trace = random_trace(&random, has_head.then_some(&head));
    let which = if random.one_in(4) { 0 } else { random.up_to(Change::ALL.len() as u64) as usize };
    change(&mut trace, Change::ALL[which], &random);
    let said = brute(&trace, MOST_STATES);
    let file = program.put("trace", &trace.text());
    let witness = program.room.join("witness");
    let asked = random.one_in(8);
    let _ = std::fs::remove_file(&witness);
    let (status, output, words) = if asked {
        program.run(&["observe", "--witness", witness.to_str().expect("a name"), &file])
    } else {
        program.run(&["observe", &file])
    };
    let is_explained = status == 0 && output == b"explained\n" && words.is_empty();
    let (is_right, place) = match said {
        Said::Explained => (is_explained, 0),
        Said::Not(lines) => {
            // (the first lines are the head)
            let head = 1 + trace.options.text().lines().count();
            (is_told(status, &output, lines + head) && words.is_empty(), 1)
        }
        Said::Undecided => ((status <= 1 || status == 6) && words.is_empty(), 2),
    };
    assert!(is_right, "seed {seed}: {said:?}, and the program says {}: {file}", String::from_utf8_lossy(&output));
    if asked && is_explained {
        let history = std::fs::read(&witness).expect("a witness");
        assert!(trace.is_explained_by(&history), "seed {seed}: the witness doesn't explain {file}");
        WITNESSES.fetch_add(1, Relaxed);
    }
    SAID[which][place].fetch_add(1, Relaxed);
}

fn main() {
    let (program, many) = by_seeds(|program, seed| compare(program, seed, true));
    ONCE_WRONG.iter().for_each(|(seed, has_head)| compare(&program, *seed, *has_head));
    let many = many + ONCE_WRONG.len() as u64;
    let mut sums = [0; 3];
    for (change, counts) in Change::ALL.iter().zip(&SAID) {
        let counts = counts.each_ref().map(|count| count.load(Relaxed));
        let [explained, not, undecided] = counts;
        println!("{}: explained {explained}, not {not}, undecided {undecided}", change.name());
        sums.iter_mut().zip(counts).for_each(|(sum, count)| *sum += count);
        assert!(many < 5000 || (explained > 0 && not > 0) || *change == Change::Nothing && not == 0, "one answer alone");
    }
    let [explained, not, undecided] = sums;
    assert!(undecided * 50 <= many, "the search that makes every step left too many undecided");
    let refuted = REFUTED.load(Relaxed);
    assert!(many < 5000 || (not - refuted) * 100 <= 6 * many, "too many traces are not found: {} of {many}", not - refuted);
    println!(
        "{many} traces of up to {MOST_ENTRIES} entries, {} witnesses: both find {explained} explained and {not} not, {refuted} of them refuted ({} by a later line), {} of 100 traces not found, and of {undecided} there was too much to try",
        WITNESSES.load(Relaxed),
        REFUTED_LATER.load(Relaxed),
        (not - refuted) * 100 / many,
    );
}
