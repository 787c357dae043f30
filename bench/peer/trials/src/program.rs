//! The product's programs.

use std::fs;
use std::path::{Path, PathBuf};
use std::process::{Command, Stdio};

/// A program that runs for longer has hung.
const SECONDS: &str = "60";

/// Which allocations and growths of a program are refused, counted from 1: of those from `first` to `last` one in `one_in`,
/// drawn from `seed`.
#[derive(Clone, Copy)]
pub struct Refused {
    pub first: u64,
    pub last: u64,
    pub one_in: u64,
    pub seed: u64,
}

impl Refused {
    pub const NONE: Refused = Refused { first: u64::MAX, last: u64::MAX, one_in: 1, seed: 0 };

    pub fn one(number: u64) -> Refused {
        Refused { first: number, last: number, ..Refused::NONE }
    }

    pub fn from(number: u64) -> Refused {
        Refused { first: number, last: u64::MAX - 1, ..Refused::NONE }
    }

    pub fn one_in(self, one_in: u64, seed: u64) -> Refused {
        Refused { one_in, seed, ..self }
    }
}

/// What came of a run.
#[derive(Debug, PartialEq, Eq)]
pub struct Ended {
    /// The exit status, -1 where a signal ended it, as after too long a time.
    pub status: i32,
    pub output: Vec<u8>,
    pub words: Vec<u8>,
    /// How many allocations and growths it asked for, how many were refused, how many blocks it had at its end.
    pub asked: u64,
    pub refused: u64,
    pub held: i64,
    /// How many bytes it asked for, and how many it had at most.
    pub bytes: u64,
    pub most: i64,
}

/// A program, the library that refuses its memory, and a folder of this thread's own.
pub struct Program {
    pub file: PathBuf,
    pub refusing: PathBuf,
    pub room: PathBuf,
}

impl Program {
    pub fn new(file: &Path, refusing: &Path, room: &Path) -> Program {
        fs::create_dir_all(room).expect("a folder");
        Program { file: file.into(), refusing: refusing.into(), room: room.into() }
    }

    /// Writes a file into the folder, and names it.
    pub fn put(&self, name: &str, text: &[u8]) -> String {
        let path = self.room.join(name);
        fs::write(&path, text).expect("written");
        path.to_str().expect("a name").into()
    }

    /// Runs the program; its memory is counted, and refused.
    pub fn refusing(&self, words: &[&str], refused: Refused) -> Ended {
        self.reading(words, None, refused)
    }

    /// The same, with a file as its standard input, where there is one.
    pub fn reading(&self, words: &[&str], input: Option<&Path>, refused: Refused) -> Ended {
        let input = input.map_or_else(Stdio::null, |path| fs::File::open(path).expect("an input").into());
        let report = self.room.join("report");
        let _ = fs::remove_file(&report);
        let ran = Command::new(&self.file)
            .args(words)
            .env_clear()
            .env("LD_PRELOAD", &self.refusing)
            .env("REFUSE_FIRST", refused.first.to_string())
            .env("REFUSE_LAST", refused.last.to_string())
            .env("REFUSE_ONE_IN", refused.one_in.to_string())
            .env("REFUSE_SEED", refused.seed.to_string())
            .env("REFUSE_SECONDS", SECONDS)
            .env("REFUSE_REPORT", &report)
            .stdin(input)
            .output()
            .expect("the program");
        let numbers = fs::read_to_string(&report).unwrap_or_default();
        let mut numbers = numbers.split(' ').map(|word| word.trim().parse::<i64>().unwrap_or(-1));
        let mut next = || numbers.next().unwrap_or(-1);
        Ended {
            status: ran.status.code().unwrap_or(-1),
            output: ran.stdout,
            words: ran.stderr,
            asked: next() as u64,
            refused: next() as u64,
            held: next(),
            bytes: next() as u64,
            most: next(),
        }
    }

    /// Runs the program as it is: its exit status, its output, its words on standard error.
    pub fn run(&self, words: &[&str]) -> (i32, Vec<u8>, String) {
        let ran = Command::new(&self.file).args(words).env_clear().stdin(Stdio::null()).output().expect("the program");
        (ran.status.code().unwrap_or(-1), ran.stdout, String::from_utf8_lossy(&ran.stderr).into_owned())
    }
}

/// Compares by each seed that the command line names, NAME CASDISK FOLDER FIRST-SEED HOW-MANY, on all processors, each
/// thread in a folder of its own; a program in another folder for what comes then, and how many seeds there were.
pub fn by_seeds(compare: impl Fn(&Program, u64) + Sync) -> (Program, u64) {
    let words: Vec<String> = std::env::args().skip(1).collect();
    let [casdisk, folder, first, many] = &words[..] else {
        panic!("CASDISK FOLDER FIRST-SEED HOW-MANY");
    };
    let (first, many): (u64, u64) = (first.parse().expect("a number"), many.parse().expect("a number"));
    let program = |name: &str| Program::new(Path::new(casdisk), Path::new(""), &Path::new(folder).join(name));
    let threads = std::thread::available_parallelism().map_or(2, |n| n.get()) as u64;
    std::thread::scope(|scope| {
        for part in 0..threads {
            let (program, compare) = (program(&part.to_string()), &compare);
            scope.spawn(move || {
                (first + part..first + many).step_by(threads as usize).for_each(|seed| compare(&program, seed));
            });
        }
    });
    (program("last"), many)
}
