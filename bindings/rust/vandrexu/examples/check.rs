//! Checks the text of a history as `casdisk check` does: check FILE. It prints what that prints, and ends with its exit
//! status. With a second argument it prints the words of the first broken rule, too.
use std::env;
use std::fs::File;
use std::io::{self, BufRead, BufReader};
use std::process::ExitCode;
use vandrexu::{Checker, Config, Error};

/// The next line, without its line feed; None at the end, and bad where it has none.
fn next_line(file: &mut impl BufRead, line: &mut Vec<u8>) -> io::Result<Option<Result<(), Error>>> {
    line.clear();
    Ok(match file.read_until(b'\n', line)? {
        0 => None,
        _ => Some(if line.pop() == Some(b'\n') { Ok(()) } else { Err(Error::BadLine) }),
    })
}

/// Where the history isn't legal any more, counted from 1, and why.
fn check(mut file: impl BufRead) -> io::Result<Result<Option<(usize, String)>, Error>> {
    let mut line = Vec::new();
    let read = next_line(&mut file, &mut line)?.unwrap_or(Err(Error::BadLine));
    let config = read.and_then(|()| Config::of_line(&String::from_utf8_lossy(&line)));
    let mut checker = match config.and_then(|it| Checker::new(&it)) {
        Ok(checker) => checker,
        Err(error) => return Ok(Err(error)),
    };
    for place in 1.. {
        match next_line(&mut file, &mut line)? {
            None => break,
            Some(read) => match read.and_then(|()| checker.why(&line)) {
                Ok(None) => {}
                Ok(Some(words)) => return Ok(Ok(Some((place, words)))),
                Err(error) => return Ok(Err(error)),
            },
        }
        if let Err(error) = checker.take_line(&line) {
            return Ok(Err(error));
        }
    }
    Ok(Ok(None))
}

fn main() -> ExitCode {
    let mut words = env::args_os().skip(1);
    let Some(path) = words.next() else { return ExitCode::from(2) };
    match File::open(path).and_then(|it| check(BufReader::new(it))) {
        Ok(Ok(None)) => {
            println!("legal");
            ExitCode::SUCCESS
        }
        Ok(Ok(Some((place, why)))) => {
            let words = words.next().map_or(String::new(), |_| format!(" (line {}): {why}", place + 1));
            println!("bad at {place}{words}");
            ExitCode::from(1)
        }
        Ok(Err(error)) => {
            eprintln!("{error}");
            ExitCode::from(if error == Error::NoMemory { 4 } else { 2 })
        }
        Err(error) => {
            eprintln!("{error}");
            ExitCode::from(3)
        }
    }
}
