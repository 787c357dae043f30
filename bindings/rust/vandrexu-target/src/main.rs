//! The program vandrexu-target.
use std::process::ExitCode;
use vandrexu_target::{FaultKind, Options, Target};

fn main() -> ExitCode {
    let words: Vec<String> = std::env::args().skip(1).collect();
    match words.iter().map(String::as_str).collect::<Vec<_>>()[..] {
        ["--help" | "-h" | "help"] => {
            print!("{}", Target::USAGE);
            return ExitCode::SUCCESS;
        }
        ["--fault", "list"] => {
            for kind in FaultKind::ALL {
                println!("{:18} {}", kind.name(), kind.says());
            }
            return ExitCode::SUCCESS;
        }
        _ => {}
    }
    let options = match Options::of_words(words) {
        Ok(options) => options,
        Err(what) => {
            eprintln!("vandrexu-target: {what}");
            return ExitCode::from(2);
        }
    };
    let ended = Target::start(options).and_then(|target| {
        eprintln!("vandrexu-target: {target}");
        target.wait()
    });
    if let Err(what) = ended {
        eprintln!("vandrexu-target: {what}");
        return ExitCode::from(3);
    }
    ExitCode::SUCCESS
}
