//! Random scripts that the product draws, each by its seed.

use crate::program::Program;
use std::fmt;

/// How many lines a script has behind its configuration.
const LINES: &str = "120";

const KINDS: [&str; 7] = ["mixed", "single", "pairs", "units", "queues", "hostile", "slots"];

/// A seed: its script is of each kind in turn. It is shown as the command that draws the script.
#[derive(Clone, Copy)]
pub struct Seed(pub u64);

impl Seed {
    /// The words of `casdisk` that draw its script.
    pub fn words(self) -> [String; 7] {
        let kind = KINDS[(self.0 % KINDS.len() as u64) as usize];
        ["random", "--seed", &self.0.to_string(), "--lines", LINES, "--like", kind].map(String::from)
    }

    /// Its script.
    pub fn script(self, casdisk: &Program) -> Vec<u8> {
        let (status, script, words) = casdisk.run(&self.words().each_ref().map(|word| word.as_str()));
        assert!(status == 0, "`{self}` ended with {status}: {words}");
        script
    }
}

impl fmt::Display for Seed {
    fn fmt(&self, to: &mut fmt::Formatter<'_>) -> fmt::Result {
        write!(to, "casdisk {}", self.words().join(" "))
    }
}
