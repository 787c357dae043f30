//! Configurations.
use crate::error::{Error, Result, told};
use std::fmt;

/// A configuration of a controller, with the limits of docs/SCRIPTS.md.
///
/// ```
/// use vandrexu::{Config, Error};
///
/// let config = Config { blocks: 8, pairs: 2, cqs: 2, ..Config::default() };
/// assert_eq!(config.fault(), None);
/// assert_eq!(Config { jobs: 0, ..config }.fault(), Some(Error::BadJobs));
/// ```
#[derive(Clone, Copy, Debug, PartialEq, Eq, Hash)]
pub struct Config {
    /// Blocks of 512 bytes of the volume, 1 to 65,536.
    pub blocks: u32,
    /// The most blocks of a unit, 0's based, 0 to 255.
    pub awun: u16,
    /// The most blocks of a fused pair, 0's based, 0 to 255.
    pub acwu: u16,
    /// Blocks from a boundary to the next, 0's based; 0 is for none.
    pub nabsn: u16,
    /// The block of the first boundary.
    pub nabo: u16,
    /// Submission queues, numbered from 1, 1 to 16.
    pub pairs: u16,
    /// Slots of a submission queue, 2 to 1,024.
    pub sq_size: u16,
    /// Slots of a completion queue, 2 to 1,024.
    pub cq_size: u16,
    /// The most tickets in flight, 1 to 256.
    pub jobs: u16,
    /// Completion queues, 1 to `pairs`.
    pub cqs: u16,
}

impl Default for Config {
    /// 1,024 blocks, units of one block, no boundary, one queue pair of 64 slots each, and 64 tickets in flight.
    fn default() -> Config {
        Config {
            blocks: 1024,
            awun: 0,
            acwu: 0,
            nabsn: 0,
            nabo: 0,
            pairs: 1,
            sq_size: 64,
            cq_size: 64,
            jobs: 64,
            cqs: 1,
        }
    }
}

impl Config {
    /// Reads the line with which a history, a script and a trace begin. It may still have a [`fault`](Config::fault).
    ///
    /// ```
    /// use vandrexu::{Config, Error};
    ///
    /// let config = Config::of_line("config2 8 1 1 0 0 2 4 4 8 1")?;
    /// assert_eq!((config.blocks, config.pairs, config.cqs), (8, 2, 1));
    /// assert_eq!(config.to_string(), "config2 8 1 1 0 0 2 4 4 8 1");
    /// assert_eq!(Config::of_line("config 8 1 1 0 0 2 4 4"), Err(Error::BadLine));
    /// # Ok::<(), Error>(())
    /// ```
    ///
    /// # Errors
    /// [`Error::BadLine`] where it is none.
    pub fn of_line(line: &str) -> Result<Config> {
        let (word, rest) = line.split_once(' ').ok_or(Error::BadLine)?;
        let numbers: Vec<u32> = rest.split(' ').map(number_in).collect::<Option<_>>().ok_or(Error::BadLine)?;
        let [blocks, ref others @ ..] = numbers[..] else { return Err(Error::BadLine) };
        let others: Vec<u16> =
            others.iter().map(|&it| it.try_into().ok()).collect::<Option<_>>().ok_or(Error::BadLine)?;
        let (awun, acwu, nabsn, nabo, pairs, sq_size, cq_size, jobs, cqs) = match (word, &others[..]) {
            ("config", &[a, b, c, d, pairs, f, g, h]) => (a, b, c, d, pairs, f, g, h, pairs),
            ("config2", &[a, b, c, d, pairs, f, g, h, cqs]) if cqs != pairs => (a, b, c, d, pairs, f, g, h, cqs),
            _ => return Err(Error::BadLine),
        };
        Ok(Config { blocks, awun, acwu, nabsn, nabo, pairs, sq_size, cq_size, jobs, cqs })
    }

    /// The first fault of it, [`Error::AwunTooLarge`] to [`Error::BadCqs`].
    #[must_use]
    pub fn fault(&self) -> Option<Error> {
        // SAFETY: the configuration is read alone, and is there while it is.
        told(unsafe { vandrexu_sys::vandrexu_config_fault(&self.raw()) }).err()
    }

    /// What the calls are given.
    pub(crate) fn raw(&self) -> vandrexu_sys::vandrexu_config {
        let &Config { blocks, awun, acwu, nabsn, nabo, pairs, sq_size, cq_size, jobs, cqs } = self;
        vandrexu_sys::vandrexu_config { blocks, awun, acwu, nabsn, nabo, pairs, sq_size, cq_size, jobs, cqs }
    }
}

/// A decimal number with no sign and no leading zero.
fn number_in(word: &str) -> Option<u32> {
    let spelled = word.bytes().all(|it| it.is_ascii_digit()) && (word == "0" || !word.starts_with('0'));
    if spelled { word.parse().ok() } else { None }
}

impl fmt::Display for Config {
    /// Its line, without a line feed.
    fn fmt(&self, f: &mut fmt::Formatter<'_>) -> fmt::Result {
        let Config { blocks, awun, acwu, nabsn, nabo, pairs, sq_size, cq_size, jobs, cqs } = self;
        let word = if cqs == pairs { "config" } else { "config2" };
        write!(f, "{word} {blocks} {awun} {acwu} {nabsn} {nabo} {pairs} {sq_size} {cq_size} {jobs}")?;
        if cqs == pairs { Ok(()) } else { write!(f, " {cqs}") }
    }
}
