//! What the command line says.
use crate::Fault;
use std::net::{SocketAddr, ToSocketAddrs};
use std::path::PathBuf;
use std::time::Duration;
use vandrexu::Config;

/// How a target is started.
#[derive(Clone, Debug)]
pub struct Options {
    /// Where it listens.
    pub listen: SocketAddr,
    /// The controller.
    pub config: Config,
    /// The name of the subsystem.
    pub subsystem: String,
    /// A file that holds the volume.
    pub image: Option<PathBuf>,
    /// Where each step is written.
    pub history: Option<PathBuf>,
    /// Where it is written what hosts see.
    pub trace: Option<PathBuf>,
    /// Steps of tickets interleave by this number.
    pub seed: Option<u64>,
    /// Whether hint bits go to the controller as they come.
    pub strict: bool,
    /// Whether a fused pair is served as two commands.
    pub naive: bool,
    /// What it does wrong on purpose.
    pub fault: Option<Fault>,
    /// Whether it gives the controller nothing, and answers each command at once.
    pub transport_only: bool,
    /// Names of hosts that may connect; all, where there is none.
    pub allow: Vec<String>,
    /// The most connections.
    pub connections: usize,
    /// The most resident memory of the process, in bytes, at which it still takes commands.
    pub memory: Option<u64>,
    /// How long a host may take for what it has begun.
    pub patience: Duration,
    /// How long the first of a pair waits for its second.
    pub pair_wait: Duration,
    /// Whether it says what it does.
    pub verbose: bool,
}

impl Default for Options {
    fn default() -> Options {
        Options {
            listen: SocketAddr::from(([127, 0, 0, 1], 4420)),
            config: Config {
                blocks: 65536,
                awun: 7,
                acwu: 7,
                pairs: 16,
                cqs: 16,
                sq_size: 256,
                cq_size: 256,
                jobs: 256,
                ..Config::default()
            },
            subsystem: "nqn.2026-11.org.vandrexu:disk".into(),
            image: None,
            history: None,
            trace: None,
            seed: None,
            strict: false,
            naive: false,
            fault: None,
            transport_only: false,
            allow: vec![],
            connections: 64,
            memory: None,
            patience: Duration::from_secs(10),
            pair_wait: Duration::from_secs(1),
            verbose: false,
        }
    }
}

/// What `--help` prints.
pub(crate) const USAGE: &str = "\
vandrexu-target [OPTION ..]: an NVMe/TCP target over the Vandrexu controller

  --listen ADDRESS:PORT   where it listens (127.0.0.1:4420)
  --nqn NAME              the subsystem (nqn.2026-11.org.vandrexu:disk)
  --config LINE           the controller, as 'config BLOCKS AWUN ACWU NABSN NABO PAIRS SQ CQ JOBS'
  --blocks N              blocks of 512 bytes, 1 to 65536
  --image FILE            keeps the volume in FILE, and what isn't in it yet in FILE.journal
  --history FILE          writes each step of the controller, for casdisk check
  --trace FILE            writes what hosts see, for casdisk observe
  --seed N                interleaves steps of commands by N
  --allow NAME            lets this host connect, and no other that isn't named
  --connections N         the most connections (64)
  --memory BYTES          refuses commands while the process has more than that
  --patience SECONDS      how long a host may take for what it began (10)
  --strict                leaves hints in the entries as they come
  --naive                 serves a fused pair as two commands
  --fault NAME[:N]        does this wrong, every N-th time (5); '--fault list' lists them
  --transport-only        answers each command at once, and does nothing: for measuring what the transport takes
  --verbose               says what it does

Nothing authenticates hosts but their names.
";

impl Options {
    /// Reads the words of a command line.
    ///
    /// # Errors
    /// What is wrong with them.
    pub fn of_words(words: impl IntoIterator<Item = String>) -> Result<Options, String> {
        let mut options = Options::default();
        let mut blocks = None;
        let mut words = words.into_iter();
        while let Some(word) = words.next() {
            match word.as_str() {
                "--strict" => options.strict = true,
                "--naive" => options.naive = true,
                "--verbose" => options.verbose = true,
                "--transport-only" => options.transport_only = true,
                name => {
                    let value = words.next().ok_or_else(|| format!("{name} wants a value, or isn't an option"))?;
                    if name == "--blocks" {
                        blocks = Some(number(name, &value)?);
                    } else {
                        options.set(name, value)?;
                    }
                }
            }
        }
        if let Some(blocks) = blocks {
            options.config.blocks = u32::try_from(blocks).map_err(|_| "--blocks is too large".to_string())?;
        }
        if let Some(fault) = options.config.fault() {
            return Err(format!("--config: {fault}"));
        }
        Ok(options)
    }

    fn set(&mut self, name: &str, value: String) -> Result<(), String> {
        match name {
            "--listen" => self.listen = address(&value)?,
            "--nqn" if (1..=223).contains(&value.len()) => self.subsystem = value,
            "--config" => {
                let wanted = "no configuration line, as 'config 65536 7 7 0 0 16 256 256 256'";
                self.config = Config::of_line(&value).map_err(|_| format!("--config {value}: {wanted}"))?;
            }
            "--image" => self.image = Some(value.into()),
            "--history" => self.history = Some(value.into()),
            "--trace" => self.trace = Some(value.into()),
            "--seed" => self.seed = Some(number(name, &value)?),
            "--allow" => self.allow.push(value),
            "--connections" => self.connections = number(name, &value)? as usize,
            "--memory" => self.memory = Some(number(name, &value)?),
            "--patience" if number(name, &value)? > 0 => self.patience = Duration::from_secs(number(name, &value)?),
            "--fault" => self.fault = Some(value.parse()?),
            _ => return Err(format!("{name} {value}: no such option, or a value that it can't have")),
        }
        Ok(())
    }
}

fn number(name: &str, value: &str) -> Result<u64, String> {
    value.parse().map_err(|_| format!("{name} {value}: not a number"))
}

fn address(value: &str) -> Result<SocketAddr, String> {
    let found = value.to_socket_addrs().map_err(|it| format!("--listen {value}: {it}"))?.next();
    found.ok_or_else(|| format!("--listen {value}: no such address"))
}
