//! What the command line says.
use std::net::{SocketAddr, ToSocketAddrs};
use std::time::Duration;
use vandrexu_initiator::Area;

/// What `--help` prints.
pub const USAGE: &str = "\
vandrexu-lock: a lock between machines that share a disk over NVMe/TCP

  vandrexu-lock OPTIONS --slot N --host H [--wait SECONDS] -- COMMAND ..
      claims slot N as host H, runs the command, and releases the slot
  vandrexu-lock status OPTIONS
      says who holds which slot
  vandrexu-lock take-over OPTIONS --slot N --host H --from D --fenced [-- COMMAND ..]
      takes slot N over from host D, which is fenced, runs the command, and releases the slot

OPTIONS: --target ADDRESS:PORT   the target
         --area FIRST,COUNT      the slots: COUNT blocks from FIRST on, the same for all hosts
         --nqn NAME              the subsystem (nqn.2026-11.org.vandrexu:disk)
         --name NAME             the name of this host (nqn.2026-11.org.vandrexu:lock:H, or lock:status)

The exit status is the command's own, or 128 and the signal that ended it; 1 where the slot wasn't got, 2 for a bad
command line or slots beyond the volume, 3 where the target can't be reached or refuses, 4 where memory is refused. Each
host has a number of its own. A slot of a host that died stays held until it is taken over: see to it first that nothing
of that host reaches the target any more.
";

/// What is asked for.
#[derive(Clone, Debug, PartialEq, Eq)]
pub enum Task {
    /// Who holds which slot.
    Status,
    /// A slot while a command runs.
    Claim {
        /// How long it is tried for.
        wait: Duration,
    },
    /// A slot of a host that is fenced.
    TakeOver {
        /// The host.
        from: u32,
    },
}

/// The words, read.
#[derive(Clone, Debug)]
pub struct Words {
    /// What is asked for.
    pub task: Task,
    /// The target.
    pub target: SocketAddr,
    /// The slots.
    pub area: Area,
    /// The slot.
    pub slot: u32,
    /// This host's number.
    pub host: u32,
    /// The name of the subsystem, if it isn't the usual one.
    pub subsystem: Option<String>,
    /// The name of this host, if it isn't the usual one.
    pub name: Option<String>,
    /// The command.
    pub command: Vec<String>,
}

/// Options that were read, each once.
#[derive(Default)]
struct Options {
    pairs: Vec<(String, String)>,
    fenced: bool,
}

impl Options {
    fn take(&mut self, name: &str) -> Option<String> {
        let at = self.pairs.iter().position(|it| it.0 == name)?;
        Some(self.pairs.remove(at).1)
    }

    fn need(&mut self, name: &str) -> Result<String, String> {
        self.take(name).ok_or_else(|| format!("{name} is wanted"))
    }

    fn number<T: std::str::FromStr>(&mut self, name: &str) -> Result<T, String> {
        let value = self.need(name)?;
        value.parse().map_err(|_| format!("{name} {value}: not a number that it can have"))
    }
}

impl Words {
    /// Reads the words of a command line.
    ///
    /// # Errors
    /// What is wrong with them.
    pub fn of(words: &[String]) -> Result<Words, String> {
        let end = words.iter().position(|it| it == "--").unwrap_or(words.len());
        let command: Vec<String> = words.iter().skip(end + 1).cloned().collect();
        let (first, mut rest) = match words[..end].first().map(String::as_str) {
            Some(word @ ("status" | "take-over")) => (word, words[1..end].iter()),
            _ => ("", words[..end].iter()),
        };
        let mut options = Options::default();
        while let Some(name) = rest.next() {
            if name == "--fenced" {
                options.fenced = true;
                continue;
            }
            let value = rest.next().ok_or_else(|| format!("{name} wants a value, or isn't an option"))?;
            options.pairs.push((name.clone(), value.clone()));
        }
        let target = address(&options.need("--target")?)?;
        let area = area(&options.need("--area")?)?;
        let task = task(first, &mut options, command.is_empty())?;
        let (slot, host) =
            if task == Task::Status { (0, 1) } else { (options.number("--slot")?, options.number("--host")?) };
        let (subsystem, name) = (options.take("--nqn"), options.take("--name"));
        if let Some((name, _)) = options.pairs.first() {
            return Err(format!("{name}: no such option here, or twice"));
        }
        if host == 0 || task == (Task::TakeOver { from: host }) {
            return Err("--host 0, or a takeover from the host itself".into());
        }
        area.block(slot).ok_or_else(|| format!("--slot {slot}: there are {}", area.count))?;
        Ok(Words { task, target, area, slot, host, subsystem, name, command })
    }
}

fn task(first: &str, options: &mut Options, is_bare: bool) -> Result<Task, String> {
    match first {
        "status" if is_bare => Ok(Task::Status),
        "status" => Err("status takes no command".into()),
        "take-over" if options.fenced => Ok(Task::TakeOver { from: options.number("--from")? }),
        "take-over" => Err("take-over wants --fenced: see to it first that the host is fenced".into()),
        _ if is_bare => Err("a command is wanted behind --".into()),
        _ => {
            let seconds = options.take("--wait").map_or(Ok(0.0), |it| it.parse::<f64>()).ok();
            let wait = seconds.and_then(|it| Duration::try_from_secs_f64(it).ok());
            Ok(Task::Claim { wait: wait.ok_or("--wait: not a number of seconds")? })
        }
    }
}

fn address(text: &str) -> Result<SocketAddr, String> {
    let mut found = text.to_socket_addrs().map_err(|it| format!("--target {text}: {it}"))?;
    found.next().ok_or_else(|| format!("--target {text}: no such address"))
}

fn area(text: &str) -> Result<Area, String> {
    let parts = text.split_once(',').and_then(|(first, count)| Some((first.parse().ok()?, count.parse().ok()?)));
    match parts {
        Some((first, count)) if count > 0 => Ok(Area { first, count }),
        _ => Err(format!("--area {text}: not FIRST,COUNT")),
    }
}

#[cfg(test)]
mod tests {
    use super::{Area, Task, Words};
    use std::time::Duration;

    fn of(text: &str) -> Result<Words, String> {
        Words::of(&text.split(' ').map(str::to_string).collect::<Vec<_>>())
    }

    #[test]
    fn each_form_is_read() {
        let it = of("--target 127.0.0.1:1 --area 8,4 --slot 3 --host 2 --wait 1.5 -- echo a -- b").unwrap();
        assert_eq!((it.area, it.slot, it.host), (Area { first: 8, count: 4 }, 3, 2));
        assert_eq!(it.task, Task::Claim { wait: Duration::from_millis(1500) });
        assert_eq!(it.command, ["echo", "a", "--", "b"]);
        assert_eq!(of("status --target 127.0.0.1:1 --area 8,4").unwrap().task, Task::Status);
        let it = of("take-over --target 127.0.0.1:1 --area 8,4 --slot 0 --host 2 --from 1 --fenced").unwrap();
        assert_eq!((it.task, it.command.len()), (Task::TakeOver { from: 1 }, 0));
    }

    #[test]
    fn what_is_wrong_is_told() {
        for wrong in [
            "--target 127.0.0.1:1 --area 8,4 --slot 3 --host 2",
            "--target 127.0.0.1:1 --area 8,4 --slot 4 --host 2 -- a",
            "--target 127.0.0.1:1 --area 8,0 --slot 0 --host 2 -- a",
            "--target 127.0.0.1:1 --area 8,4 --slot 0 --host 0 -- a",
            "--target 127.0.0.1:1 --area 8,4 --slot 0 --host 1 --wait -1 -- a",
            "--target 127.0.0.1:1 --area 8,4 --slot 0 --host 1 --what 1 -- a",
            "take-over --target 127.0.0.1:1 --area 8,4 --slot 0 --host 2 --from 1",
            "take-over --target 127.0.0.1:1 --area 8,4 --slot 0 --host 2 --from 2 --fenced",
            "status --target 127.0.0.1:1",
        ] {
            assert!(of(wrong).is_err(), "{wrong}");
        }
    }
}
