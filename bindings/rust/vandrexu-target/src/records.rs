//! Files that a target writes as it goes: its history, and what hosts see of it.
use std::fs::File;
use std::io::{self, BufWriter, Write};
use std::path::Path;
use vandrexu::Controller;
use vandrexu_wire::{Command, Completion, data_text, entry_text, hex_text};

fn create(path: Option<&Path>) -> Result<Option<BufWriter<File>>, String> {
    let Some(path) = path else { return Ok(None) };
    let file = File::create(path).map_err(|it| format!("{}: {it}", path.display()))?;
    Ok(Some(BufWriter::with_capacity(1 << 16, file)))
}

/// Each step of the controller.
#[derive(Debug)]
pub(crate) struct History {
    out: Option<BufWriter<File>>,
    next: u64,
}

impl History {
    /// A new file, or none.
    pub(crate) fn create(path: Option<&Path>) -> Result<History, String> {
        Ok(History { out: create(path)?, next: 0 })
    }

    /// Writes the steps that were made since, and lets the controller forget them.
    pub(crate) fn write(&mut self, disk: &mut Controller) -> io::Result<()> {
        if let Some(out) = &mut self.out {
            for line in disk.history(self.next) {
                writeln!(out, "{}", line.map_err(|it| io::Error::other(it.to_string()))?)?;
                self.next += 1;
            }
            out.flush()?;
        }
        disk.forget(disk.history_count() + 1);
        Ok(())
    }
}

/// What hosts see, as if their queues were the controller's.
#[derive(Debug)]
pub(crate) struct Trace {
    out: Option<BufWriter<File>>,
}

impl Trace {
    /// A new file that begins with these lines, or none.
    pub(crate) fn create(path: Option<&Path>, head: &str) -> Result<Trace, String> {
        let mut out = create(path)?;
        if let Some(out) = &mut out {
            writeln!(out, "{head}").map_err(|it| it.to_string())?;
        }
        Ok(Trace { out })
    }

    /// The line of entries that are published together; none, where no trace is written.
    pub(crate) fn publication<'a>(
        &self,
        pair: u16,
        entries: impl Iterator<Item = (&'a Command, &'a [u8])>,
    ) -> Option<String> {
        self.out.as_ref()?;
        let mut line = format!("publish {pair}");
        for (at, (command, data)) in entries.enumerate() {
            line.push_str(if at == 0 { " " } else { " + " });
            entry_text(command, data, &mut line);
        }
        Some(line)
    }

    /// Writes such a line.
    pub(crate) fn publish(&mut self, line: Option<String>) -> io::Result<()> {
        let (Some(out), Some(line)) = (&mut self.out, line) else { return Ok(()) };
        writeln!(out, "{line}")
    }

    /// A completion, with what was read.
    pub(crate) fn reap(&mut self, queue: u16, completion: &Completion, data: &[u8]) -> io::Result<()> {
        let Some(out) = &mut self.out else { return Ok(()) };
        let mut line = format!("reap {queue} ");
        hex_text(&completion.0, &mut line);
        line.push(' ');
        data_text(data, &mut line);
        writeln!(out, "{line}")
    }

    /// Writes what is buffered.
    pub(crate) fn flush(&mut self) -> io::Result<()> {
        self.out.as_mut().map_or(Ok(()), Write::flush)
    }
}
