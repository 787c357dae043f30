//! A trace of what hosts saw, in the order of one lock.
use std::fs::File;
use std::io::{self, BufWriter, Write};
use std::path::Path;
use std::sync::{Arc, Mutex, PoisonError};
use vandrexu_wire::{Command, Completion, data_text, entry_text, hex_text};

/// A trace, to which any number of queues write.
#[derive(Clone, Debug)]
pub struct Trace {
    out: Arc<Mutex<BufWriter<File>>>,
    cq_size: u64,
}

impl Trace {
    /// A new file, which begins with the line of a configuration, whose completion queues have `cq_size` slots. A host
    /// can't see the heads of the controller's own queues, nor its Do Not Retry, so the trace ignores both.
    ///
    /// # Errors
    /// What the system says of the file.
    pub fn create(path: &Path, config: &str, cq_size: u16) -> io::Result<Trace> {
        let mut out = BufWriter::new(File::create(path)?);
        writeln!(out, "{config}\nobserve ignore DNR SQHD")?;
        Ok(Trace { out: Arc::new(Mutex::new(out)), cq_size: cq_size.into() })
    }

    /// What one queue writes, as the queue pair of this number, which no other queue has or had.
    #[must_use]
    pub fn of_queue(&self, pair: u16) -> TraceOfQueue {
        TraceOfQueue { trace: self.clone(), pair, reaped: 0 }
    }

    /// Writes what is buffered.
    ///
    /// # Errors
    /// What the system says of the file.
    pub fn flush(&self) -> io::Result<()> {
        self.out.lock().unwrap_or_else(PoisonError::into_inner).flush()
    }

    fn line(&self, line: &str) -> io::Result<()> {
        writeln!(self.out.lock().unwrap_or_else(PoisonError::into_inner), "{line}")
    }
}

/// What one queue writes to a trace.
#[derive(Debug)]
pub struct TraceOfQueue {
    trace: Trace,
    pair: u16,
    reaped: u64,
}

impl TraceOfQueue {
    /// Entries that are handed over together; before they are sent.
    pub(crate) fn publish(&self, entries: &[(Command, &[u8])]) -> io::Result<()> {
        let mut line = format!("publish {}", self.pair);
        for (at, (command, data)) in entries.iter().enumerate() {
            line.push_str(if at == 0 { " " } else { " + " });
            entry_text(command, data, &mut line);
        }
        self.trace.line(&line)
    }

    /// A completion that came, with what was read.
    pub(crate) fn reap(&mut self, completion: &Completion, data: &[u8]) -> io::Result<()> {
        let mut bytes = completion.of_queue(self.pair, completion.sqhd()).0;
        // (on the wire the phase tag is 0; another one is shown as the wrong phase)
        bytes[14] ^= u8::from((self.reaped / self.trace.cq_size).is_multiple_of(2));
        self.reaped += 1;
        let mut line = format!("reap {} ", self.pair);
        hex_text(&bytes, &mut line);
        line.push(' ');
        data_text(data, &mut line);
        self.trace.line(&line)
    }
}
