//! What goes out on a connection: a thread writes it, so that no host that is slow to read holds another up.
use std::io::Write;
use std::net::{Shutdown, TcpStream};
use std::sync::Arc;
use std::sync::atomic::{AtomicUsize, Ordering};
use std::sync::mpsc::{Receiver, Sender, channel};
use std::thread::{self, JoinHandle};
use vandrexu_wire::{Completion, Format, Status, kind};

/// Where responses of a connection go.
#[derive(Clone, Debug)]
pub(crate) struct Outlet {
    pieces: Sender<Piece>,
    waits: Arc<Waits>,
    /// How PDUs are made.
    pub format: Format,
}

/// What a connection's writer hasn't written.
#[derive(Debug, Default)]
struct Waits {
    bytes: AtomicUsize,
    commands: AtomicUsize,
}

/// Bytes, and how many commands they answer.
#[derive(Debug)]
struct Piece {
    bytes: Vec<u8>,
    answers: usize,
}

/// How many bytes are put together for one write.
const TOGETHER: usize = 1 << 17;

impl Outlet {
    /// Starts the thread that writes.
    pub(crate) fn start(to: TcpStream) -> std::io::Result<(Outlet, JoinHandle<()>)> {
        let (pieces, taken) = channel();
        let waits = Arc::new(Waits::default());
        let shared = waits.clone();
        let writer = thread::Builder::new().spawn(move || write_all(to, &taken, &shared))?;
        Ok((Outlet { pieces, waits, format: Format::default() }, writer))
    }

    /// Notes a command that will be answered, and says how many weren't yet.
    pub(crate) fn owe(&self) -> usize {
        self.waits.commands.fetch_add(1, Ordering::Relaxed)
    }

    /// How many bytes wait to be written.
    pub(crate) fn waiting(&self) -> usize {
        self.waits.bytes.load(Ordering::Relaxed)
    }

    /// Sends bytes that answer no command.
    pub(crate) fn send(&self, bytes: Vec<u8>) {
        self.put(bytes, 0);
    }

    /// Answers a command, with its data if it succeeded and has any.
    pub(crate) fn answer(&self, completion: &Completion, data: &[u8]) {
        let mut bytes = vec![];
        if completion.status().is(Status::SUCCESS) && !data.is_empty() {
            bytes = self.format.data(kind::C2H_DATA, completion.cid(), 0, 0, data, true);
        }
        bytes.extend(self.format.response(&completion.0));
        self.put(bytes, 1);
    }

    // (where the writer has ended the connection has, too)
    fn put(&self, bytes: Vec<u8>, answers: usize) {
        self.waits.bytes.fetch_add(bytes.len(), Ordering::Relaxed);
        let _ = self.pieces.send(Piece { bytes, answers });
    }
}

/// Writes until nobody sends any more, or the host is gone.
fn write_all(mut to: TcpStream, pieces: &Receiver<Piece>, waits: &Waits) {
    while let Ok(mut piece) = pieces.recv() {
        while piece.bytes.len() < TOGETHER
            && let Ok(more) = pieces.try_recv()
        {
            piece.bytes.extend(more.bytes);
            piece.answers += more.answers;
        }
        // (a host that has an answer may send the next command at once)
        // (a target with a fault may answer more than it owes)
        let less = |it: usize| Some(it.saturating_sub(piece.answers));
        let _ = waits.commands.fetch_update(Ordering::Relaxed, Ordering::Relaxed, less);
        let done = to.write_all(&piece.bytes);
        waits.bytes.fetch_sub(piece.bytes.len(), Ordering::Relaxed);
        if done.is_err() {
            let _ = to.shutdown(Shutdown::Both);
            break;
        }
    }
    let _ = to.shutdown(Shutdown::Write);
}
