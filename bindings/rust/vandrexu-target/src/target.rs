//! The target: it listens, and gives each connection threads of its own.
use crate::connection::Connection;
use crate::engine::{Engine, Message};
use crate::hosts::{Admitted, Hosts};
use crate::options::USAGE;
use crate::outlet::Outlet;
use crate::{Image, Options};
use std::fmt;
use std::net::{SocketAddr, TcpListener, TcpStream};
use std::sync::atomic::{AtomicBool, AtomicU64, Ordering};
use std::sync::mpsc::{Sender, channel};
use std::sync::{Arc, Mutex, MutexGuard, PoisonError};
use std::thread::{self, JoinHandle};
use std::time::Duration;

/// What all threads have.
#[derive(Debug)]
pub(crate) struct Shared {
    /// How the target was started.
    pub options: Options,
    /// Where I/O commands go.
    pub engine: Sender<Message>,
    hosts: Mutex<Hosts>,
    is_ending: AtomicBool,
    last: AtomicU64,
}

impl Shared {
    /// The hosts.
    pub(crate) fn hosts(&self) -> MutexGuard<'_, Hosts> {
        self.hosts.lock().unwrap_or_else(PoisonError::into_inner)
    }

    /// Whether the target ends.
    pub(crate) fn is_ending(&self) -> bool {
        self.is_ending.load(Ordering::Relaxed)
    }

    /// Says something, where it was asked to.
    pub(crate) fn say(&self, what: impl FnOnce() -> String) {
        if self.options.verbose {
            eprintln!("vandrexu-target: {}", what());
        }
    }
}

/// A target that runs. It ends where it is dropped.
#[derive(Debug)]
pub struct Target {
    address: SocketAddr,
    shared: Arc<Shared>,
    listener: Option<JoinHandle<()>>,
    engine: Option<JoinHandle<Result<(), String>>>,
}

impl Target {
    /// What `--help` prints.
    pub const USAGE: &'static str = USAGE;

    /// Reads the image, makes the controller, and listens.
    ///
    /// # Errors
    /// What is wrong with the image, the files, the configuration or the address.
    pub fn start(options: Options) -> Result<Target, String> {
        let (engine, messages) = channel();
        let image = options.image.as_ref().map(|it| Image::open(it, options.config.blocks)).transpose();
        let image = image.map_err(|it| format!("--image: {it}"))?;
        let made = Engine::new(&options, image)?;
        let listener = TcpListener::bind(options.listen).map_err(|it| format!("{}: {it}", options.listen))?;
        let address = listener.local_addr().map_err(|it| it.to_string())?;
        let (is_ending, last) = (AtomicBool::new(false), AtomicU64::new(0));
        let shared = Arc::new(Shared { options, engine, hosts: Mutex::default(), is_ending, last });
        let engine = thread::spawn(move || made.run(&messages).inspect_err(|it| eprintln!("vandrexu-target: {it}")));
        let given = shared.clone();
        let listener = thread::spawn(move || listen(&listener, &given));
        Ok(Target { address, shared, listener: Some(listener), engine: Some(engine) })
    }

    /// Where it listens.
    #[must_use]
    pub fn address(&self) -> SocketAddr {
        self.address
    }

    /// How many connections there are.
    #[must_use]
    pub fn connections(&self) -> usize {
        self.shared.hosts().connections()
    }

    /// Whether a host of this name has a connection. Where none has, all that it sent is with the controller or lost.
    #[must_use]
    pub fn has(&self, host: &str) -> bool {
        self.shared.hosts().has(host)
    }

    /// Waits until its engine ends, which it does where a file can't be written.
    ///
    /// # Errors
    /// Why it ended.
    pub fn wait(mut self) -> Result<(), String> {
        let ended = self.engine.take().map(JoinHandle::join);
        ended.unwrap_or(Ok(Ok(()))).unwrap_or_else(|_| Err("the engine panicked".into()))
    }
}

impl fmt::Display for Target {
    fn fmt(&self, f: &mut fmt::Formatter<'_>) -> fmt::Result {
        let options = &self.shared.options;
        write!(f, "{} at {}, {}; ", options.subsystem, self.address, options.config)?;
        write!(f, "nothing authenticates hosts but their names")
    }
}

impl Drop for Target {
    fn drop(&mut self) {
        self.shared.is_ending.store(true, Ordering::Relaxed);
        self.shared.hosts().end_all();
        // (a connection more, so that the listener looks)
        let _ = TcpStream::connect(self.address);
        join(self.listener.take());
        let _ = self.shared.engine.send(Message::End);
        if let Some(engine) = self.engine.take() {
            let _ = engine.join();
        }
    }
}

// (a thread that panicked has said so)
fn join(thread: Option<JoinHandle<()>>) {
    if let Some(it) = thread {
        let _ = it.join();
    }
}

fn listen(listener: &TcpListener, shared: &Arc<Shared>) {
    loop {
        let came = listener.accept();
        if shared.is_ending() {
            return;
        }
        match came {
            Ok((stream, peer)) => {
                let given = shared.clone();
                let id = shared.last.fetch_add(1, Ordering::Relaxed) + 1;
                // (a connection that can't be set up is closed)
                let _ = thread::Builder::new().spawn(move || serve(&given, stream, id, peer));
            }
            // (too many open files, say)
            Err(_) => thread::sleep(Duration::from_millis(10)),
        }
    }
}

/// How often a connection that is silent looks at its clocks.
const TICK: Duration = Duration::from_millis(200);

/// A connection that is noted, until this is dropped, however that comes.
struct Noted<'a>(&'a Shared, u64);

impl Drop for Noted<'_> {
    fn drop(&mut self) {
        self.0.hosts().forget(self.1);
    }
}

/// Serves a connection until it ends, if it may come.
fn serve(shared: &Arc<Shared>, stream: TcpStream, id: u64, peer: SocketAddr) -> std::io::Result<()> {
    stream.set_nodelay(true)?;
    stream.set_read_timeout(Some(TICK))?;
    stream.set_write_timeout(Some(shared.options.patience))?;
    let (known, writing, rest) = (stream.try_clone()?, stream.try_clone()?, stream.try_clone()?);
    let admitted = shared.hosts().admit(id, known, shared.options.connections);
    if admitted != Admitted::Yes {
        shared.say(|| format!("connection {id} of {peer} is one too many"));
    }
    if admitted == Admitted::No {
        return Ok(());
    }
    let _noted = Noted(shared, id);
    let (out, writer) = Outlet::start(writing)?;
    let mut connection = Connection::new(shared.clone(), stream, id, out, admitted);
    let why = connection.serve();
    shared.say(|| format!("connection {id} of {peer} ends: {why}"));
    drop(connection);
    // (the other side may still read why it ends)
    join(Some(writer));
    drain(rest);
    Ok(())
}

/// Reads on until the other side closes, for a while, so that what was written last isn't lost.
fn drain(mut stream: TcpStream) {
    let mut bytes = [0; 4096];
    for _ in 0..256 {
        match std::io::Read::read(&mut stream, &mut bytes) {
            Ok(0) | Err(_) => return,
            Ok(_) => {}
        }
    }
}
