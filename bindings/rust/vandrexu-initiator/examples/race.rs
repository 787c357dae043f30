//! Two hosts race for locks by fused pairs, and log what they see: race ADDRESS:PORT TRACE [CONFIG]. Each round has a block
//! of its own, which both hosts ask for at once, and one should get. What is asked for next: casdisk observe TRACE.
use std::path::Path;
use std::sync::Barrier;
use std::sync::atomic::{AtomicU32, Ordering};
use std::thread;
use vandrexu::RemoteHost;
use vandrexu_initiator::{BLOCK, Carrier, Dial, Host, Result, Trace};

/// How many locks there are.
const ROUNDS: u64 = 200;
/// The configuration that vandrexu-target has unless told otherwise.
const CONFIG: &str = "config 65536 7 7 0 0 16 256 256 256";

/// A host with one queue, which has a driver and logs as the queue pair of the host's number.
fn connect(dial: &Dial, me: u8, trace: &Trace) -> Result<(Host, Carrier<RemoteHost>)> {
    let mut host = Host::connect(&dial.clone().named(&format!("nqn.2026-11.org.vandrexu:race:{me}")), 1)?;
    host.queues[0].trace = Some(trace.of_queue(me.into()));
    let carrier = host.carrier(|queue| RemoteHost::new(me.into(), queue, 0))?;
    Ok((host, carrier))
}

/// Asks for each lock at the same time as the other host does: the first round in which both got it.
fn take(host: &mut Carrier<RemoteHost>, me: u8, together: &Barrier, holders: &[AtomicU32]) -> Option<usize> {
    holders.iter().zip(0..).position(|(holders, block)| {
        together.wait();
        let taken = host.compare_and_write(block, &[0; BLOCK], &[me; BLOCK]).expect("a pair's answer");
        holders.fetch_add(taken.into(), Ordering::SeqCst);
        together.wait();
        holders.load(Ordering::SeqCst) > 1
    })
}

fn main() -> std::result::Result<(), Box<dyn std::error::Error>> {
    let words: Vec<String> = std::env::args().skip(1).collect();
    let [address, path, rest @ ..] = &words[..] else { return Err("race ADDRESS:PORT TRACE [CONFIG]".into()) };
    let config = rest.first().map_or(CONFIG, String::as_str);
    let cq_size = config.split(' ').nth(8).and_then(|it| it.parse().ok()).ok_or("CONFIG is no configuration line")?;
    let (trace, dial) = (Trace::create(Path::new(path), config, cq_size)?, Dial::to(address.parse()?));
    let (mut one, mut two) = (connect(&dial, 1, &trace)?, connect(&dial, 2, &trace)?);
    let together = Barrier::new(2);
    let holders: Vec<AtomicU32> = (0..ROUNDS).map(|_| AtomicU32::new(0)).collect();
    let found = thread::scope(|scope| {
        let (together, holders) = (&together, &holders[..]);
        let all =
            [(1, &mut one.1), (2, &mut two.1)].map(|(me, host)| scope.spawn(move || take(host, me, together, holders)));
        all.map(|it| it.join().expect("a host"))
    });
    trace.flush()?;
    match found[0] {
        Some(round) => println!("lock {round} is held by both hosts"),
        None => println!("no lock of {ROUNDS} was held by both hosts"),
    }
    Ok(())
}
