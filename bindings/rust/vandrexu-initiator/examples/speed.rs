//! How fast a target is: speed ADDRESS:PORT [SECONDS]. It prints commands a second, and the microseconds from a command to its
//! completion, of Reads, Writes and fused pairs at depths 1, 16 and 128, over one connection.
use std::collections::HashMap;
use std::time::{Duration, Instant};
use vandrexu_initiator::{BLOCK, Command, Dial, Host, Queue, Result, opcode};

/// Blocks of a command.
const BLOCKS: usize = 8;
/// Where commands go: so many places of that many blocks.
const PLACES: u64 = 128;

/// Sends the n-th command of a kind, or pair: the CIDs of what was sent.
fn send(queue: &mut Queue, kind: &str, number: u64) -> Result<Vec<u16>> {
    let slba = number * 37 % PLACES * BLOCKS as u64;
    let data = [0; BLOCKS * BLOCK];
    Ok(match kind {
        "Read" => vec![queue.send(Command::blocks(opcode::READ, slba, BLOCKS), &[], data.len())?],
        "Write" => vec![queue.send(Command::blocks(opcode::WRITE, slba, BLOCKS), &data, 0)?],
        _ => queue.send_pair(slba, &data[..BLOCK], &data[..BLOCK]).map(|it| vec![it.0, it.1])?,
    })
}

/// Keeps so many commands in flight for a while; of pairs as many halves, and one pair at the least. How many were done, and how
/// long all were under way together.
fn run(queue: &mut Queue, kind: &str, depth: usize, time: Duration) -> Result<(u64, Duration)> {
    let (began, mut done, mut number, mut sum) = (Instant::now(), 0, 0, Duration::ZERO);
    let each = if kind == "pair" { 2 } else { 1 };
    let mut sent = HashMap::new();
    while began.elapsed() < time || !sent.is_empty() {
        while began.elapsed() < time && sent.len() + each <= depth.max(each) {
            let now = Instant::now();
            sent.extend(send(queue, kind, number)?.into_iter().map(|it| (it, now)));
            number += 1;
        }
        if !sent.is_empty() {
            let cid = queue.receive()?.completion.cid();
            sum += sent.remove(&cid).map_or(Duration::ZERO, |it| it.elapsed());
            done += 1;
        }
    }
    Ok((done, sum))
}

fn main() -> std::result::Result<(), Box<dyn std::error::Error>> {
    let words: Vec<String> = std::env::args().skip(1).collect();
    let address = words.first().ok_or("speed ADDRESS:PORT [SECONDS]")?.parse()?;
    let time = Duration::from_secs(words.get(1).map_or(Ok(2), |it| it.parse())?);
    println!("{:8}{:>8}{:>14}{:>16}", "", "depth", "commands/s", "us a command");
    for kind in ["Read", "Write", "pair"] {
        for depth in [1, 16, 128] {
            let mut host = Host::connect(&Dial { slots: 200, ..Dial::to(address) }, 1)?;
            let began = Instant::now();
            let (done, sum) = run(&mut host.queues[0], kind, depth, time)?;
            let (seconds, each) = (began.elapsed().as_secs_f64(), sum.as_secs_f64() * 1e6 / done as f64);
            println!("{kind:8}{depth:>8}{:>14.0}{each:>16.1}", done as f64 / seconds);
        }
    }
    Ok(())
}
