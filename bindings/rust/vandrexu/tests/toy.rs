//! A toy device with a planted fault and the controller are given the same random entries: the completion that differs
//! is found, and the checker refuses the toy's history at the line at which the fault was.
use std::fmt::Write;
use vandrexu::{Checker, Completion, Config, Controller, Entry, Error, Reaped};

const CONFIG: Config =
    Config { blocks: 4, awun: 0, acwu: 0, nabsn: 0, nabo: 0, pairs: 1, sq_size: 4, cq_size: 4, jobs: 8, cqs: 1 };
const ROUNDS: u16 = 400;

/// What the toy does wrong.
#[derive(Clone, Copy, Debug, PartialEq)]
enum Fault {
    None,
    /// A pair says yes and writes, whatever its block holds.
    Careless,
    /// Write Zeroes leaves what is there, and says that it wrote.
    Lazy,
    /// The phase tag doesn't change where the completion queue wraps.
    Phase,
}

/// A device that serves one command at a time, or one fused pair, of one block each; it writes its history down.
struct Toy {
    fault: Fault,
    medium: [[u8; 512]; 4],
    history: Vec<String>,
    tickets: usize,
    fetched: usize,
    posted: usize,
    /// The line of its history, counted from 1, at which the fault shows first.
    shows_at: Option<usize>,
}

impl Toy {
    fn new(fault: Fault) -> Toy {
        Toy { fault, medium: [[0; 512]; 4], history: vec![], tickets: 0, fetched: 0, posted: 0, shows_at: None }
    }

    /// Serves a published batch, and says what a host reaps.
    fn serve(&mut self, entries: &[Entry<'_>]) -> Vec<Reaped> {
        let words: Vec<_> = entries.iter().map(|it| format!("{} {}", hex(&it.bytes), word_of(it.data))).collect();
        self.history.push(format!("publish 1 {}", words.join(" + ")));
        self.tickets += 1;
        self.fetched += entries.len();
        self.history.push(format!("fetch 1 {} {} ok", self.tickets, entries.len()));
        let (equal, read) = self.unit(entries);
        let statuses: &[u16] = match (equal, entries.len()) {
            (true, _) => &[0, 0],
            (false, 1) => &[0x285],
            (false, _) => &[0x285, 0x009],
        };
        let reaped: Vec<_> =
            entries.iter().zip(statuses).map(|(it, status)| self.post(it, *status, read.clone())).collect();
        for it in &reaped {
            self.history.push(format!("reap 1 {}", hex(&it.completion.0)));
        }
        reaped
    }

    /// Makes the one unit: whether it found what it compares, and what it read.
    fn unit(&mut self, entries: &[Entry<'_>]) -> (bool, Vec<u8>) {
        let (entry, at) = (&entries[0], usize::from(entries[0].bytes[40]));
        let mode = if matches!(entry.bytes[0], 2 | 5) && entries.len() == 1 { "r" } else { "w" };
        self.history.push(format!("grant {} 0 {at} 1 {mode}", self.tickets));
        match entry.bytes[0] {
            2 => {
                self.block(at, "read *");
                return (true, self.medium[at].to_vec());
            }
            5 => {
                let is_equal = entry.data == self.medium[at];
                let careless = self.fault == Fault::Careless && entries.len() == 2;
                self.block(at, if is_equal || careless { "equal *" } else { "differs *" });
                if !is_equal && careless {
                    self.shows_at.get_or_insert(self.history.len());
                }
                if let (true, [_, write]) = (is_equal || careless, entries) {
                    self.medium[at].copy_from_slice(write.data);
                    self.block(at, "written -");
                }
                return (is_equal || careless, vec![]);
            }
            8 if self.fault == Fault::Lazy => {}
            8 => self.medium[at].fill(0),
            _ => self.medium[at].copy_from_slice(entry.data),
        }
        self.block(at, "written *");
        (true, vec![])
    }

    fn block(&mut self, at: usize, said: &str) {
        self.history.push(format!("block {} 0 {at} {said}", self.tickets));
    }

    fn post(&mut self, entry: &Entry<'_>, status: u16, data: Vec<u8>) -> Reaped {
        let due = self.posted / 4 % 2 == 0;
        let phase = due || self.fault == Fault::Phase;
        self.posted += 1;
        let mut cqe = [0; 16];
        cqe[8] = (self.fetched % 4) as u8;
        cqe[10] = 1;
        cqe[12..14].copy_from_slice(&entry.bytes[2..4]);
        cqe[14..16].copy_from_slice(&(status << 1 | u16::from(phase)).to_le_bytes());
        self.history.push(format!("post {} {} {}", self.tickets, hex(&cqe), word_of(&data)));
        if phase != due {
            self.shows_at.get_or_insert(self.history.len());
        }
        Reaped { completion: Completion(cqe), data }
    }
}

fn hex(bytes: &[u8]) -> String {
    bytes.iter().fold(String::new(), |mut words, it| {
        write!(words, "{it:02X}").expect("a String takes it");
        words
    })
}

/// A block of equal bytes, or no data.
fn word_of(data: &[u8]) -> String {
    if data.is_empty() { "-".to_owned() } else { hex(&data[..1]) }
}

/// Random numbers, by xorshift.
struct Draw(u64);

impl Draw {
    fn below(&mut self, bound: u64) -> u64 {
        self.0 ^= self.0 << 13;
        self.0 ^= self.0 >> 7;
        self.0 ^= self.0 << 17;
        self.0 % bound
    }

    /// A block of equal bytes, of which there are three.
    fn block(&mut self) -> [u8; 512] {
        [self.below(3) as u8; 512]
    }
}

/// Has the controller serve a batch, and says what a host reaps.
fn served(disk: &mut Controller, entries: &[Entry<'_>]) -> Result<Vec<Reaped>, Error> {
    disk.publish(1, entries)?;
    disk.fetch(1)?;
    disk.settle()?;
    disk.completions(1).collect()
}

/// Gives both the same random entries until a completion differs: says in which round one does.
fn differs(toy: &mut Toy, seed: u64) -> Result<Option<u16>, Error> {
    let (mut disk, mut draw) = (Controller::new(&CONFIG)?, Draw(seed));
    for round in 1..=ROUNDS {
        let (slba, old, new) = (draw.below(4), draw.block(), draw.block());
        let (cid, next) = (2 * round, 2 * round + 1);
        let entries: &[_] = match draw.below(6) {
            0 => &[Entry::read(cid, slba)],
            1 => &[Entry::write(cid, slba, &new)],
            2 => &[Entry::compare(cid, slba, &old)],
            3 => &[Entry::write_zeroes(cid, slba)],
            _ => &[Entry::compare(cid, slba, &old).first(), Entry::write(next, slba, &new).second()],
        };
        if toy.serve(entries) != served(&mut disk, entries)? {
            return Ok(Some(round));
        }
    }
    Ok(None)
}

/// The first line of a history that isn't legal, counted from 1, and why.
fn refused(history: &[String]) -> Result<Option<(usize, String)>, Error> {
    let mut checker = Checker::new(&CONFIG)?;
    for (at, line) in history.iter().enumerate() {
        if let Some(words) = checker.why(line)? {
            assert_eq!(checker.take_line(line), Err(Error::NotLegal));
            return Ok(Some((at + 1, words)));
        }
        checker.take_line(line)?;
    }
    Ok(None)
}

#[test]
fn a_toy_without_a_fault_answers_as_the_controller() {
    for seed in 1..=20 {
        let mut toy = Toy::new(Fault::None);
        assert_eq!(differs(&mut toy, seed), Ok(None));
        assert_eq!(refused(&toy.history), Ok(None));
        assert!(
            toy.history.iter().any(|it| it.contains("differs")) && toy.history.iter().any(|it| it.contains("equal"))
        );
    }
}

#[test]
fn a_careless_pair_is_found_where_it_should_have_lost() {
    for seed in 1..=20 {
        let mut toy = Toy::new(Fault::Careless);
        let round = differs(&mut toy, seed).expect("memory").expect("the fault is found");
        let (at, words) = refused(&toy.history).expect("memory").expect("the fault is found");
        assert_eq!(Some(at), toy.shows_at);
        assert!(words.ends_with(" equal, which isn't so at the mark"), "{words}");
        // nothing of an earlier round differed
        let publishes = toy.history[..at].iter().filter(|it| it.starts_with("publish")).count();
        assert_eq!(publishes, usize::from(round));
    }
}

#[test]
fn a_wrong_phase_is_found_at_the_first_wrap() {
    for seed in 1..=20 {
        let mut toy = Toy::new(Fault::Phase);
        assert!(differs(&mut toy, seed).expect("memory").is_some());
        let (at, words) = refused(&toy.history).expect("memory").expect("the fault is found");
        assert_eq!(Some(at), toy.shows_at);
        assert_eq!(words, "phase tag 1, due is 0");
    }
}

#[test]
fn zeroes_that_were_left_out_are_found_by_who_looks_there() {
    for seed in 1..=20 {
        let mut toy = Toy::new(Fault::Lazy);
        assert!(differs(&mut toy, seed).expect("memory").is_some());
        let (at, words) = refused(&toy.history).expect("memory").expect("the fault is found");
        let line = &toy.history[at - 1];
        assert!(line.starts_with("block ") || line.starts_with("post "), "{line}: {words}");
    }
}
