//! The product, by the functions of its library for C, whose text calls give what the program prints.

use peer::Config;
use trials::asked::Asked;
use vandrexu_sys as sys;

/// A controller of the product.
pub struct Controller {
    handle: sys::vandrexu_controller,
    /// The data of a batch, one entry's behind the other's.
    data: Vec<u8>,
}

fn config_of(config: &Config) -> sys::vandrexu_config {
    let n = *config;
    sys::vandrexu_config {
        blocks: n.blocks,
        awun: n.awun,
        acwu: n.acwu,
        nabsn: n.nabsn,
        nabo: n.nabo,
        pairs: n.pairs,
        sq_size: n.sq_size,
        cq_size: n.cq_size,
        jobs: n.jobs,
        cqs: n.cqs,
    }
}

/// An entry as it lies among the bytes, and its data behind it.
fn entry_at(bytes: &[u8], at: usize, length: usize) -> Option<(sys::vandrexu_entry, &[u8])> {
    let rest = bytes.get(at..)?;
    let entry = sys::vandrexu_entry { bytes: rest.get(..64)?.try_into().ok()?, count: length };
    Some((entry, rest.get(64..)?.get(..length)?))
}

impl Controller {
    pub fn new(config: &Config) -> Option<Controller> {
        let mut handle = sys::VANDREXU_CONTROLLER_NONE;
        // SAFETY: both are there during the call, and aren't the same.
        let status = unsafe { sys::vandrexu_controller_new(&config_of(config), &mut handle) };
        (status == sys::VANDREXU_DONE).then_some(Controller { handle, data: Vec::new() })
    }

    fn publish(&mut self, bytes: &[u8], asked: &Asked) -> Option<u32> {
        let queue = asked.number as u16;
        let (entries, data): (&[sys::vandrexu_entry], &[u8]) = match asked.count {
            0 => (&[], &[]),
            1 => {
                let (entry, data) = entry_at(bytes, asked.at, asked.first)?;
                (&[entry], data)
            }
            _ => {
                let (first, its) = entry_at(bytes, asked.at, asked.first)?;
                let (second, others) = entry_at(bytes, asked.at + 64 + asked.first, asked.second)?;
                self.data.clear();
                self.data.extend_from_slice(its);
                self.data.extend_from_slice(others);
                (&[first, second], &self.data)
            }
        };
        // SAFETY: entries and data are there during the call, and the handle is another place.
        Some(unsafe {
            sys::vandrexu_controller_publish(&mut self.handle, queue, entries.as_ptr(), entries.len(), data.as_ptr(), data.len())
        })
    }

    /// Makes a step, and answers its number; None where its entries don't lie among the bytes.
    #[inline(never)]
    pub fn step(&mut self, bytes: &[u8], asked: &Asked) -> Option<u32> {
        let (queue, ticket) = (asked.number as u16, asked.number);
        let (mut cqe, mut count) = ([0; 16], 0);
        // SAFETY: the handle and what is written are there during the call, and are different places.
        Some(unsafe {
            match asked.kind {
                0 => return self.publish(bytes, asked),
                1 => sys::vandrexu_controller_fetch(&mut self.handle, queue, &mut Default::default()),
                2 => sys::vandrexu_controller_grant(&mut self.handle, ticket, &mut Default::default()),
                3 => sys::vandrexu_controller_block(&mut self.handle, ticket, &mut Default::default()),
                4 => sys::vandrexu_controller_post(&mut self.handle, ticket, cqe.as_mut_ptr()),
                _ => sys::vandrexu_controller_reap(&mut self.handle, queue, cqe.as_mut_ptr(), &mut count),
            }
        })
    }

    fn run_all(&mut self, asked: &[Asked], bytes: &[u8]) -> Option<u64> {
        let mut accepted = 0;
        for one in asked {
            accepted += u64::from(self.step(bytes, one)? == sys::VANDREXU_DONE);
        }
        Some(accepted)
    }
}

impl Drop for Controller {
    fn drop(&mut self) {
        // SAFETY: the handle owns a controller, or nothing.
        unsafe { sys::vandrexu_controller_free(&mut self.handle) }
    }
}

/// Makes all steps over a new controller; how many were accepted. What a Read read stays with the controller.
#[inline(never)]
pub fn run(config: &Config, asked: &[Asked], bytes: &[u8]) -> u64 {
    Controller::new(config).and_then(|mut it| it.run_all(asked, bytes)).unwrap_or(u64::MAX)
}

/// Makes all steps, and then asks what is ready so many times; how often it was something.
#[inline(never)]
pub fn ready(config: &Config, asked: &[Asked], bytes: &[u8], times: u64) -> u64 {
    let mut it = Controller::new(config).expect("a configuration");
    it.run_all(asked, bytes).expect("entries among the bytes");
    let mut step = Default::default();
    // SAFETY: the handle and the step are there during the call.
    (0..times).filter(|_| unsafe { sys::vandrexu_controller_ready(&mut it.handle, &mut step) } == sys::VANDREXU_DONE).count() as u64
}

/// Makes all steps, for `print`.
pub fn controller_of(config: &Config, asked: &[Asked], bytes: &[u8]) -> Controller {
    let mut it = Controller::new(config).expect("a configuration");
    it.run_all(asked, bytes).expect("entries among the bytes");
    it
}

/// Writes the lines of the controller's history so many times, but for the configuration's; how many bytes there were.
#[inline(never)]
pub fn print(of: &mut Controller, room: &mut [u8], times: u64) -> u64 {
    let mut bytes = 0;
    for _ in 0..times {
        let (mut from, mut next, mut needed) = (1, 0, 0);
        loop {
            // SAFETY: all four are there during the call, and are different places.
            let status = unsafe {
                sys::vandrexu_controller_history(&mut of.handle, from, room.as_mut_ptr(), room.len(), &mut needed, &mut next)
            };
            assert_eq!(status, sys::VANDREXU_DONE);
            if next == from {
                break;
            }
            // its line feeds are not counted
            bytes += needed as u64 - (next - from);
            from = next;
        }
    }
    bytes
}

/// Runs a script, whose text is thrown away; whether all its lines were good.
#[inline(never)]
pub fn script(script: &[u8]) -> u64 {
    let (mut needed, mut line) = (0, 0);
    // SAFETY: all is there during the call, and there is no room to write into.
    let status = unsafe {
        let out = std::ptr::NonNull::dangling().as_ptr();
        sys::vandrexu_run_text(script.as_ptr(), script.len(), sys::VANDREXU_ALL_LINES as u8, out, 0, &mut needed, &mut line)
    };
    u64::from(status == sys::VANDREXU_TOO_SMALL)
}

/// Reads and runs a script, and shows none of its lines but the configuration; whether all were good.
#[inline(never)]
pub fn read_script(script: &[u8]) -> u64 {
    let (mut needed, mut line) = (0, 0);
    // SAFETY: as in `script`.
    let status = unsafe {
        let out = std::ptr::NonNull::dangling().as_ptr();
        sys::vandrexu_run_text(script.as_ptr(), script.len(), 0, out, 0, &mut needed, &mut line)
    };
    u64::from(status == sys::VANDREXU_TOO_SMALL)
}

/// A checker of the product.
struct Checker(sys::vandrexu_checker);

impl Checker {
    fn new(config: &Config) -> Checker {
        let mut handle = sys::VANDREXU_CHECKER_NONE;
        // SAFETY: both are there during the call, and aren't the same.
        let status = unsafe { sys::vandrexu_checker_new(&config_of(config), &mut handle) };
        assert_eq!(status, sys::VANDREXU_DONE);
        Checker(handle)
    }

    fn take(&mut self, line: &[u8]) -> u32 {
        // SAFETY: both are there during the call.
        unsafe { sys::vandrexu_checker_take_line(&mut self.0, line.as_ptr(), line.len()) }
    }
}

impl Drop for Checker {
    fn drop(&mut self) {
        // SAFETY: the handle owns a checker, or nothing.
        unsafe { sys::vandrexu_checker_free(&mut self.0) }
    }
}

fn lines_of(text: &[u8]) -> impl Iterator<Item = &[u8]> {
    text.split(|byte| *byte == b'\n').filter(|line| !line.is_empty())
}

/// Reads and checks the lines of a history so many times; how often they were legal.
#[inline(never)]
pub fn check_lines(config: &Config, text: &[u8], times: u64) -> u64 {
    let is_legal = |_: &u64| {
        let mut checker = Checker::new(config);
        lines_of(text).all(|line| checker.take(line) == sys::VANDREXU_DONE)
    };
    (0..times).filter(is_legal).count() as u64
}

/// Reads the lines of a history, behind one that makes it illegal, so that none is checked; how many are lines.
#[inline(never)]
pub fn parse(config: &Config, text: &[u8]) -> u64 {
    let mut checker = Checker::new(config);
    assert_eq!(checker.take(b"fetch 1 2 1 ok"), sys::VANDREXU_NOT_LEGAL);
    lines_of(text).filter(|line| checker.take(line) == sys::VANDREXU_NOT_LEGAL).count() as u64
}
