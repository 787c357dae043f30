//! A list of steps, and the script that asks for them.

use crate::asked::Asked;
use peer::Config;
use peer::text::{put_config, put_data, put_hex};

/// Steps over a configuration, and the bytes of their entries.
pub struct List {
    pub config: Config,
    pub asked: Vec<Asked>,
    pub bytes: Vec<u8>,
}

fn other(kind: u32, number: u64) -> Asked {
    Asked { kind, count: 0, number, at: 0, first: 0, second: 0 }
}

impl List {
    pub fn new(config: Config) -> List {
        List { config, asked: Vec::new(), bytes: Vec::new() }
    }

    /// Puts an entry with its data among the bytes, and says where.
    pub fn entry(&mut self, entry: &[u8; 64], data: &[u8]) -> usize {
        let at = self.bytes.len();
        self.bytes.extend_from_slice(entry);
        self.bytes.extend_from_slice(data);
        at
    }

    pub fn publish(&mut self, queue: u16, count: u32, at: usize, first: usize, second: usize) {
        self.asked.push(Asked { kind: 0, count, number: u64::from(queue), at, first, second });
    }

    pub fn fetch(&mut self, queue: u16) {
        self.asked.push(other(1, u64::from(queue)));
    }

    pub fn grant(&mut self, ticket: u64) {
        self.asked.push(other(2, ticket));
    }

    pub fn block(&mut self, ticket: u64) {
        self.asked.push(other(3, ticket));
    }

    pub fn post(&mut self, ticket: u64) {
        self.asked.push(other(4, ticket));
    }

    pub fn reap(&mut self, queue: u16) {
        self.asked.push(other(5, u64::from(queue)));
    }

    /// A command of one entry, alone from its Publish to its Reap; its units have so many blocks.
    pub fn alone(&mut self, ticket: u64, at: usize, length: usize, units: &[u16]) {
        self.publish(1, 1, at, length, 0);
        self.fetch(1);
        for blocks in units {
            self.grant(ticket);
            (0..*blocks).for_each(|_| self.block(ticket));
        }
        self.post(ticket);
        self.reap(1);
    }

    // The line of a script that asks for this step; a Publish without an entry has none.
    fn line(&self, asked: &Asked, out: &mut Vec<u8>) {
        let kind = ["publish", "fetch", "grant", "block", "post", "reap"][asked.kind as usize];
        if asked.kind != 0 {
            out.extend_from_slice(format!("{kind} {}\n", asked.number).as_bytes());
            return;
        }
        if asked.count == 0 {
            return;
        }
        out.extend_from_slice(format!("{kind} {}", asked.number).as_bytes());
        let mut at = asked.at;
        for (place, length) in [asked.first, asked.second][..asked.count as usize].iter().enumerate() {
            out.extend_from_slice(if place == 0 { b" raw " } else { b" + raw " });
            put_hex(out, &self.bytes[at..at + 64]);
            out.push(b' ');
            put_data(out, &self.bytes[at + 64..at + 64 + length]);
            at += 64 + length;
        }
        out.push(b'\n');
    }

    /// The whole script.
    pub fn script(&self) -> Vec<u8> {
        let mut out = Vec::new();
        put_config(&mut out, &self.config);
        self.asked.iter().for_each(|asked| self.line(asked, &mut out));
        out
    }
}
