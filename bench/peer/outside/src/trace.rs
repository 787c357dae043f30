//! What hosts see of a controller, and its text.

use crate::options::Options;
use peer::text::{entry_line, put_config, put_entry};
use peer::{BLOCK, Config, Entry, Submission};

#[derive(Clone, Debug, PartialEq, Eq)]
pub enum Line {
    Publish(u16, Vec<Submission>),
    Reap(u16, [u8; 16], Vec<u8>),
}

#[derive(Clone, Debug, PartialEq, Eq)]
pub struct Trace {
    pub config: Config,
    pub options: Options,
    pub lines: Vec<Line>,
}

// The words of a line of a history but its first two.
fn words_behind(entry: &Entry, count: usize) -> Vec<u8> {
    let mut line = Vec::new();
    put_entry(&mut line, entry);
    line.splitn(count + 1, |byte| *byte == b' ').last().unwrap_or(&[]).to_vec()
}

impl Trace {
    /// The lines of its file.
    pub fn text(&self) -> Vec<u8> {
        let mut out = Vec::new();
        put_config(&mut out, &self.config);
        out.extend_from_slice(self.options.text().as_bytes());
        for line in &self.lines {
            match line {
                Line::Publish(queue, batch) => put_entry(&mut out, &Entry::Publish { queue: *queue, batch: batch.clone() }),
                Line::Reap(queue, cqe, data) => {
                    out.extend_from_slice(format!("reap {queue} ").as_bytes());
                    out.extend(words_behind(&Entry::Post { ticket: 1, cqe: *cqe, payload: data.clone() }, 2));
                }
            }
        }
        out
    }

    /// What hosts see of a history of this configuration.
    pub fn of_history(config: Config, entries: &[Entry]) -> Trace {
        let mut trace = Trace { config, options: Options::default(), lines: Vec::new() };
        let mut queues = Vec::new();
        let mut posts: Vec<Vec<&Vec<u8>>> = vec![Vec::new(); usize::from(config.cqs) + 1];
        let mut reaps = vec![0; usize::from(config.cqs) + 1];
        for entry in entries {
            match entry {
                Entry::Publish { queue, batch } => trace.lines.push(Line::Publish(*queue, batch.clone())),
                Entry::Fetch { queue, .. } => queues.push(*queue),
                Entry::Post { ticket, payload, .. } => {
                    let cq = config.completion_queue(queues[*ticket as usize - 1]);
                    posts[usize::from(cq)].push(payload);
                }
                Entry::Reap { queue, cqe } => {
                    let number = &mut reaps[usize::from(*queue)];
                    trace.lines.push(Line::Reap(*queue, *cqe, posts[usize::from(*queue)][*number].clone()));
                    *number += 1;
                }
                _ => {}
            }
        }
        trace
    }

    /// The configuration of a history of it.
    pub fn history_config(&self) -> Config {
        let mut config = self.config;
        if self.options.contents_unknown {
            if config.cqs == config.pairs {
                config.cqs += 1;
            }
            config.pairs += 1;
        }
        config
    }

    // Whether these lines, which hosts saw of a history, stand for this trace: where contents are unknown those of the
    // last queue pair come first, and none of its commands is out when others come.
    fn is_read_from(&self, lines: &[Line]) -> bool {
        let pair = self.history_config().pairs;
        let mut own = Vec::new();
        let mut out = 0;
        for line in lines {
            let (aside, more) = match line {
                Line::Publish(queue, batch) => (*queue == pair, batch.len() as i64),
                Line::Reap(_, cqe, _) => (u16::from_le_bytes([cqe[10], cqe[11]]) == pair, -1),
            };
            if !(self.options.contents_unknown && aside) {
                if out != 0 {
                    return false;
                }
                own.push(line);
            } else if own.is_empty() {
                out += more;
            } else {
                return false;
            }
        }
        own.len() == self.lines.len() && own.iter().zip(&self.lines).all(|(one, told)| self.options.reads(one, told))
    }

    /// Whether this text is that of a legal history that hosts saw as this trace.
    pub fn is_explained_by(&self, text: &[u8]) -> bool {
        let mut first = Vec::new();
        let config = self.history_config();
        put_config(&mut first, &config);
        let Some(rest) = text.strip_prefix(&first[..]) else { return false };
        let lines = rest.split_inclusive(|byte| *byte == b'\n');
        let entries: Option<Vec<Entry>> = lines.map(|line| entry_line(line.strip_suffix(b"\n")?)).collect();
        entries.is_some_and(|entries| {
            let seen = Trace::of_history(config, &entries);
            peer::check::check(&config, &entries).is_ok() && self.is_read_from(&seen.lines)
        })
    }
}

/// The blocks of these bytes, where they are whole ones.
pub fn blocks_of(data: &[u8]) -> Option<Vec<&[u8]>> {
    (data.len() % BLOCK == 0).then(|| data.chunks_exact(BLOCK).collect())
}
