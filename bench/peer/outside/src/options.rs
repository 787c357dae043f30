//! How a trace is to be read: the lines of its head.

use crate::trace::Line;
use peer::Submission;

/// A completion's fields that may be ignored, in the order of the line that names them.
pub const FIELDS: [&str; 6] = ["DNR", "MORE", "CRD", "DW0", "DW1", "SQHD"];

#[derive(Clone, Copy, Debug, Default, PartialEq, Eq)]
pub struct Options {
    pub contents_unknown: bool,
    pub statuses_any: bool,
    /// By field, as they are listed.
    pub ignored: [bool; 6],
}

/// Whether a status says that nothing was done: any but success and Compare Failure.
pub fn is_nothing(status: u16) -> bool {
    status != 0 && status != 0x285
}

/// The bits of a completion that a field has: a byte and a mask for each.
fn bits_of(field: usize) -> Vec<(usize, u8)> {
    match field {
        0 => vec![(15, 0x80)],
        1 => vec![(15, 0x40)],
        2 => vec![(15, 0x30)],
        3 => (0..4).map(|byte| (byte, 0xFF)).collect(),
        4 => (4..8).map(|byte| (byte, 0xFF)).collect(),
        _ => vec![(8, 0xFF), (9, 0xFF)],
    }
}

impl Options {
    /// The lines of the head.
    pub fn text(&self) -> String {
        let mut text = String::new();
        if self.contents_unknown {
            text += "observe contents unknown\n";
        }
        if self.statuses_any {
            text += "observe statuses any\n";
        }
        let named: Vec<&str> = (0..6).filter(|field| self.ignored[*field]).map(|field| FIELDS[field]).collect();
        if !named.is_empty() {
            text += &format!("observe ignore {}\n", named.join(" "));
        }
        text
    }

    pub fn ignores_head(&self) -> bool {
        self.ignored[5]
    }

    /// The bytes of a completion without what isn't compared.
    pub fn read(&self, cqe: &[u8; 16]) -> [u8; 16] {
        let mut bytes = *cqe;
        for (byte, mask) in (0..6).filter(|field| self.ignored[*field]).flat_map(bits_of) {
            bytes[byte] &= !mask;
        }
        let word = u16::from_le_bytes([bytes[14], bytes[15]]);
        let status = word >> 1 & 0x7FF;
        if self.statuses_any && is_nothing(status) {
            let word = word & 0xF001 | 0xFFE;
            bytes[14..].copy_from_slice(&word.to_le_bytes());
        }
        bytes
    }

    /// The same with other bits in the fields that are ignored: field, byte of it and bits are chosen by `other`.
    pub fn scramble(&self, cqe: &mut [u8; 16], mut other: impl FnMut() -> u8) {
        for (byte, mask) in (0..6).filter(|field| self.ignored[*field]).flat_map(bits_of) {
            cqe[byte] = cqe[byte] & !mask | other() & mask;
        }
    }

    fn reads_entry(&self, one: &Submission, told: &Submission) -> bool {
        let mut refused = told.entry;
        refused[4..8].fill(0);
        one.payload == told.payload && (one.entry == told.entry || self.statuses_any && one.entry == refused)
    }

    /// Whether a line of what hosts saw of a history stands for this one of a trace.
    pub fn reads(&self, one: &Line, told: &Line) -> bool {
        match (one, told) {
            (Line::Publish(queue, batch), Line::Publish(other, told)) => {
                let same = batch.len() == told.len() && batch.iter().zip(told).all(|(one, told)| self.reads_entry(one, told));
                queue == other && same
            }
            (Line::Reap(queue, cqe, data), Line::Reap(other, told, found)) => {
                queue == other && self.read(cqe) == self.read(told) && data == found
            }
            _ => false,
        }
    }
}
