//! The lines of traces (docs/OBSERVING.md).
use crate::{BLOCK, Command};
use std::fmt::Write;

/// Bytes in upper-case digits.
pub fn hex_text(bytes: &[u8], out: &mut String) {
    for byte in bytes {
        let _ = write!(out, "{byte:02X}");
    }
}

/// Data as a trace spells it: a block of equal bytes by one of them.
///
/// ```
/// let mut text = String::new();
/// vandrexu_wire::data_text(&[0xA1; 1024], &mut text);
/// assert_eq!(text, "A1.A1");
/// ```
pub fn data_text(data: &[u8], out: &mut String) {
    if data.is_empty() {
        out.push('-');
    } else if !data.len().is_multiple_of(BLOCK) {
        out.push('x');
        hex_text(data, out);
    } else {
        for (at, block) in data.chunks(BLOCK).enumerate() {
            out.push_str(if at == 0 { "" } else { "." });
            let all_equal = block.iter().all(|it| *it == block[0]);
            hex_text(if all_equal { &block[..1] } else { block }, out);
        }
    }
}

/// An entry with its data, as a trace spells it: with no word of where the data lies.
pub fn entry_text(command: &Command, data: &[u8], out: &mut String) {
    let mut bytes = command.0;
    bytes[1] &= 0x3F;
    bytes[16..40].fill(0);
    hex_text(&bytes, out);
    out.push(' ');
    data_text(data, out);
}
