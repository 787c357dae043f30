//! CRC32C, the digest of headers and data.

const TABLES: [[u32; 256]; 4] = tables();

const fn tables() -> [[u32; 256]; 4] {
    let mut tables = [[0; 256]; 4];
    let mut at = 0;
    while at < 256 {
        let (mut sum, mut bit) = (at as u32, 0);
        while bit < 8 {
            sum = if sum & 1 == 1 { sum >> 1 ^ 0x82F6_3B78 } else { sum >> 1 };
            bit += 1;
        }
        tables[0][at] = sum;
        at += 1;
    }
    let mut at = 0;
    while at < 256 {
        let mut table = 1;
        while table < 4 {
            let below = tables[table - 1][at];
            tables[table][at] = below >> 8 ^ tables[0][below as usize & 255];
            table += 1;
        }
        at += 1;
    }
    tables
}

/// The CRC32C of these bytes.
///
/// ```
/// assert_eq!(vandrexu_wire::crc32c(b"123456789"), 0xE306_9283);
/// assert_eq!(vandrexu_wire::crc32c(&[0; 32]), 0x8A91_36AA);
/// ```
#[must_use]
pub fn crc32c(bytes: &[u8]) -> u32 {
    let mut sum = !0;
    let words = bytes.chunks_exact(4);
    let rest = words.remainder();
    for word in words {
        let [a, b, c, d] = (sum ^ crate::u32_at(word, 0)).to_le_bytes();
        sum = TABLES[3][usize::from(a)]
            ^ TABLES[2][usize::from(b)]
            ^ TABLES[1][usize::from(c)]
            ^ TABLES[0][usize::from(d)];
    }
    for byte in rest {
        sum = sum >> 8 ^ TABLES[0][usize::from(sum as u8 ^ byte)];
    }
    !sum
}
