//! Document 01, "Numbers and bodies", the first paragraph: how a number is
//! written and read.

use crate::refusals::{BAD_NUMBER, CUT};

/// The number that starts at `at`, and the place after it; else 1 or 2: rules
/// N.1 to N.3.
pub fn read_number(s: &[u8], at: usize) -> Result<(u64, usize), u8> {
    let mut value = 0;
    let mut group = 0;
    loop {
        // "Cut: bytes end inside a field"
        let byte = *s.get(at.saturating_add(group)).ok_or(CUT)?;
        // "a tenth byte above 1 is BadNumber, whatever follows"
        if group == 9 && byte > 1 {
            return Err(BAD_NUMBER);
        }
        // "low seven bits first"
        value |= u64::from(byte & 0x7F) << (7 * group);
        // "the eighth bit set when another group follows"
        if byte & 0x80 == 0 {
            // "only the shortest form": the last of several groups isn't 0.
            if group > 0 && byte == 0 {
                return Err(BAD_NUMBER);
            }
            return Ok((value, at + group + 1));
        }
        group += 1;
    }
}

/// The shortest form of `n`.
pub fn write_number(n: u64) -> Vec<u8> {
    let mut written = Vec::new();
    let mut rest = n;
    while rest >= 128 {
        written.push((rest % 128) as u8 + 128);
        rest /= 128;
    }
    written.push(rest as u8);
    written
}
