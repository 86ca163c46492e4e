//! Numbers in an image: groups of seven bits, lowest group first.
use crate::refusal::Refusal;

/// The most bytes that a number takes.
/// Nine groups of seven bits make 63 bits.
pub const LONGEST: usize = 9;

/// Reads the number at the front of the bytes: its value and its length, or a refusal and how many bytes were looked at.
/// An early end gives 1; a last group of zero after the first byte gives 2; a ninth byte with its top bit set gives 17 (request #107).
pub fn decode(bytes: &[u8]) -> Result<(u64, usize), (Refusal, usize)> {
    let mut value = 0u64;
    for group in 0..LONGEST {
        let byte = *bytes.get(group).ok_or((Refusal::Ends, group))?;
        value |= u64::from(byte & 0x7f) << (7 * group);
        if byte & 0x80 == 0 {
            if byte == 0 && group > 0 {
                return Err((Refusal::NotShortest, group + 1));
            }
            return Ok((value, group + 1));
        }
    }
    Err((Refusal::Endless, LONGEST))
}

/// Appends the shortest form of a number below 2^63.
/// Each byte but the last has its top bit set.
pub fn encode(number: u64, out: &mut Vec<u8>) {
    let mut rest = number;
    while rest >= 128 {
        out.push((rest % 128) as u8 + 128);
        rest /= 128;
    }
    out.push(rest as u8);
}
