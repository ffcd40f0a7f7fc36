//! 01, "Lengths": the length of each read, from l_read or from the size
//! section, and the raw DNA size. Numbers 9 and 10, always with read index 0.
//! The split into words of 16 bits stands here; N lists use it too.

use crate::header::{Header, SIZE};
use crate::refusal::*;

pub const MAX_LENGTH: u64 = 100_000;
pub const FULL_WORD: u32 = 32_768;

/// The read lengths of the block at the input's start: numbers 2 to 10.
pub fn lengths(input: &[u8]) -> Result<Vec<u32>, Refusal> {
    let header = Header::read(input)?;
    read_lengths(&header, header.section(input, SIZE))
}

/// Numbers 9 and 10, for a header that earns none of 2 to 8.
pub fn read_lengths(header: &Header, sizes: &[u8]) -> Result<Vec<u32>, Refusal> {
    let lengths = if header.same_length() {
        same_lengths(header, sizes)
    } else {
        size_section(header.reads as usize, sizes)
    };
    let lengths = lengths.ok_or(Refusal::of_block(LENGTHS_INVALID))?;

    // 10: "Raw DNA size is the sum of lengths." The sum is not reduced: it
    // can exceed 32 bits, and then it differs.
    let sum: u64 = lengths.iter().map(|&length| length as u64).sum();
    if sum != header.dna_raw_size {
        return Err(Refusal::of_block(DNA_SIZE_WRONG));
    }
    Ok(lengths)
}

/// "a read has 1 to 100,000 letters".
fn is_read_length(length: u64) -> bool {
    (1..=MAX_LENGTH).contains(&length)
}

/// "With flag 0x1 and n_reads above 0, each length is l_read; with flag 0x1
/// the size body is empty." Negative ones are refused, "l_read only where it
/// is used".
fn same_lengths(header: &Header, sizes: &[u8]) -> Option<Vec<u32>> {
    if !sizes.is_empty() {
        return None;
    }
    if header.reads == 0 {
        return Some(Vec::new());
    }
    if header.l_read < 0 || !is_read_length(header.l_read as u64) {
        return None;
    }
    Some(vec![header.l_read as u32; header.reads as usize])
}

/// "groups of 8 reads, the last shorter: a same byte, a byte-size byte, then
/// the sizes". None where 01 refuses.
fn size_section(reads: usize, sizes: &[u8]) -> Option<Vec<u32>> {
    let mut lengths: Vec<u32> = Vec::new();
    let mut rest = sizes;
    while lengths.len() < reads {
        let in_group = (reads - lengths.len()).min(8);
        let same = take_byte(&mut rest)?;
        let byte_size = take_byte(&mut rest)?;
        // "a bit past the last read"
        if bits_past(same, in_group) || bits_past(byte_size, in_group) {
            return None;
        }
        for index in 0..in_group {
            let length = match (bit(same, index), bit(byte_size, index)) {
                // "both bits set"
                (true, true) => return None,
                // "Same bit set: the length before, nothing stored";
                // "same on the first read" is refused.
                (true, false) => *lengths.last()? as u64,
                // "Byte-size bit set: one byte."
                (false, true) => take_byte(&mut rest)? as u64,
                // "Neither: words of 16 bits"
                (false, false) => take_words(&mut rest)?,
            };
            // "length 0 or above 100,000"
            if !is_read_length(length) {
                return None;
            }
            lengths.push(length as u32);
        }
    }
    // "bytes missing or left"
    if rest.is_empty() {
        Some(lengths)
    } else {
        None
    }
}

/// "32768 as often as it fits, then one remainder below 32768"; refused are
/// "a word above 32768" and a cut.
fn take_words(rest: &mut &[u8]) -> Option<u64> {
    let mut sum = 0;
    loop {
        let word = take_byte(rest)? as u32 + 256 * take_byte(rest)? as u32;
        if word > FULL_WORD {
            return None;
        }
        sum += word as u64;
        if word < FULL_WORD {
            return Some(sum);
        }
    }
}

fn take_byte(rest: &mut &[u8]) -> Option<u8> {
    let (&first, after) = rest.split_first()?;
    *rest = after;
    Some(first)
}

/// "Bit 0 of a byte is always its most significant bit".
pub fn bit(byte: u8, index: usize) -> bool {
    byte >> (7 - index) & 1 == 1
}

/// Whether a bit after the first `in_group` bits is set.
pub fn bits_past(byte: u8, in_group: usize) -> bool {
    (in_group..8).any(|index| bit(byte, index))
}

/// The words of a value, little-endian.
pub fn write_words(mut value: u32, out: &mut Vec<u8>) {
    while value >= FULL_WORD {
        out.extend((FULL_WORD as u16).to_le_bytes());
        value -= FULL_WORD;
    }
    out.extend((value as u16).to_le_bytes());
}
