//! 01, "The desk's material": the header table, numbers 2 to 8, and the nine
//! sections. "Its header is the table of contents, then the bodies; each
//! length counts opened bytes. Bodies follow in the order of their length
//! fields." Sections are numbered 0 to 8: dna, names, qualN, qual, size, N,
//! m1, m2, m3.

use crate::refusal::*;

pub const HEADER_BYTES: usize = 121;
pub const MAGIC: [u8; 2] = [0x49, 0x7C];
pub const SECTIONS: usize = 9;

pub const DNA: u64 = 0;
pub const NAMES: u64 = 1;
pub const SIZE: u64 = 4;
pub const N: u64 = 5;

pub const SAME_LENGTH: u32 = 0x1;
pub const NAMES_TOKENIZED: u32 = 0x8;
const DNA_FALLBACK: u32 = 0x40;
const ENCRYPTED: u32 = 0x80;

pub const MAX_READS: u64 = 50_000;

/// The fields that reading uses, from a header that earns none of 2 to 8.
#[derive(Clone, Debug)]
pub struct Header {
    pub header_length: u64,
    pub section_lengths: [u64; SECTIONS],
    pub flags: u32,
    pub l_read: i32,
    pub reads: u64,
    pub b_id: u64,
    pub dna_raw_size: u64,
}

fn u16_at(bytes: &[u8], at: usize) -> u16 {
    u16::from_le_bytes(bytes[at..at + 2].try_into().unwrap())
}

fn u32_at(bytes: &[u8], at: usize) -> u32 {
    u32::from_le_bytes(bytes[at..at + 4].try_into().unwrap())
}

fn i32_at(bytes: &[u8], at: usize) -> i32 {
    i32::from_le_bytes(bytes[at..at + 4].try_into().unwrap())
}

fn u64_at(bytes: &[u8], at: usize) -> u64 {
    u64::from_le_bytes(bytes[at..at + 8].try_into().unwrap())
}

impl Header {
    /// Numbers 2 to 8, smallest first.
    pub fn read(input: &[u8]) -> Result<Header, Refusal> {
        let refuse = |number| Err(Refusal::of_block(number));

        // 2: "fewer than 121 bytes".
        if input.len() < HEADER_BYTES {
            return refuse(HEADER_TRUNCATED);
        }
        // 3: "magic 2, bytes 49 7C".
        if input[0..2] != MAGIC {
            return refuse(MAGIC_WRONG);
        }
        // 4: "version not 20505 to 29999".
        let version = u16_at(input, 54);
        if !(20505..=29999).contains(&version) {
            return refuse(VERSION_UNSUPPORTED);
        }
        // 5: "l_header below 121"; it is signed, so negative ones too.
        let l_header = i32_at(input, 2);
        if l_header < HEADER_BYTES as i32 {
            return refuse(HEADER_LENGTH_TOO_SMALL);
        }
        // 6: "flag 0x40 or 0x80 set".
        let flags = u32_at(input, 42);
        if flags & (DNA_FALLBACK | ENCRYPTED) != 0 {
            return refuse(FLAG_UNSUPPORTED);
        }
        // 7: "n_reads outside 0 to 50,000"; it is signed.
        let n_reads = i32_at(input, 50);
        if n_reads < 0 || n_reads as u64 > MAX_READS {
            return refuse(READ_COUNT_OUT_OF_RANGE);
        }
        let mut section_lengths = [0; SECTIONS];
        for (number, length) in section_lengths.iter_mut().enumerate() {
            *length = u32_at(input, 6 + 4 * number) as u64;
        }
        let header = Header {
            header_length: l_header as u64,
            section_lengths,
            flags,
            l_read: i32_at(input, 46),
            reads: n_reads as u64,
            b_id: u64_at(input, 56),
            dna_raw_size: u32_at(input, 73) as u64,
        };
        // 8: "header and bodies longer than the input".
        if header.block_length() > input.len() as u64 {
            return refuse(SECTIONS_TRUNCATED);
        }
        Ok(header)
    }

    pub fn block_length(&self) -> u64 {
        self.header_length + self.section_lengths.iter().sum::<u64>()
    }

    /// Offset and length of one section. "Extra bytes of a longer header are
    /// skipped": the first section starts at l_header.
    pub fn span(&self, number: u64) -> (u64, u64) {
        let number = number as usize;
        let before: u64 = self.section_lengths[..number].iter().sum();
        (self.header_length + before, self.section_lengths[number])
    }

    pub fn section<'a>(&self, input: &'a [u8], number: u64) -> &'a [u8] {
        let (offset, length) = self.span(number);
        &input[offset as usize..(offset + length) as usize]
    }

    pub fn same_length(&self) -> bool {
        self.flags & SAME_LENGTH != 0
    }

    /// 02, Ticket 1: "without 0x8 names stay unread".
    pub fn names_stored(&self) -> bool {
        self.flags & NAMES_TOKENIZED != 0
    }
}

/// "A body is handed back as the very part of the block that holds it; an
/// empty part if the number is above 8 or the header earns 2 to 8."
pub fn section(input: &[u8], number: u64) -> &[u8] {
    let (offset, length) = section_span(input, number);
    &input[offset as usize..(offset + length) as usize]
}

/// Offset and length of a section; both 0 where the part is empty.
pub fn section_span(input: &[u8], number: u64) -> (u64, u64) {
    if number >= SECTIONS as u64 {
        return (0, 0);
    }
    match Header::read(input) {
        Err(_) => (0, 0),
        Ok(header) => match header.span(number) {
            (_, 0) => (0, 0),
            span => span,
        },
    }
}

/// The length of the block where the header earns none of 2 to 8, else 0.
pub fn block_length(input: &[u8]) -> u64 {
    Header::read(input).map_or(0, |header| header.block_length())
}

/// b_id where the header earns none of 2 to 8, else 0.
pub fn block_id(input: &[u8]) -> u64 {
    Header::read(input).map_or(0, |header| header.b_id)
}
