//! 01, "Numbers of refusal", and 40 and 41 of 02, Ticket 1: the numbers by
//! name, and what a call answers.
//! A refusal is a number, a block index and a read index; "every count in a
//! refusal is 0".

pub const REFERENCE_SIZE_WRONG: u32 = 1;
pub const HEADER_TRUNCATED: u32 = 2;
pub const MAGIC_WRONG: u32 = 3;
pub const VERSION_UNSUPPORTED: u32 = 4;
pub const HEADER_LENGTH_TOO_SMALL: u32 = 5;
pub const FLAG_UNSUPPORTED: u32 = 6;
pub const READ_COUNT_OUT_OF_RANGE: u32 = 7;
pub const SECTIONS_TRUNCATED: u32 = 8;
pub const LENGTHS_INVALID: u32 = 9;
pub const DNA_SIZE_WRONG: u32 = 10;
pub const N_SECTION_WRONG: u32 = 11;
pub const DNA_TRUNCATED: u32 = 12;
pub const FLAG_BIT_STRAY: u32 = 13;
pub const RECORD_FLAG_INVALID: u32 = 14;
pub const SPAN_OUTSIDE_REFERENCE: u32 = 15;
pub const CLIPS_INVALID: u32 = 16;
pub const ENTRY_OFFSET_INVALID: u32 = 17;
pub const BASE_CODE_INVALID: u32 = 18;
pub const PADDING_NONZERO: u32 = 19;
pub const N_POSITIONS_INVALID: u32 = 20;
pub const DNA_TRAILING: u32 = 21;
pub const CAPACITY_TOO_SMALL: u32 = 22;
pub const READ_COUNT_TOO_LARGE: u32 = 30;
pub const CANDIDATE_COUNT_WRONG: u32 = 31;
pub const READ_ENDS_INVALID: u32 = 32;
pub const LETTER_INVALID: u32 = 33;
pub const BLOCK_CAPACITY_TOO_SMALL: u32 = 34;
pub const NAMES_SECTION_INVALID: u32 = 40;
pub const NAMES_INVALID: u32 = 41;

/// A refusal: its number, the index of the block and the index of the read.
#[derive(Clone, Copy, Debug, PartialEq, Eq)]
pub struct Refusal {
    pub number: u32,
    pub block: u64,
    pub read: u64,
}

impl Refusal {
    /// "Read index: the record's; the group's first read for group bytes;
    /// else 0": this is the "else".
    pub fn of_block(number: u32) -> Refusal {
        Refusal { number, block: 0, read: 0 }
    }

    pub fn at_read(number: u32, read: u64) -> Refusal {
        Refusal { number, block: 0, read }
    }

    pub fn in_block(self, block: u64) -> Refusal {
        Refusal { block, ..self }
    }
}

/// What a public call answers. `number` is 0 when it accepts.
///
/// `length` is the byte length of the one block (decode, validate_block,
/// encode); `blocks` is the number of blocks (validate). The five counts,
/// `reads` to `top`, are given by decode, validate_block and validate.
#[derive(Clone, Copy, Debug, Default, PartialEq, Eq)]
pub struct Outcome {
    pub number: u32,
    pub block: u64,
    pub read: u64,
    pub blocks: u64,
    pub length: u64,
    pub reads: u64,
    pub letters: u64,
    pub entries: u64,
    pub differences: u64,
    /// 02, Ticket 4: "reads whose record has exactly 31 entries".
    pub top: u64,
}

impl From<Refusal> for Outcome {
    fn from(refusal: Refusal) -> Outcome {
        Outcome {
            number: refusal.number,
            block: refusal.block,
            read: refusal.read,
            ..Outcome::default()
        }
    }
}
