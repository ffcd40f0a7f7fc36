//! The seven calls, as `include/ora.h` has them, of the library and of the second implementation.

use ora::raw::{self, Answer};
use ora::{Buffers, Columns};
use second::Outcome;

/// A reference, right or wrong.
#[derive(Clone, Copy)]
pub struct Under<'a> {
    pub bases: u64,
    pub reference: &'a [u8],
}

/// The b_id and the c_time of a block to be written.
pub type Stamp = (u64, u64);

/// Something that answers the seven calls.
pub trait Library: Sync {
    fn decode(&self, under: Under, input: &[u8], buffers: Buffers, answer: &mut Answer) -> u64;

    fn validate_block(&self, under: Under, input: &[u8], answer: &mut Answer) -> u64;

    fn validate(&self, under: Under, file: &[u8], answer: &mut Answer) -> u64;

    fn encode(
        &self,
        under: Under,
        columns: &Columns,
        stamp: Stamp,
        out: &mut [u8],
        answer: &mut Answer,
    ) -> u64;

    fn section(&self, input: &[u8], number: u64, answer: &mut Answer) -> u64;

    fn block_length(&self, input: &[u8]) -> u64;

    fn block_id(&self, input: &[u8]) -> u64;
}

/// The library that is linked.
pub struct Linked;

impl Library for Linked {
    fn decode(&self, under: Under, input: &[u8], buffers: Buffers, answer: &mut Answer) -> u64 {
        raw::decode(under.bases, under.reference, input, buffers, answer)
    }

    fn validate_block(&self, under: Under, input: &[u8], answer: &mut Answer) -> u64 {
        raw::validate_block(under.bases, under.reference, input, answer)
    }

    fn validate(&self, under: Under, file: &[u8], answer: &mut Answer) -> u64 {
        raw::validate(under.bases, under.reference, file, answer)
    }

    fn encode(
        &self,
        under: Under,
        columns: &Columns,
        (b_id, c_time): Stamp,
        out: &mut [u8],
        answer: &mut Answer,
    ) -> u64 {
        raw::encode(under.bases, under.reference, columns, b_id, c_time, out, answer)
    }

    fn section(&self, input: &[u8], number: u64, answer: &mut Answer) -> u64 {
        raw::section(input, number, answer)
    }

    fn block_length(&self, input: &[u8]) -> u64 {
        raw::block_length(input)
    }

    fn block_id(&self, input: &[u8]) -> u64 {
        raw::block_id(input)
    }
}

/// The second implementation, its outcomes put into slots.
pub struct Second;

impl Library for Second {
    fn decode(&self, under: Under, input: &[u8], buffers: Buffers, answer: &mut Answer) -> u64 {
        let Buffers { letters, ends, names, name_ends } = buffers;
        let Under { bases, reference } = under;
        let outcome = second::decode(bases, reference, input, letters, ends, names, name_ends);
        fill(answer, outcome, outcome.length)
    }

    fn validate_block(&self, under: Under, input: &[u8], answer: &mut Answer) -> u64 {
        let outcome = second::validate_block(under.bases, under.reference, input);
        fill(answer, outcome, outcome.length)
    }

    fn validate(&self, under: Under, file: &[u8], answer: &mut Answer) -> u64 {
        let outcome = second::validate(under.bases, under.reference, file);
        fill(answer, outcome, outcome.blocks)
    }

    fn encode(
        &self,
        under: Under,
        columns: &Columns,
        (b_id, c_time): Stamp,
        out: &mut [u8],
        answer: &mut Answer,
    ) -> u64 {
        let outcome = second::encode(
            under.bases,
            under.reference,
            columns.letters,
            columns.ends,
            columns.names,
            columns.name_ends,
            columns.positions,
            columns.strands,
            columns.lefts,
            columns.rights,
            b_id,
            c_time,
            out,
        );
        fill(answer, outcome, outcome.length)
    }

    fn section(&self, input: &[u8], number: u64, answer: &mut Answer) -> u64 {
        let (offset, length) = second::section_span(input, number);
        *answer = [0; raw::SLOTS];
        answer[3..5].copy_from_slice(&[offset, length]);
        0
    }

    fn block_length(&self, input: &[u8]) -> u64 {
        second::block_length(input)
    }

    fn block_id(&self, input: &[u8]) -> u64 {
        second::block_id(input)
    }
}

/// Slot 3 is the block's length or the number of blocks.
fn fill(answer: &mut Answer, outcome: Outcome, third: u64) -> u64 {
    let Outcome { number, block, read, reads, letters, entries, differences, top, .. } = outcome;
    *answer = [0; raw::SLOTS];
    let slots = [number as u64, block, read, third, reads, letters, entries, differences, top];
    answer[..9].copy_from_slice(&slots);
    number as u64
}
