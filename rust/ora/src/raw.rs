//! The C interface (`include/ora.h`) as it is: every call fills the sixteen slots of an answer and
//! gives back slot 0, which is 0 where it accepts and the number of a refusal otherwise. The rest
//! of this crate puts the slots into types; use this module for the slots themselves.
//!
//! Every call is safe for any bytes and any lengths. What lies past a result, and after a refusal
//! all of a lent buffer, keeps what it held. This is the only module with unsafe code.
#![allow(unsafe_code)]

use crate::encode::Columns;
use crate::read::Buffers;

/// The number of slots of an answer.
pub const SLOTS: usize = 16;

/// What a call answers, slot by slot; `include/ora.h` says what stands in which.
pub type Answer = [u64; SLOTS];

mod c {
    extern "C" {
        pub fn ora_decode(
            bases: u64,
            reference: *const u8,
            reference_len: usize,
            input: *const u8,
            input_len: usize,
            letters: *mut u8,
            letters_len: usize,
            ends: *mut u32,
            ends_len: usize,
            names: *mut u8,
            names_len: usize,
            name_ends: *mut u32,
            name_ends_len: usize,
            answer: *mut u64,
        ) -> u64;

        pub fn ora_validate_block(
            bases: u64,
            reference: *const u8,
            reference_len: usize,
            input: *const u8,
            input_len: usize,
            answer: *mut u64,
        ) -> u64;

        pub fn ora_validate(
            bases: u64,
            reference: *const u8,
            reference_len: usize,
            file: *const u8,
            file_len: usize,
            answer: *mut u64,
        ) -> u64;

        pub fn ora_encode(
            bases: u64,
            reference: *const u8,
            reference_len: usize,
            letters: *const u8,
            letters_len: usize,
            ends: *const u32,
            ends_len: usize,
            names: *const u8,
            names_len: usize,
            name_ends: *const u32,
            name_ends_len: usize,
            positions: *const u32,
            positions_len: usize,
            strands: *const u8,
            strands_len: usize,
            lefts: *const u8,
            lefts_len: usize,
            rights: *const u8,
            rights_len: usize,
            b_id: u64,
            c_time: u64,
            out: *mut u8,
            out_len: usize,
            answer: *mut u64,
        ) -> u64;

        pub fn ora_section(
            input: *const u8,
            input_len: usize,
            number: u64,
            answer: *mut u64,
        ) -> u64;

        pub fn ora_block_length(input: *const u8, input_len: usize) -> u64;

        pub fn ora_block_id(input: *const u8, input_len: usize) -> u64;
    }
}

// The calls below are safe for one reason. `include/ora.h` asks of a caller that each pointer is not
// null, is aligned, and has as many elements behind it as its length says, and that a buffer which
// is written to overlaps no other: references to slices say all of that, also of empty ones. An
// answer has the sixteen elements that are written. No pointer is kept after the call.

/// `ora_decode`: the letters, ends, names and name ends of the block at the start of the input.
pub fn decode(
    bases: u64,
    reference: &[u8],
    input: &[u8],
    buffers: Buffers,
    answer: &mut Answer,
) -> u64 {
    let Buffers { letters, ends, names, name_ends } = buffers;
    // SAFETY: pointers and lengths are those of slices, and the four buffers and `answer` are
    // borrowed for this call alone.
    unsafe {
        c::ora_decode(
            bases,
            reference.as_ptr(),
            reference.len(),
            input.as_ptr(),
            input.len(),
            letters.as_mut_ptr(),
            letters.len(),
            ends.as_mut_ptr(),
            ends.len(),
            names.as_mut_ptr(),
            names.len(),
            name_ends.as_mut_ptr(),
            name_ends.len(),
            answer.as_mut_ptr(),
        )
    }
}

/// `ora_validate_block`: judges the block at the start of the input.
pub fn validate_block(bases: u64, reference: &[u8], input: &[u8], answer: &mut Answer) -> u64 {
    // SAFETY: pointers and lengths are those of slices, and `answer` is borrowed for this call
    // alone.
    unsafe {
        c::ora_validate_block(
            bases,
            reference.as_ptr(),
            reference.len(),
            input.as_ptr(),
            input.len(),
            answer.as_mut_ptr(),
        )
    }
}

/// `ora_validate`: judges a file, block after block.
pub fn validate(bases: u64, reference: &[u8], file: &[u8], answer: &mut Answer) -> u64 {
    // SAFETY: pointers and lengths are those of slices, and `answer` is borrowed for this call
    // alone.
    unsafe {
        c::ora_validate(
            bases,
            reference.as_ptr(),
            reference.len(),
            file.as_ptr(),
            file.len(),
            answer.as_mut_ptr(),
        )
    }
}

/// `ora_encode`: writes the block of these reads to the start of `out`.
pub fn encode(
    bases: u64,
    reference: &[u8],
    columns: &Columns,
    b_id: u64,
    c_time: u64,
    out: &mut [u8],
    answer: &mut Answer,
) -> u64 {
    let Columns { letters, ends, names, name_ends, positions, strands, lefts, rights } = *columns;
    // SAFETY: pointers and lengths are those of slices, and `out` and `answer` are borrowed for
    // this call alone.
    unsafe {
        c::ora_encode(
            bases,
            reference.as_ptr(),
            reference.len(),
            letters.as_ptr(),
            letters.len(),
            ends.as_ptr(),
            ends.len(),
            names.as_ptr(),
            names.len(),
            name_ends.as_ptr(),
            name_ends.len(),
            positions.as_ptr(),
            positions.len(),
            strands.as_ptr(),
            strands.len(),
            lefts.as_ptr(),
            lefts.len(),
            rights.as_ptr(),
            rights.len(),
            b_id,
            c_time,
            out.as_mut_ptr(),
            out.len(),
            answer.as_mut_ptr(),
        )
    }
}

/// `ora_section`: where a section of the block at the start of the input stands.
pub fn section(input: &[u8], number: u64, answer: &mut Answer) -> u64 {
    // SAFETY: pointer and length are those of a slice, and `answer` is borrowed for this call
    // alone.
    unsafe { c::ora_section(input.as_ptr(), input.len(), number, answer.as_mut_ptr()) }
}

/// `ora_block_length`: the length of the block at the start of the input by its header, or 0.
pub fn block_length(input: &[u8]) -> u64 {
    // SAFETY: pointer and length are those of a slice.
    unsafe { c::ora_block_length(input.as_ptr(), input.len()) }
}

/// `ora_block_id`: the b_id of the block at the start of the input, or 0.
pub fn block_id(input: &[u8]) -> u64 {
    // SAFETY: pointer and length are those of a slice.
    unsafe { c::ora_block_id(input.as_ptr(), input.len()) }
}
