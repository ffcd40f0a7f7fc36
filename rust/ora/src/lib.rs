//! Reads and writes opened ORA blocks: DNA reads kept as places on a reference with lists of
//! differences, and their names. This crate is a safe wrapper around a library whose every function
//! is proved to meet its contract; `docs/FORMAT.md` describes the format and the refusals.
//!
//! | To | Call |
//! |---|---|
//! | decode a block | [`decode`], [`Decoded::decode`] for many, [`decode_into`] own buffers |
//! | judge a block or a file | [`validate_block`], [`validate`] |
//! | write a block | [`encode`], [`encode_into`] an own buffer |
//! | walk over a file's blocks, without a reference | [`blocks`], [`block_length`] |
//! | look into a block, without a reference | [`section`], [`section_span`], [`block_id`] |
//! | tell whether a block has names, or drop them | [`has_names`], [`without_names`] |
//!
//! ```
//! use ora::{decode, encode, Candidate, Reads, Reference};
//!
//! // ACGTACGTTGCA
//! let reference = Reference::new(12, &[0x1B, 0x1B, 0xE4])?;
//!
//! let mut reads = Reads::new();
//! reads.push(b"run7:1:96", b"ACTT", Candidate::forward(0));
//! reads.push(b"run7:1:105", b"CAAC", Candidate::reverse(6));
//! reads.push(b"run7:2:8", b"GATTACA", Candidate::NONE);
//! let block = encode(&reference, &reads, 7, 0)?;
//!
//! let decoded = decode(&reference, &block)?;
//! assert_eq!(decoded.read(1), Some(&b"CAAC"[..]));
//! assert_eq!(decoded.names().and_then(|names| names.get(1)), Some(&b"run7:1:105"[..]));
//! assert_eq!(decoded.summary().counts.letters, 15);
//! # Ok::<(), ora::Refusal>(())
//! ```
//!
//! Any bytes may be handed in: what is no block is refused with a [`Refusal`], and a refused call
//! leaves every buffer as it was. All types can be sent to and shared between threads, and calls on
//! different threads do not wait for each other.
//!
//! The static library is linked from `target/staticlib/libcapi.a`, which `make library`
//! writes.

#![deny(missing_docs)]
#![deny(unsafe_code)]

mod blocks;
mod encode;
mod names;
pub mod raw;
mod read;
mod reference;
mod refusal;

pub use blocks::{block_id, block_length, blocks, section, section_span, Block, Blocks, Section};
pub use encode::{encode, encode_into, Candidate, Columns, Reads, Strand};
pub use names::{has_names, without_names, Names};
pub use read::{
    decode, decode_into, validate, validate_block, BlockSummary, Buffers, Counts, Decoded,
    FileSummary,
};
pub use reference::Reference;
pub use refusal::{Refusal, RefusalKind};

/// The most bases that a reference can have.
pub const MAX_BASES: u64 = 4_294_967_295;

/// The most reads that a block can have.
pub const MAX_READS: usize = 50_000;

/// The most letters that a read can have; it has at least one.
pub const MAX_READ_LENGTH: usize = 100_000;

/// The most bytes that a name can have; it has at least one.
pub const MAX_NAME_LENGTH: usize = 255;
