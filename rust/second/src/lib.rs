//! A second program for opened ORA blocks, written from 000 (ORA 2.5.5), 01
//! (the scope paper) and 02 (its change requests) alone. It is slow and plain
//! and keeps 01's order, so that it tests the documents. The modules from
//! `refusal` to `listing` are the codec; those from `prng` on make blocks,
//! faults and the corpus.

pub mod refusal;

pub mod reference;

pub mod header;

pub mod lengths;

pub mod letters;

pub mod records;

pub mod names;

pub mod blocks;

pub mod files;

pub mod name_writer;

pub mod encoder;

pub mod listing;

pub mod prng;

pub mod name_plans;

pub mod generator;

pub mod name_faults;

pub mod mutators;

pub mod proposals;

pub mod corpus;

pub mod cases_by_hand;

pub mod cases_dna;

pub mod cases_reverse;

pub mod cases_top;

pub mod cases_blocks;

pub mod cases_reading;

pub mod cases_encoding;

pub mod cases_names;

pub mod corpus_cases;

pub mod listing_cases;

pub use blocks::{decode, validate_block};
pub use encoder::encode;
pub use files::validate;
pub use header::{block_id, block_length, section, section_span};
pub use lengths::lengths;
pub use refusal::*;
