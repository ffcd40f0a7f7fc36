//! What all cases draw from, made once: long references and the corpus.

use crate::case::{bytes, Bytes, Reading, Room, Writing};
use second::cases_encoding::{encode_cases, encode_large_cases};
use second::cases_reading::{
    decode_cases, decode_large_cases, lengths_cases, sections_cases, validate_block_cases,
    validate_cases,
};
use second::generator::{generate_reference, ReferencePlan};
use second::prng::Prng;
use second::reference::MAX_BASES;
use std::sync::Arc;

pub struct Stock {
    /// Long enough for reads of 100,000 letters and for steps above 65,535.
    pub long: ReferencePlan,
    pub long_bytes: Bytes,
    /// As many bases as there can be: all A but for some bytes at either end and in the middle.
    pub largest: Bytes,
    /// The corpus' cases.
    pub readings: Vec<Reading>,
    pub writings: Vec<Writing>,
}

impl Stock {
    pub fn new() -> Stock {
        let rng = &mut Prng::new(0);
        let long = generate_reference(rng, 230_001);
        let writings = [encode_cases(), encode_large_cases()].concat();
        let readings = [
            decode_cases(),
            decode_large_cases(),
            sections_cases(),
            lengths_cases(),
            validate_block_cases(),
            validate_cases(),
        ]
        .concat();
        let reading = |case: second::corpus::Case| Reading {
            bases: case.call.bases,
            reference: bytes(case.call.reference),
            input: case.input.into(),
            room: Room::Exactly(
                [case.letters_lent, case.ends_lent, case.name_bytes_lent, case.name_ends_lent]
                    .map(|size| size as usize),
            ),
            section: 9,
        };
        Stock {
            long_bytes: bytes(long.bytes.clone()),
            long,
            largest: largest(rng),
            readings: readings.into_iter().map(reading).collect(),
            writings: writings.into_iter().map(|case| Writing::of_call(case.call)).collect(),
        }
    }
}

impl Default for Stock {
    fn default() -> Stock {
        Stock::new()
    }
}

/// Untouched pages of zeros cost no memory.
fn largest(rng: &mut Prng) -> Bytes {
    let mut largest = vec![0; MAX_BASES.div_ceil(4) as usize].into_boxed_slice();
    for from in [0, largest.len() / 2 - 2000, largest.len() - 4000] {
        largest[from..from + 4000].copy_from_slice(&rng.bytes(4000));
    }
    Arc::new(largest)
}
