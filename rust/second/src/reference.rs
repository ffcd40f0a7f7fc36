//! 01, "The desk's material": the reference. "G bases, G from 0 to
//! 4,294,967,295, in exactly (G+3)/4 bytes rounded down, four bases a byte,
//! first base highest; A, C, G, T are 0, 1, 2, 3. Bits past G are ignored."

use crate::refusal::{Refusal, REFERENCE_SIZE_WRONG};

pub const MAX_BASES: u64 = 4_294_967_295;

#[derive(Clone, Copy, Debug, PartialEq, Eq)]
pub enum Strand {
    Forward,
    Reverse,
}

#[derive(Clone, Copy, Debug)]
pub struct Reference<'a> {
    bases: u64,
    bytes: &'a [u8],
}

impl<'a> Reference<'a> {
    /// Number 1: "reference of the wrong byte count, or G too large".
    pub fn new(bases: u64, bytes: &'a [u8]) -> Result<Reference<'a>, Refusal> {
        if bases > MAX_BASES || bytes.len() as u64 != (bases + 3) / 4 {
            return Err(Refusal::of_block(REFERENCE_SIZE_WRONG));
        }
        Ok(Reference { bases, bytes })
    }

    /// The code, 0 to 3, of one base: "first base highest".
    pub fn base(&self, index: u64) -> u8 {
        assert!(index < self.bases);
        let byte = self.bytes[(index / 4) as usize];
        (byte >> (6 - 2 * (index % 4))) & 3
    }

    /// Whether a stretch lies inside the reference. It is given by its lowest
    /// index here and below, on both strands.
    pub fn holds(&self, lowest: u64, span: u64) -> bool {
        lowest + span <= self.bases
    }

    /// A stretch as the read shows it: "A reverse read takes the stretch
    /// reversed and complemented."
    pub fn stretch(&self, lowest: u64, span: u64, strand: Strand) -> Vec<u8> {
        let forward = (lowest..lowest + span).map(|index| self.base(index));
        match strand {
            Strand::Forward => forward.collect(),
            Strand::Reverse => forward.rev().map(complement).collect(),
        }
    }
}

/// A and T, C and G: codes 0 and 3, 1 and 2.
fn complement(code: u8) -> u8 {
    3 - code
}
