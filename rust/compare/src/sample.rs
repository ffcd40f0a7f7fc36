//! The files of `examples/data`: a reference and blocks of the second implementation's generator,
//! the same with a fault in its last block, and the block that 01 lists; each with its listing.

use second::cases_by_hand::{Hand, BASES, REFERENCE};
use second::generator::{generate_reference, generate_under, Plan, ReferencePlan, Shape};
use second::listing::listing;
use second::mutators::spoil;
use second::prng::Prng;
use second::ENTRY_OFFSET_INVALID;

const SEED: u64 = 6;
const BLOCKS: usize = 3;

/// A file's name and its bytes.
pub type File = (String, Vec<u8>);

/// All files, made anew; the same each time.
pub fn files() -> Vec<File> {
    let rng = &mut Prng::new(SEED);
    let reference = generate_reference(rng, 90);
    let mut plans = sound_plans(rng, &reference);
    let sound = joined(&plans);
    while spoil(&mut plans[BLOCKS - 1], ENTRY_OFFSET_INVALID, rng).is_none() {}
    let refused = joined(&plans);

    let reference = reference_file(reference.bases, &reference.bytes);
    let paper = reference_file(BASES, &REFERENCE);
    let block = Hand::same(4, 1, &[0, 0x80, 0, 0, 0x0C, 0, 0, 0, 0, 0x0B]).bytes();
    let text = |reference: &[u8], blocks: &[u8]| listing(reference, blocks).into_bytes();
    [
        ("sample.txt", text(&reference, &sound)),
        ("refused.txt", text(&reference, &refused)),
        ("one_read.txt", text(&paper, &block)),
        ("sample.reference", reference),
        ("sample.blocks", sound),
        ("refused.blocks", refused),
        ("one_read.reference", paper),
        ("one_read.blocks", block),
    ]
    .map(|(name, bytes)| (name.to_string(), bytes))
    .to_vec()
}

/// Blocks with short reads, so that the listing can be read.
fn sound_plans(rng: &mut Prng, reference: &ReferencePlan) -> Vec<Plan> {
    let (max_reads, max_length) = (20, 40);
    let shape =
        Shape { bases: reference.bases, max_reads, max_length, max_carried: 6, max_name: 40 };
    let mut plan = || loop {
        let mut plan = generate_under(rng, shape, reference);
        if plan.lengths.len() >= 10 {
            plan.b_id %= 1000;
            return plan;
        }
    };
    (0..BLOCKS).map(|_| plan()).collect()
}

fn joined(plans: &[Plan]) -> Vec<u8> {
    plans.iter().flat_map(|plan| plan.block()).collect()
}

/// The number of bases in 8 bytes, and then the reference.
fn reference_file(bases: u64, bytes: &[u8]) -> Vec<u8> {
    [&bases.to_le_bytes(), bytes].concat()
}
