//! Property: a file joined from blocks is judged block by block. Catches: a
//! block index counted from 1, a cut taken for an end, counts not summed,
//! a read index counted over the file, the empty file refused.

use second::generator::*;
use second::mutators::{spoil, BLOCK_NUMBERS};
use second::prng::Prng;
use second::*;

const SHAPE: Shape =
    Shape { bases: 100, max_reads: 10, max_length: 40, max_carried: 4, max_name: 40 };

fn joined(blocks: &[Plan]) -> Vec<u8> {
    blocks.iter().flat_map(|plan| plan.block()).collect()
}

fn draw(rng: &mut Prng, reference: &ReferencePlan) -> Vec<Plan> {
    let count = rng.below(5);
    (0..count).map(|_| generate_under(rng, SHAPE, reference)).collect()
}

fn sums(plans: &[Plan]) -> Outcome {
    let sum =
        |count: &dyn Fn(&Expected) -> u64| plans.iter().map(|plan| count(&plan.expected)).sum();
    Outcome {
        blocks: plans.len() as u64,
        reads: sum(&|expected| expected.ends.len() as u64),
        letters: sum(&|expected| expected.letters.len() as u64),
        entries: sum(&|expected| expected.entries),
        differences: sum(&|expected| expected.differences),
        top: sum(&|expected| expected.top),
        ..Outcome::default()
    }
}

#[test]
fn joined_blocks_are_accepted_with_their_sums() {
    let mut rng = Prng::new(41);
    for _ in 0..500 {
        let reference = generate_reference(&mut rng, SHAPE.bases);
        let plans = draw(&mut rng, &reference);
        let outcome = validate(reference.bases, &reference.bytes, &joined(&plans));
        assert_eq!(outcome, sums(&plans));
    }
}

#[test]
fn the_first_faulty_block_is_told() {
    let mut rng = Prng::new(42);
    for _ in 0..1000 {
        let reference = generate_reference(&mut rng, SHAPE.bases);
        let mut plans = draw(&mut rng, &reference);
        if plans.is_empty() {
            continue;
        }
        let index = rng.below(plans.len() as u64) as usize;
        // A block cut short would be filled from the next one.
        let number = rng.pick(&BLOCK_NUMBERS);
        if [1, 2, 8].contains(&number) {
            continue;
        }
        let Some(fault) = spoil(&mut plans[index], number, &mut rng) else { continue };
        let outcome = validate(reference.bases, &reference.bytes, &joined(&plans));
        let block = index as u64;
        let expected = Outcome { number, block, read: fault.read, ..Outcome::default() };
        assert_eq!(outcome, expected);
    }
}

#[test]
fn prefixes() {
    let mut rng = Prng::new(43);
    for _ in 0..40 {
        let reference = generate_reference(&mut rng, SHAPE.bases);
        let plans = draw(&mut rng, &reference);
        let file = joined(&plans);
        let mut starts = vec![0];
        for plan in &plans {
            starts.push(starts.last().unwrap() + plan.block().len());
        }
        for cut in 0..=file.len() {
            let outcome = validate(reference.bases, &reference.bytes, &file[..cut]);
            let whole = starts.iter().filter(|&&start| start <= cut).count() - 1;
            if starts[whole] == cut {
                assert_eq!(outcome, sums(&plans[..whole]));
            } else {
                let number = if cut - starts[whole] < 121 { 2 } else { 8 };
                assert_eq!(outcome, Outcome { number, block: whole as u64, ..Outcome::default() });
            }
        }
    }
}

#[test]
fn the_empty_file() {
    assert_eq!(validate(0, &[], &[]), Outcome::default());
    assert_eq!(validate(5, &[0, 0], &[]), Outcome::default());
    let refused = Outcome { number: 1, ..Outcome::default() };
    assert_eq!(validate(5, &[0], &[]), refused);
    assert_eq!(validate(4_294_967_296, &[], &[]), refused);
}

/// The same block decodes alike whatever follows it.
#[test]
fn what_follows_a_block_is_not_part_of_it() {
    let mut rng = Prng::new(44);
    for _ in 0..300 {
        let plan = generate(&mut rng, SHAPE);
        let block = plan.block();
        let longer = [block.clone(), rng.bytes(9)].concat();
        let reference = &plan.reference;
        let alone = validate_block(reference.bases, &reference.bytes, &block);
        assert_eq!(alone.number, 0);
        assert_eq!(alone, validate_block(reference.bases, &reference.bytes, &longer));
    }
}
