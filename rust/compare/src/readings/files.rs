//! Files of several blocks.

use super::{reading, small_shape};
use crate::case::{bytes, Work};
use crate::stock::Stock;
use second::generator::{
    generate_reference, generate_saturated, generate_under, Plan, ReferencePlan, Shape,
};
use second::mutators::{damage, spoil, BLOCK_NUMBERS};
use second::prng::Prng;

fn drawn_file(rng: &mut Prng) -> (ReferencePlan, Vec<Plan>) {
    let max_length = rng.pick(&[4, 24, 40]);
    let shape = Shape { max_reads: 9, max_length, max_name: 30, ..small_shape(rng) };
    let reference = generate_reference(rng, shape.bases);
    let count = rng.pick(&[0, 0, 1, 1, 2, 2, 2, 2, 3, 3, 4, 4, 30]);
    let plans = (0..count).map(|_| generate_under(rng, shape, &reference)).collect();
    (reference, plans)
}

fn joined(plans: &[Plan]) -> Vec<u8> {
    plans.iter().flat_map(|plan| plan.block()).collect()
}

pub fn sound_file(rng: &mut Prng, _: &Stock) -> Work {
    let (reference, plans) = drawn_file(rng);
    reading(rng, reference.bases, bytes(reference.bytes), joined(&plans))
}

/// Blocks in which most global and local records have 30 or 31 entries; now and then the last has a
/// fault.
pub fn saturated_file(rng: &mut Prng, _: &Stock) -> Work {
    let max_length = rng.pick(&[31, 40, 70]);
    let shape = Shape { bases: 130, max_reads: 4, max_length, max_carried: 2, max_name: 12 };
    let reference = generate_reference(rng, shape.bases);
    let mut plans: Vec<Plan> = (0..rng.pick(&[1, 2, 2, 3, 4]))
        .map(|_| generate_saturated(rng, shape, &reference))
        .collect();
    if let (Some(last), true) = (plans.last_mut(), rng.once_in(3)) {
        let number = rng.pick(&BLOCK_NUMBERS[1..]);
        spoil(last, number, rng);
    }
    reading(rng, reference.bases, bytes(reference.bytes), joined(&plans))
}

/// One fault in any block; a cut leaves the blocks after it where they are.
pub fn file_with_fault(rng: &mut Prng, _: &Stock) -> Work {
    loop {
        let (mut reference, mut plans) = drawn_file(rng);
        if plans.is_empty() {
            continue;
        }
        let which = rng.below(plans.len() as u64) as usize;
        let number = rng.pick(&BLOCK_NUMBERS);
        if spoil(&mut plans[which], number, rng).is_none() {
            continue;
        }
        if number == 1 {
            reference = plans[which].reference.clone();
        }
        return reading(rng, reference.bases, bytes(reference.bytes), joined(&plans));
    }
}

pub fn damaged_file(rng: &mut Prng, _: &Stock) -> Work {
    let (reference, plans) = drawn_file(rng);
    let mut file = joined(&plans);
    if rng.once_in(3) {
        let count = rng.pick(&[1, 2, 121, 140]);
        file.extend(rng.bytes(count));
    } else {
        damage(&mut file, rng);
    }
    reading(rng, reference.bases, bytes(reference.bytes), file)
}

/// A file that is cut anywhere, or where one of its blocks ends, or a byte off.
pub fn cut_file(rng: &mut Prng, _: &Stock) -> Work {
    let (reference, plans) = drawn_file(rng);
    let mut file = joined(&plans);
    let any = rng.range(0, file.len() as u64) as usize;
    let end = joined(&plans[..plans.len() / 2]).len();
    file.truncate(rng.pick(&[any, any, end, end.saturating_sub(1), end + 1]));
    reading(rng, reference.bases, bytes(reference.bytes), file)
}
