//! Names: sections of many styles and codings, their faults, and sections drawn without regard to
//! what they should be.

use super::{of_plan, reading};
use crate::case::{bytes, Work};
use crate::stock::Stock;
use second::cases_by_hand::Hand;
use second::generator::{generate, Plan, Shape};
use second::mutators::spoil;
use second::name_plans::{digits, others, ColumnPlan, NamesPlan};
use second::names::MAX_NUMBER;
use second::prng::Prng;
use second::NAMES_SECTION_INVALID;

/// Few short reads, so that names are most of the block.
fn named_plan(rng: &mut Prng) -> Plan {
    let shape = Shape {
        bases: 12,
        max_reads: rng.pick(&[1, 2, 3, 9, 20]),
        max_length: 4,
        max_carried: rng.pick(&[0, 0, 3]),
        max_name: rng.pick(&[1, 8, 40, 40, 60, 254, 255]),
    };
    generate(rng, shape)
}

pub fn sound(rng: &mut Prng, _: &Stock) -> Work {
    let plan = named_plan(rng);
    of_plan(rng, &plan)
}

/// Each fault of a names section as often, in the first plan that has a place for one.
pub fn one_fault(rng: &mut Prng, _: &Stock) -> Work {
    let mut plan = named_plan(rng);
    while spoil(&mut plan, NAMES_SECTION_INVALID, rng).is_none() {
        plan = named_plan(rng);
    }
    of_plan(rng, &plan)
}

/// Reads of one letter with this names section.
fn of_section(rng: &mut Prng, reads: usize, section: Vec<u8>) -> Work {
    let mut dna = Vec::new();
    for first in (0..reads).step_by(8) {
        dna.extend([0; 4]);
        (first..reads.min(first + 8)).for_each(|_| dna.extend([0b010, 0]));
    }
    let mut hand = Hand::same(1, reads as i32, &dna);
    hand.flags |= 8;
    hand.names = section;
    reading(rng, 0, bytes(Vec::new()), hand.bytes())
}

/// A column or a few whose types and sets are drawn without regard to each other; mostly they have
/// a token for each read.
pub fn wild(rng: &mut Prng, _: &Stock) -> Work {
    let reads = rng.pick(&[1, 1, 2, 2, 3, 5]);
    let mut names = NamesPlan::default();
    let first = rng.below(2);
    for place in 0..rng.pick(&[1, 1, 2, 3, 4]) {
        let as_digits = (first + place) % 2 == 1;
        names.columns.push(wild_column(rng, reads, as_digits));
    }
    names.recount();
    if rng.once_in(12) {
        let place = rng.below(names.columns.len() as u64) as usize;
        let size = &mut names.columns[place].size;
        *size = rng.pick(&[size.saturating_sub(1), *size + 1, *size + (1 << 32), !*size]);
    }
    of_section(rng, reads, names.section())
}

fn wild_column(rng: &mut Prng, reads: usize, as_digits: bool) -> ColumnPlan {
    // Now and then of the nature of its neighbours.
    let as_digits = as_digits != rng.once_in(15);
    let mut column = match as_digits && !rng.once_in(4) {
        true => numbers(rng, reads),
        false => strings(rng, reads, as_digits),
    };
    if rng.once_in(20) {
        column.kind = rng.pick(&[0, 1, 2, 3, 4, 5, 6, 255]);
    }
    column
}

/// Numbers whose last is the largest that there can be, one more, or any.
fn numbers(rng: &mut Prng, reads: usize) -> ColumnPlan {
    let width = rng.pick(&[1, 1, 2, 4]);
    let most = u64::MAX >> (64 - 8 * width);
    let steps: Vec<u64> = (1..reads).map(|_| rng.pick(&[0, 1, 1, 255, most]).min(most)).collect();
    let reach = MAX_NUMBER - steps.iter().sum::<u64>();
    let bits = rng.range(1, 60);
    let any = rng.below(1 << bits);
    let start = match rng.below(20) {
        0 => rng.pick(&[u64::MAX, 1 << 63, i64::MAX as u64, MAX_NUMBER + 1]),
        1 | 2 => reach + 1,
        3..=6 => reach,
        7..=9 => rng.below(12),
        _ => any,
    };
    let mut column = ColumnPlan::numbers(Vec::new(), start, &steps, width);
    // A byte more or fewer than the steps take.
    if rng.once_in(15) {
        let length = column.set.len();
        column.set.resize(rng.pick(&[length + 1, length - 1, 8, 7]), 0);
        column.size = column.set.len() as u64;
    }
    column
}

/// Tokens of one nature, but for some: of the other, of both, empty, with a byte that is not
/// printable; seldom one too many or too few.
fn strings(rng: &mut Prng, reads: usize, as_digits: bool) -> ColumnPlan {
    let count = if rng.once_in(15) { rng.below(reads as u64 + 2) as usize } else { reads };
    let longest = rng.pick(&[1, 3, 3, 18, 19, 90, 255]);
    let token = |rng: &mut Prng| {
        let length = rng.range(1, longest);
        let of = |as_digits: bool| if as_digits { digits } else { others };
        let mut token = of(as_digits)(rng, length);
        match rng.below(60) {
            0 => token.clear(),
            1 => token = of(!as_digits)(rng, length),
            2 => token.extend(of(!as_digits)(rng, 1)),
            3 => token[0] = rng.pick(&[1, 31, 32, 126, 127, 128, 255]),
            _ => {}
        }
        token
    };
    ColumnPlan::strings((0..count).map(|_| token(rng)).collect())
}

/// Names around 255 bytes, and with as many tokens, most of them of one byte.
pub fn long(rng: &mut Prng, _: &Stock) -> Work {
    let reads = rng.pick(&[1, 1, 2, 3]);
    let count = rng.pick(&[1, 2, 3, 100, 253, 254, 254, 255, 255, 255, 256, 257]);
    let bytes = rng.pick(&[count, 254, 255, 255, 256]).max(count);
    let grown = rng.below(count);
    let first = rng.below(2);
    let mut names = NamesPlan::default();
    for place in 0..count {
        let length = if place == grown { 1 + bytes - count } else { 1 };
        let of = if (first + place) % 2 == 1 { digits } else { others };
        let tokens = (0..reads).map(|_| of(rng, length)).collect();
        names.columns.push(ColumnPlan::strings(tokens));
    }
    names.recount();
    of_section(rng, reads, names.section())
}
