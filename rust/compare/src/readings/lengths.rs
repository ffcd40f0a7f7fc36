//! Lengths at their edges, long reads and many reads.

use super::{of_plan, reading};
use crate::case::{bytes, Work};
use crate::stock::Stock;
use second::cases_by_hand::Hand;
use second::generator::{generate_reference, generate_with_lengths, Shape};
use second::mutators::{spoil, BLOCK_NUMBERS};
use second::prng::Prng;

/// Words around 32768, and around what makes 100,000 with three of them.
const SIZE_WORDS: [u32; 9] = [0, 1, 32_767, 32_768, 32_769, 65_535, 1_695, 1_696, 1_697];

/// Lengths in words around 32768 and the most that a read can have, and no DNA section.
pub fn size_words(rng: &mut Prng, _: &Stock) -> Work {
    let reads = rng.range(1, 3);
    let mut sizes = vec![0, 0];
    let mut sum = 0;
    for _ in 0..reads {
        let mut words: Vec<u32> = Vec::new();
        for _ in 0..rng.below(4) {
            words.push(rng.pick(&[32_768, 32_768, 32_768, 32_769]));
        }
        words.push(rng.pick(&SIZE_WORDS));
        sizes.extend(words.iter().flat_map(|&word| (word as u16).to_le_bytes()));
        sum += words.iter().sum::<u32>();
    }
    let mut hand = Hand::sized(reads as i32, sum, &sizes);
    hand.n = vec![0];
    reading(rng, 0, bytes(Vec::new()), hand.bytes())
}

/// Equal lengths whose sum passes 32 bits, with a raw DNA size that is its low 32 bits or near.
pub fn sum_of_lengths(rng: &mut Prng, _: &Stock) -> Work {
    let reads = rng.pick(&[42_949, 42_950, 49_999, 50_000]);
    let length = rng.pick(&[99_999, 100_000, 100_000]);
    let sum = reads as u64 * length as u64;
    let mut hand = Hand::same(0, reads, &[]);
    hand.l_read = length;
    hand.raw_dna = (sum as u32).wrapping_add(rng.pick(&[0, 0, 1, u32::MAX]));
    if rng.coin() {
        hand.n.pop();
    }
    reading(rng, 0, bytes(Vec::new()), hand.bytes())
}

/// One to three reads of up to 100,000 letters with short ones between them, sound or with a fault.
pub fn long_reads(rng: &mut Prng, stock: &Stock) -> Work {
    let marks = [32_767, 32_768, 32_769, 40_000, 65_535, 65_536, 65_537, 98_304, 99_999, 100_000];
    let mut lengths = Vec::new();
    for _ in 0..rng.pick(&[1, 1, 1, 2, 3]) {
        lengths.push(rng.pick(&marks));
        lengths.extend(vec![rng.range(1, 40); rng.below(3) as usize]);
    }
    let max_carried = rng.pick(&[0, 2, 70_000]);
    let shape = Shape { bases: 0, max_reads: 0, max_length: 0, max_carried, max_name: 255 };
    let mut plan = generate_with_lengths(rng, shape, &stock.long, lengths);
    if rng.once_in(3) {
        let number = rng.pick(&[9, 10, 12, 12, 15, 17, 19, 20, 20, 20, 21, 40]);
        spoil(&mut plan, number, rng);
    }
    let input = plan.block();
    reading(rng, stock.long.bases, stock.long_bytes.clone(), input)
}

/// Up to 50,000 reads, sound or with a fault.
pub fn many_reads(rng: &mut Prng, _: &Stock) -> Work {
    let reads = rng.pick(&[150, 200, 300, 300, 300, 1_000, 1_000, 2_000, 3_001, 8_000, 50_000]);
    let reference = generate_reference(rng, 100);
    let equal = rng.coin().then(|| rng.range(1, 9));
    let lengths = (0..reads).map(|_| equal.unwrap_or_else(|| rng.range(1, 9))).collect();
    let max_name = rng.pick(&[8, 16, 40]);
    let shape = Shape { bases: 0, max_reads: 0, max_length: 0, max_carried: 2, max_name };
    let mut plan = generate_with_lengths(rng, shape, &reference, lengths);
    if rng.coin() {
        let number = rng.pick(&BLOCK_NUMBERS[8..]);
        spoil(&mut plan, number, rng);
    }
    of_plan(rng, &plan)
}
