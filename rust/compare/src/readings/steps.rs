//! Positions and steps on long references.

use super::reading;
use crate::case::Work;
use crate::stock::Stock;
use second::cases_by_hand::Hand;
use second::letters::packed_bytes;
use second::prng::Prng;
use second::reference::MAX_BASES;

/// Perfect, reverse local and raw reads of one length at these positions, where 2 bytes are taken
/// for some of the steps that they can hold; a raw read has no position.
fn placed_block(rng: &mut Prng, length: u64, positions: &[Option<u64>]) -> Vec<u8> {
    let mut dna = Vec::new();
    let mut previous = 0;
    for chunk in positions.chunks(8) {
        let (mut group, mut records) = ([0u8; 4], Vec::new());
        for (index, position) in chunk.iter().enumerate() {
            let bit = 0x80 >> index;
            let Some(position) = *position else {
                records.push(0b010);
                records.extend(vec![0; packed_bytes(length, 2) as usize]);
                continue;
            };
            let is_local = length > 1 && rng.once_in(3);
            if is_local {
                records.push(0);
            } else {
                group[0] |= bit;
                group[1] |= rng.pick(&[0, bit]);
            }
            let step = position.checked_sub(previous).and_then(|step| u16::try_from(step).ok());
            match step {
                Some(step) if !rng.once_in(3) || position > u32::MAX as u64 => {
                    group[3] |= bit;
                    records.extend(step.to_le_bytes());
                }
                _ => records.extend((position as u32).to_le_bytes()),
            }
            if is_local {
                records.extend(clips(rng, length, position));
            }
            previous = position;
        }
        dna.extend(group);
        dna.extend(records);
    }
    Hand::same(length as i32, positions.len() as i32, &dna).bytes()
}

/// The clips of a reverse local read with their letters, all A. Its stretch runs down from the
/// position, and mostly not below 0.
fn clips(rng: &mut Prng, length: u64, position: u64) -> Vec<u8> {
    let inside = if rng.once_in(10) { length } else { position + 1 };
    let clipped = length - rng.range(1, inside.min(length - 1));
    let left = rng.range(0, clipped);
    let letters = vec![0; packed_bytes(clipped, 2) as usize];
    [&[left as u8, (clipped - left) as u8], &letters[..]].concat()
}

/// Steps of 0, 65,535, 65,536 and back, from a first position around 65,535, over raw reads and
/// groups.
pub fn steps(rng: &mut Prng, stock: &Stock) -> Work {
    let length = rng.pick(&[1, 3, 4, 9]);
    let any = rng.below(stock.long.bases);
    let first = rng.pick(&[0, 65_534, 65_535, 65_535, 65_536, 65_536, any]);
    let positions = stepped(rng, first, stock.long.bases - length);
    let input = placed_block(rng, length, &positions);
    reading(rng, stock.long.bases, stock.long_bytes.clone(), input)
}

/// The same near the last base that a reference can have, and past 32 bits; seldom with a base more
/// than it can have, in as many bytes.
pub fn steps_on_the_largest(rng: &mut Prng, stock: &Stock) -> Work {
    let length = rng.pick(&[1, 3, 4, 9]);
    let last = MAX_BASES - length;
    let near = last - rng.below(4);
    let middle = (1 << 31) - rng.below(8);
    let first = rng.pick(&[near, last, MAX_BASES - 1, last - 65_535, last - 65_536, middle, 0]);
    let furthest = rng.pick(&[last, last + 70_000]);
    let positions = stepped(rng, first, furthest);
    let input = placed_block(rng, length, &positions);
    let bases = MAX_BASES + rng.once_in(20) as u64;
    reading(rng, bases, stock.largest.clone(), input)
}

/// Positions that are mostly not past `last`.
fn stepped(rng: &mut Prng, first: u64, last: u64) -> Vec<Option<u64>> {
    let mut at = first;
    let mut positions = Vec::new();
    for index in 0..rng.pick(&[1, 2, 4, 9, 18]) {
        if index > 0 {
            let any = rng.below(70_000);
            let on = at + rng.pick(&[0, 1, 65_534, 65_535, 65_535, 65_536, 65_536, any]);
            at = if on > last && !rng.once_in(20) { at.saturating_sub(any) } else { on };
        }
        for _ in 0..rng.pick(&[0, 0, 0, 1, 8]) {
            positions.push(None);
        }
        positions.push(Some(at));
    }
    positions
}
