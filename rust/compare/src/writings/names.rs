//! Names for the encoder: columns at the edges of what numbers can hold, and names at the edges of
//! what a name can be.

use super::lend;
use crate::case::{Work, Writing};
use crate::stock::Stock;
use second::generator::ReferencePlan;
use second::name_plans::{digits, others};
use second::prng::Prng;
use second::proposals::{random_call, spoil_call, EncodeCall, Proposal};
use second::NAMES_INVALID;

fn no_bases() -> ReferencePlan {
    ReferencePlan { bases: 0, letters: Vec::new(), bytes: Vec::new() }
}

/// Reads of one letter with these names.
fn of_names(rng: &mut Prng, names: &[Vec<u8>]) -> EncodeCall {
    let read = Proposal { letters: b"A".to_vec(), position: 0, strand: 0, left: 0, right: 0 };
    let proposals = vec![read; names.len()];
    EncodeCall::new(&no_bases(), &proposals, rng.next_u64(), rng.next_u64()).named(names)
}

/// Few short reads with names of any style.
pub fn sound(rng: &mut Prng, _: &Stock) -> Work {
    let max_reads = rng.pick(&[1, 3, 20, 40]);
    let mut call = random_call(rng, &no_bases(), max_reads, 3);
    lend(rng, &mut call);
    Work::Writing(Writing::of_call(call))
}

/// Each fault of names as often, in the first call that has a place for it.
pub fn one_fault(rng: &mut Prng, _: &Stock) -> Work {
    loop {
        let max_reads = rng.pick(&[1, 2, 3, 20]);
        let mut call = random_call(rng, &no_bases(), max_reads, 3);
        lend(rng, &mut call);
        if spoil_call(&mut call, NAMES_INVALID, 0, rng) {
            return Work::Writing(Writing::of_call(call));
        }
    }
}

/// Numbers with a word before them or after them, whose steps are at the edges of each width; now
/// and then one falls, has a leading zero, or is no number.
pub fn steps(rng: &mut Prng, _: &Stock) -> Work {
    let reads = rng.pick(&[1, 2, 2, 3, 3, 8]);
    let columns: Vec<Vec<Vec<u8>>> =
        (0..rng.pick(&[1, 1, 2, 3])).map(|_| number_column(rng, reads)).collect();
    let name = |read: usize| {
        let tokens: Vec<&[u8]> = columns.iter().map(|column| &column[read][..]).collect();
        tokens.join(&b':')
    };
    let names: Vec<Vec<u8>> = (0..reads).map(name).collect();
    let mut call = of_names(rng, &names);
    lend(rng, &mut call);
    Work::Writing(Writing::of_call(call))
}

const LIMIT: u64 = 1_000_000_000_000_000_000;

fn number_column(rng: &mut Prng, reads: usize) -> Vec<Vec<u8>> {
    let widest = rng.pick(&[1, 255, 256, 65_535, 65_536, u32::MAX as u64, 1 << 32]);
    let any = rng.below(LIMIT);
    let mut number = rng.pick(&[0, 1, 9, 99, any, LIMIT - 1 - widest, LIMIT - widest, LIMIT - 1]);
    let odd = rng.below(6 * reads as u64) as usize;
    let mut tokens = Vec::new();
    for read in 0..reads {
        let printed = number.to_string();
        tokens.push(match (read == odd, rng.below(4)) {
            (true, 0) => format!("0{printed}"),
            (true, 1) => number.saturating_sub(rng.range(1, 300)).to_string(),
            (true, 2) => "a".to_string(),
            _ => printed,
        });
        number += rng.pick(&[0, 1, widest, widest, widest - 1]);
    }
    tokens.into_iter().map(String::into_bytes).collect()
}

/// Names of 254 to 256 bytes, or of as many tokens; now and then one has a byte that is not
/// printable, or a token more than the others.
pub fn long(rng: &mut Prng, _: &Stock) -> Work {
    let reads = rng.pick(&[1, 1, 2, 3]);
    let count = rng.pick(&[1, 2, 100, 254, 255, 255, 256]);
    let bytes = rng.pick(&[count, 254, 255, 255, 256]).max(count);
    let (grown, first) = (rng.below(count), rng.below(2));
    let mut names = Vec::new();
    for _ in 0..reads {
        let mut name = Vec::new();
        for place in 0..count {
            let length = if place == grown { 1 + bytes - count } else { 1 };
            let of = if (first + place) % 2 == 1 { digits } else { others };
            name.extend(of(rng, length));
        }
        names.push(name);
    }
    let changed = &mut names[rng.below(reads as u64) as usize];
    match rng.below(8) {
        0 => {
            let place = rng.below(changed.len() as u64) as usize;
            changed[place] = rng.pick(&[0, 31, 32, 126, 127, 255, b'7']);
        }
        1 => {
            changed.pop();
        }
        _ => {}
    }
    let mut call = of_names(rng, &names);
    lend(rng, &mut call);
    Work::Writing(Writing::of_call(call))
}
