//! Reads whose places take 31 entries, or about as many.

use super::{cut_read, lend, of_long, other_letter};
use crate::case::Work;
use crate::stock::Stock;
use second::prng::Prng;
use second::proposals::{EncodeCall, Proposal};
use second::reference::Reference;

/// Reads whose places take 30 to 33 entries, or 40.
pub fn saturated(rng: &mut Prng, stock: &Stock) -> Work {
    let reference = Reference::new(stock.long.bases, &stock.long_bytes).unwrap();
    let count = rng.pick(&[1, 1, 2, 3, 9]);
    let proposals: Vec<Proposal> =
        (0..count).map(|_| saturated_read(rng, stock, &reference)).collect();
    let mut call = EncodeCall::new(&stock.long, &proposals, rng.next_u64(), rng.next_u64());
    lend(rng, &mut call);
    of_long(stock, call)
}

/// Up to 30 letters are N, none of them one that differs.
fn saturated_read(rng: &mut Prng, stock: &Stock, reference: &Reference) -> Proposal {
    let count = rng.pick(&[30, 31, 31, 31, 32, 32, 33, 40]);
    let Places { differing, fillers } = Places::drawn(rng, count);
    let span = differing.last().unwrap() + 1 + rng.pick(&[0, 0, 1, 70]);
    let clips = rng.pick(&[(0, 0), (0, 0), (1, 0), (2, 3)]);
    let position = rng.below(stock.long.bases - span);
    let mut read = cut_read(rng, reference, position, span, clips);
    let aligned = &mut read.letters[clips.0 as usize..][..span as usize];
    for &place in &differing {
        aligned[place as usize] = other_letter(rng, aligned[place as usize]);
    }
    let mut ambiguous: Vec<u64> =
        (0..rng.pick(&[0, 0, 1, 2, 29])).map(|_| rng.below(span)).collect();
    if !fillers.is_empty() && rng.coin() {
        ambiguous.push(rng.pick(&fillers));
    }
    for place in ambiguous.into_iter().filter(|place| !differing.contains(place)) {
        aligned[place as usize] = b'N';
    }
    read
}

/// Places of letters that differ, and of the fillers before them.
struct Places {
    differing: Vec<u64>,
    fillers: Vec<u64>,
}

impl Places {
    /// So many in all: no fillers, few, or as many as can be.
    fn drawn(rng: &mut Prng, count: usize) -> Places {
        let mut places = Places { differing: Vec::new(), fillers: Vec::new() };
        let most = rng.pick(&[0, 0, 1, 5, count - 1]);
        let mut before = 0;
        loop {
            let left = count - places.differing.len() - places.fillers.len();
            if left == 0 {
                return places;
            }
            let unspent = (most - places.fillers.len()).min(left - 1) as u64;
            let any = rng.range(0, unspent);
            let fillers = rng.pick(&[0, any, unspent]);
            places.fillers.extend((1..=fillers).map(|filler| before + 63 * filler));
            // The first letter alone can stand at 0.
            let least = if places.differing.is_empty() && fillers == 0 { 0 } else { 1 };
            before += 63 * fillers + rng.pick(&[least, 1, 1, 2, 63]);
            places.differing.push(before);
        }
    }
}
