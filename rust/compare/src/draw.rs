//! Draws the case of a number: first its family, then the case. The same seed and number always
//! give the same case, whatever was drawn before.

use crate::case::{Case, Work};
use crate::readings::{files, lengths, names, records, steps};
use crate::stock::Stock;
use crate::{readings, writings};
use second::prng::Prng;

/// A family's share of the cases, its name, and how a case of it is drawn.
type Family = (u64, &'static str, fn(&mut Prng, &Stock) -> Work);

const FAMILIES: &[Family] = &[
    (900, "sound block", readings::sound),
    (150, "saturated records", readings::saturated),
    (2600, "one fault", readings::one_fault),
    (700, "two faults", readings::two_faults),
    (400, "too little room", readings::little_room),
    (1400, "damaged block", readings::damaged),
    (400, "edited sections", readings::edited_sections),
    (300, "cut block", readings::cut),
    (500, "header fields", readings::header_fields),
    (300, "wild records", records::wild_records),
    (200, "full lists", records::full_lists),
    (250, "names", names::sound),
    (500, "names with a fault", names::one_fault),
    (400, "wild names", names::wild),
    (60, "long names", names::long),
    (600, "corpus, read", readings::corpus),
    (250, "steps", steps::steps),
    (150, "steps on the largest reference", steps::steps_on_the_largest),
    (80, "words of lengths", lengths::size_words),
    (30, "sum of lengths", lengths::sum_of_lengths),
    (120, "long reads", lengths::long_reads),
    (12, "many reads", lengths::many_reads),
    (300, "sound file", files::sound_file),
    (100, "file of saturated records", files::saturated_file),
    (400, "file with a fault", files::file_with_fault),
    (250, "damaged file", files::damaged_file),
    (200, "cut file", files::cut_file),
    (800, "written", writings::random),
    (700, "written, one fault", writings::one_fault),
    (150, "written, two faults", writings::two_faults),
    (40, "too many reads", writings::too_many_reads),
    (200, "written names", writings::names::sound),
    (150, "written names with a fault", writings::names::one_fault),
    (250, "written steps of names", writings::names::steps),
    (50, "long names, written", writings::names::long),
    (250, "gaps", writings::gaps),
    (100, "written saturated records", writings::saturated::saturated),
    (150, "written steps", writings::steps),
    (100, "written steps of clipped reads", writings::clipped_steps),
    (80, "written on the largest reference", writings::on_the_largest),
    (100, "corpus, written", writings::corpus),
    (100, "long reads, written", writings::long_reads),
    (5, "many reads, written", writings::many_reads),
];

/// Draws a case.
pub fn draw(stock: &Stock, seed: u64, number: u64) -> Case {
    let rng = &mut Prng::new(Prng::new(seed).next_u64() ^ Prng::new(!number).next_u64());
    let shares: u64 = FAMILIES.iter().map(|&(share, ..)| share).sum();
    let mut left = rng.below(shares);
    for &(share, family, draw) in FAMILIES {
        if left < share {
            return Case { family, margins: rng.coin(), work: draw(rng, stock) };
        }
        left -= share;
    }
    unreachable!("the shares are all there is")
}
