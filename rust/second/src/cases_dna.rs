//! DNA sections by hand, each in a whole block under ACGTACGTTGCA: steps of
//! positions, counts of several reads, and which refusal comes first at group
//! bytes, records and N lists. tests/dna_by_hand.rs tells what they give.

use crate::cases_by_hand::{Hand, Input};

/// Label, read lengths, N section, DNA section.
pub type Section = (&'static str, &'static [u8], &'static [u8], &'static [u8]);

const SECTIONS: &[Section] = &[
    // Each step adds to the position before, itself a step: 4, 6, 8.
    ("steps add up", &[4, 4, 4], &[0], &[0xE0, 0xE0, 0, 0xE0, 4, 0, 2, 0, 2, 0]),
    // The position of a clipped read is stepped from. Entries 1 and 2,
    // differences 1 and 1: the last entry is a filler.
    (
        "step from a local read, counts add up",
        &[5, 4],
        &[0],
        &[
            0, 0xC0, 0, 0x40, // group
            8, 4, 0, 0, 0, 7, 1, 1, 0xC0, // local at 4
            0x14, 2, 0, 0, 0x0E, // global at 6
        ],
    ),
    // 19: the last bit of a raw read's padding, of a raw4 read's.
    ("raw padding, last bit", &[5], &[0], &[0, 0, 0, 0, 2, 0x8F, 1]),
    ("raw4 padding, last bit", &[3], &[0x80], &[0, 0, 0x80, 0, 1, 0x40, 0x11]),
    // 12 before 13: a raw read with its Forward bit set ends after its flag
    // byte, and before it.
    ("raw cut after its flag byte, forward bit", &[4], &[0], &[0, 0x80, 0, 0, 2]),
    ("flag byte missing", &[4], &[0], &[0, 0x80, 0, 0]),
    // 12: an N word is cut, though the half that is there leads past the read.
    ("N word cut past the read", &[4], &[0x80], &[0x80, 0x80, 0x80, 0, 0, 0, 0, 0, 1, 9]),
    // Group bytes: 12 before 13 and 11; 13 before 11; 11.
    ("three group bytes, stray bit, N differs", &[4], &[0x80], &[0xC0, 0x80, 0]),
    ("with-N bit past the last read, N differs", &[4], &[0], &[0x80, 0x80, 0x40, 0, 4, 0, 0, 0]),
    ("with-N byte 00, N section 80", &[4], &[0x80], &[0x80, 0x80, 0, 0, 4, 0, 0, 0]),
    // 13: a bit past the last read in the Forward byte; in the with-N byte,
    // which is the N section's.
    ("Forward bit past the last read", &[4], &[0], &[0x80, 0xC0, 0, 0, 4, 0, 0, 0]),
    ("with-N bit past the last read, N agrees", &[4], &[0x40], &[0x80, 0x80, 0x40, 0, 4, 0, 0, 0]),
    // 14: global and raw at once; a raw read that counts an entry.
    ("global and raw bits", &[4], &[0], &[0, 0, 0, 0, 6]),
    ("raw with a count", &[4], &[0], &[0, 0, 0, 0, 0x0A, 0x1B]),
    // 16: a local read without clips.
    ("clips 0 0, length 4", &[4], &[0], &[0, 0x80, 0, 0, 0, 0, 0, 0, 0, 0, 0]),
    // 17: a later offset of 0, with the same base; an entry on the right clip.
    ("entry twice", &[4], &[0], &[0, 0x80, 0, 0, 0x14, 0, 0, 0, 0, 1, 1]),
    (
        "local entry A lands on the right clip",
        &[5],
        &[0],
        &[0, 0x80, 0, 0, 8, 0, 0, 0, 0, 0x0C, 1, 1, 0xC0],
    ),
    // 13: the pos_t bit of a raw4 read.
    ("raw4, pos_t bit", &[2], &[0], &[0, 0, 0, 0x80, 1, 1]),
];

/// What follows eight raw reads of one letter: label, reads, second group.
const SECOND_GROUPS: &[(&str, usize, &[u8])] = &[
    // 13 at the group's first read: a Forward bit past its last.
    ("group 1, Forward bit past the last read", 9, &[0, 0x40, 0, 0, 2, 0]),
    // 14 at the group's first record, at its second: raw and raw4 at once.
    ("group 1, first flag byte", 9, &[0, 0, 0, 0, 3]),
    ("group 1, second flag byte", 10, &[0, 0, 0, 0, 2, 0, 3]),
];

/// A block of reads shorter than 256 letters: flag 0x1 where they are equally
/// long, else a size section of one byte a read.
pub fn block(lengths: &[u8], n: &[u8], dna: &[u8]) -> Hand {
    let raw_dna = lengths.iter().map(|&length| length as u32).sum();
    let mut hand = Hand::sized(lengths.len() as i32, raw_dna, &[]);
    if lengths.iter().all(|length| length == &lengths[0]) {
        hand.flags = 1;
        hand.l_read = lengths[0] as i32;
    } else {
        for group in lengths.chunks(8) {
            hand.sizes.extend([0, !(0xFF_u32 >> group.len()) as u8]);
            hand.sizes.extend(group);
        }
    }
    Hand { dna: dna.to_vec(), n: n.to_vec(), ..hand }
}

/// Blocks under ACGTACGTTGCA.
pub fn dna_by_hand() -> Vec<Input> {
    let mut inputs: Vec<Input> = SECTIONS
        .iter()
        .map(|&(label, lengths, n, dna)| Input::by_hand(label, &block(lengths, n, dna)))
        .collect();
    let eight_raws = [vec![0; 4], [2, 0].repeat(8)].concat();
    for &(label, reads, group) in SECOND_GROUPS {
        let dna = [&eight_raws, group].concat();
        inputs.push(Input::by_hand(label, &block(&vec![1; reads], &[0, 0], &dna)));
    }
    inputs
}

/// 20 at the N word that leaves the read, though the next word is missing: N
/// at 30000, then a word of 32768, in a perfect read of all 40,000 bases.
pub fn n_word_leaves() -> Input {
    let list = [2, 0x30, 0x75, 0x00, 0x80];
    let dna = [&[0x80, 0x80, 0x80, 0, 0, 0, 0, 0][..], &list].concat();
    Input {
        label: "N at 30000, then a word of 32768".to_string(),
        bases: 40_000,
        reference: vec![0; 10_000],
        bytes: Hand::same(40_000, 1, &dna).bytes(),
    }
}
