//! Blocks and files by hand around the listing's block, and size sections of
//! several reads. tests/blocks_by_hand.rs tells what they give.

use crate::cases_by_hand::{Hand, Input, BASES, REFERENCE, SUMS};
use crate::corpus::{Case, CaseKind};

/// 01's listing block: ACTT, 132 bytes.
fn listing_block() -> Hand {
    Hand::same(4, 1, SUMS[5].2)
}

/// Two raw reads, the second with the flag byte of raw and raw4.
fn second_read_wrong() -> Hand {
    Hand::same(2, 2, &[0, 0, 0, 0, 2, 0, 3])
}

/// What the header says of its own length, of the lengths and of the sections.
pub fn header_by_hand() -> Vec<Input> {
    let listing = listing_block();
    let no_reads = Hand { flags: 1, l_read: -1, ..Hand::default() };
    let wrong_sizes = Hand { raw_dna: 5, n: vec![0, 0], ..listing.clone() };
    // l_header 122: the extra byte FF is skipped.
    let mut longer = Input::by_hand("longer header", &listing);
    longer.bytes[2] = 122;
    longer.bytes.insert(121, 0xFF);
    let mut inputs = vec![longer];
    for (label, hand) in [
        // 9: with flag 0x1 the size section is empty.
        ("flag 1, size section of a byte", Hand { sizes: vec![0], ..listing.clone() }),
        // 9: l_read is used, and negative; without reads it is not used.
        ("l_read -1, a read", Hand { l_read: -1, ..listing.clone() }),
        ("l_read -1, no reads", no_reads),
        // 10; 11 by length; 10 before 11.
        ("raw DNA size 5", Hand { raw_dna: 5, ..listing.clone() }),
        ("N section of two bytes", Hand { n: vec![0, 0], ..listing }),
        ("raw DNA size 5, N section of two bytes", wrong_sizes),
    ] {
        inputs.push(Input::by_hand(label, &hand));
    }
    inputs
}

/// Blocks whose letters are asked for.
pub fn decode_by_hand() -> Vec<Case> {
    // 14 at read 1, before 22.
    let wrong = Input::by_hand("second read's flag byte, no room", &second_read_wrong());
    // A file of two blocks: the first is read, what follows is not part of it.
    let mut twice = Input::by_hand("the listing's block twice", &listing_block());
    twice.bytes = twice.bytes.repeat(2);
    vec![wrong.case(CaseKind::Decode).lending(0, 0), twice.case(CaseKind::Decode).lending(6, 2)]
}

/// Files of two blocks and of none.
pub fn files_by_hand() -> Vec<Case> {
    let listing = listing_block().bytes();
    let wrong = second_read_wrong().bytes();
    let file = |label: &str, bases, bytes: &[u8]| {
        Case::reading(CaseKind::Validate, label, bases, &REFERENCE, bytes)
    };
    vec![
        // 14 at block 1, read 1.
        file("second block's second flag byte", BASES, &[&listing[..], &wrong].concat()),
        // Each count is the sum over both blocks.
        file("the listing's block twice", BASES, &listing.repeat(2)),
        // No block: accepted, unless the reference earns 1, as 13 bases take
        // four bytes.
        file("empty file, 12 bases", BASES, &[]),
        file("empty file, 13 bases in 3 bytes", 13, &[]),
    ]
}

/// Size sections of several reads.
pub fn sizes_by_hand() -> Vec<(&'static str, Hand)> {
    let three_words = [0, 0, 0x00, 0x01, 0x00, 0x80, 0x00, 0x00, 0x00, 0x80, 0xFF, 0x7F];
    // 67,296 and 42,949 times 100,000, in 5,369 groups, the last of six reads.
    let mut sum = vec![0x3F, 0x00];
    sum.extend([0x00, 0x80, 0x00, 0x80, 0xE0, 0x06]);
    sum.extend([0x00, 0x80, 0x00, 0x80, 0x00, 0x80, 0xA0, 0x06]);
    sum.extend([0xFF, 0x00].repeat(5_367));
    sum.extend([0xFC, 0x00]);
    vec![
        // Same: the length before, which stands in words.
        ("300 300 5, same after words", Hand::sized(3, 605, &[0x40, 0x20, 0x2C, 0x01, 5])),
        // Words of three reads, the first without a 32768.
        ("256 32768 65535 in words", Hand::sized(3, 98_559, &three_words)),
        // 10: the sum of the lengths is not taken modulo 2^32.
        ("sum 2^32, raw DNA size 0", Hand::sized(42_950, 0, &sum)),
    ]
}
