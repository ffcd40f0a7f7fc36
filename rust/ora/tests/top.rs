//! Property: top counts the reads whose record has exactly 31 entries, in a block and over a file,
//! and is 0 in every refusal. Catches: fillers or entries under an N left out, 30 counted, a raw
//! read counted, a slot that keeps what it held.

use ora::*;
use second::cases_by_hand::Hand;
use second::letters::pack;

const BASES: u64 = 100;
const BYTES: [u8; 25] = [0x1B; 25];
const LENGTH: usize = 64;

/// ACGT, 25 times.
fn reference() -> Reference<'static> {
    Reference::new(BASES, &BYTES).unwrap()
}

/// The letters of a read from base 0 on of which some are others than the reference has.
fn letters(differ: impl Fn(usize) -> bool) -> Vec<u8> {
    (0..LENGTH).map(|place| b"ACGT"[(place + differ(place) as usize) % 4]).collect()
}

/// Entries on the first letters of a read from base 0 on; those that do not differ are fillers.
fn entries(count: usize, differ: impl Fn(usize) -> bool) -> Vec<u8> {
    let code = |place: usize| ((place + differ(place) as usize) % 4) as u8;
    (0..count).map(|place| ((place > 0) as u8) << 2 | code(place)).collect()
}

/// Three reads: 31 entries, of which every fifth is a filler and another stands under an N; 30
/// entries; a raw one that differs at 40 letters.
fn block() -> Vec<u8> {
    let codes: Vec<u8> =
        (0..LENGTH).map(|place| ((place + (place < 40) as usize) % 4) as u8).collect();
    let records = [
        vec![31 << 3 | 0b100, 0, 0, 0, 0],
        entries(31, |place| place % 5 != 0),
        vec![1, 3, 0],
        vec![30 << 3 | 0b100, 0, 0, 0, 0],
        entries(30, |_| true),
        vec![0b010],
        pack(&codes, 2),
    ];
    let group = [0, 0xC0, 0x80, 0];
    Hand::same(LENGTH as i32, 3, &[&group[..], &records.concat()].concat()).bytes()
}

fn counts_of(counts: Counts) -> [u64; 5] {
    [counts.reads, counts.letters, counts.entries, counts.differences, counts.top]
}

#[test]
fn one_block_and_two() {
    let block = block();
    let decoded = decode(&reference(), &block).unwrap();
    let mut first = letters(|place| place < 31 && place % 5 != 0);
    first[3] = b'N';
    let reads = [first, letters(|place| place < 30), letters(|place| place < 40)];
    assert!(decoded.iter().eq(&reads));
    assert_eq!(validate_block(&reference(), &block), Ok(decoded.summary()));
    assert_eq!(counts_of(decoded.summary().counts), [3, 192, 61, 53, 1]);

    let one = validate(&reference(), &block).unwrap();
    assert_eq!((one.blocks, one.counts), (1, decoded.summary().counts));
    let two = validate(&reference(), &block.repeat(2)).unwrap();
    assert_eq!((two.blocks, counts_of(two.counts)), (2, [6, 384, 122, 106, 2]));
    assert_eq!(two.counts, one.counts.wrapping_add(one.counts));
}

/// Only number and indices stand in a refusal, whatever the answer held and was counted before.
#[test]
fn refusals() {
    let (block, bytes) = (block(), &BYTES);
    let answered = |call: &dyn Fn(&mut raw::Answer) -> u64| {
        let mut answer = [7; raw::SLOTS];
        assert_eq!(call(&mut answer), answer[0]);
        assert_eq!(answer[3..], [0; raw::SLOTS - 3]);
        (answer[0], answer[1], answer[2])
    };
    let judge = |block: &[u8]| answered(&|answer| raw::validate_block(BASES, bytes, block, answer));
    let judge_file = |file: &[u8]| answered(&|answer| raw::validate(BASES, bytes, file, answer));
    let no_room =
        |answer: &mut raw::Answer| raw::decode(BASES, bytes, &block, Buffers::default(), answer);
    assert_eq!(answered(&no_room), (22, 0, 0));
    // The flag byte of the last read, after both others.
    let mut wrong = block.clone();
    wrong[121 + 4 + 36 + 3 + 35] = 0b011;
    assert_eq!(judge(&wrong), (14, 0, 2));
    assert_eq!(judge_file(&[&block[..], &wrong].concat()), (14, 1, 2));
    let two = block.repeat(2);
    assert_eq!(judge_file(&two[..two.len() - 1]), (8, 1, 0));
}

/// What the writer makes of 30, 31, 32 and 40 letters that differ, on both strands, with clips and
/// without.
#[test]
fn written_reads() {
    let turned = |letters: &[u8]| -> Vec<u8> {
        let other =
            |letter: &u8| b"TGCA"[b"ACGT".iter().position(|known| known == letter).unwrap()];
        letters.iter().rev().map(other).collect()
    };
    for (differing, entries, top) in [(30, 30, 0), (31, 31, 1), (32, 0, 0), (40, 0, 0)] {
        let forward = letters(|place| place < differing);
        let reverse = turned(&forward);
        let clip = |letters: &[u8]| [b"GG", letters, b"TTT"].concat();
        let mut reads = Reads::new();
        reads.push(b"0", &forward, Candidate::forward(0));
        reads.push(b"0", &reverse, Candidate::reverse(0));
        reads.push(b"0", &clip(&forward), Candidate::forward(0).clipped(2, 3));
        reads.push(b"0", &clip(&reverse), Candidate::reverse(0).clipped(2, 3));
        let block = encode(&reference(), &reads, 0, 0).unwrap();
        let counts = validate_block(&reference(), &block).unwrap().counts;
        assert_eq!((counts.entries, counts.top), (4 * entries, 4 * top), "{differing}");
    }
}

#[test]
fn sums_are_modulo_2_to_the_64() {
    let mut most = Counts::default();
    most.reads = u64::MAX;
    most.letters = u64::MAX - 1;
    most.entries = u64::MAX - 2;
    most.differences = u64::MAX - 3;
    most.top = u64::MAX - 4;
    let two = most.wrapping_add(most);
    assert_eq!(counts_of(two), [2, 4, 6, 8, 10].map(|less| u64::MAX - less + 1));
    let mut five = Counts::default();
    five.top = 5;
    assert_eq!(most.wrapping_add(five).top, 0);
}
