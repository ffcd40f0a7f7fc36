//! Property: 01's "Sums done by hand", starred and not. Catches: any
//! misreading of the paper's own examples.

mod common;
use common::*;
use second::generator::generate_reference;
use second::lengths::write_words;
use second::prng::Prng;
use second::proposals::{EncodeCall, Proposal};
use second::*;

/// Number, letters, entries and differences of one read's group.
fn sum(length: i32, dna: &[u8]) -> (u32, String, u64, u64) {
    let block = Hand::same(length, 1, dna, &dna[2..3]).bytes();
    let (outcome, letters) = read(&block);
    assert_eq!(outcome.top, 0);
    (outcome.number, letters, outcome.entries, outcome.differences)
}

fn gives(letters: &str, entries: u64, differences: u64) -> (u32, String, u64, u64) {
    (0, letters.to_string(), entries, differences)
}

fn refused(number: u32) -> (u32, String, u64, u64) {
    (number, String::new(), 0, 0)
}

#[test]
fn row_1_perfect_forward() {
    assert_eq!(sum(4, &[0x80, 0x80, 0, 0, 4, 0, 0, 0]), gives("ACGT", 0, 0));
}

#[test]
fn row_2_step_from_0() {
    assert_eq!(sum(4, &[0x80, 0x80, 0, 0x80, 4, 0]), gives("ACGT", 0, 0));
}

#[test]
fn row_3_past_the_end_and_at_it() {
    assert_eq!(sum(4, &[0x80, 0x80, 0, 0, 9, 0, 0, 0]), refused(15));
    assert_eq!(sum(4, &[0x80, 0x80, 0, 0, 8, 0, 0, 0]), gives("TGCA", 0, 0));
}

#[test]
fn row_4_perfect_reverse() {
    assert_eq!(sum(4, &[0x80, 0, 0, 0, 6, 0, 0, 0]), gives("CAAC", 0, 0));
}

#[test]
fn row_5_global_with_a_difference() {
    assert_eq!(sum(4, &[0, 0x80, 0, 0, 0x0C, 0, 0, 0, 0, 0x0B]), gives("ACTT", 1, 1));
}

#[test]
fn row_6_global_with_a_filler() {
    assert_eq!(sum(4, &[0, 0x80, 0, 0, 0x0C, 0, 0, 0, 0, 0x0A]), gives("ACGT", 1, 0));
}

#[test]
fn row_7_local_and_padding() {
    assert_eq!(sum(5, &[0, 0x80, 0, 0, 0, 0, 0, 0, 0, 1, 1, 0xC0]), gives("TACGA", 0, 0));
    assert_eq!(sum(5, &[0, 0x80, 0, 0, 0, 0, 0, 0, 0, 1, 1, 0xC1]), refused(19));
}

#[test]
fn row_8_raw() {
    assert_eq!(sum(5, &[0, 0, 0, 0, 2, 0x8F, 0]), gives("GATTA", 0, 0));
}

#[test]
fn row_9_raw4() {
    assert_eq!(sum(3, &[0, 0, 0x80, 0, 1, 0x40, 0x10]), gives("NAC", 0, 0));
}

#[test]
fn row_10_n_list() {
    let with_n = [0x80, 0x80, 0x80, 0, 0, 0, 0, 0, 2, 1, 0];
    assert_eq!(sum(4, &[&with_n[..], &[2, 0]].concat()), gives("ANGN", 0, 0));
    assert_eq!(sum(4, &[&with_n[..], &[0, 0]].concat()), refused(20));
}

#[test]
fn lengths_5_5_300() {
    let block = Hand::sized(3, 310, &[0x40, 0x80, 0x05, 0x2C, 0x01]).bytes();
    assert_eq!(lengths(&block), Ok(vec![5, 5, 300]));
}

#[test]
fn lengths_5_5_300_are_written_so() {
    let reference = generate_reference(&mut Prng::new(1), 0);
    let read = |length| Proposal {
        letters: vec![b'A'; length],
        position: 0,
        strand: 0,
        left: 0,
        right: 0,
    };
    let call = EncodeCall::new(&reference, &[read(5), read(5), read(300)], 0, 0);
    let mut out = vec![0; call.capacity];
    assert_eq!(call.run(&mut out).number, 0);
    assert_eq!(section(&out, 4), [0x40, 0x80, 0x05, 0x2C, 0x01]);
}

#[test]
fn words() {
    let words = |value| {
        let mut out = Vec::new();
        write_words(value, &mut out);
        out
    };
    assert_eq!(words(256), [0x00, 0x01]);
    assert_eq!(words(32_768), [0x00, 0x80, 0x00, 0x00]);
    assert_eq!(words(65_535), [0x00, 0x80, 0xFF, 0x7F]);
    let block = Hand::sized(
        3,
        256 + 32_768 + 65_535,
        &[&[0, 0][..], &words(256), &words(32_768), &words(65_535)].concat(),
    );
    assert_eq!(lengths(&block.bytes()), Ok(vec![256, 32_768, 65_535]));
}

/// Entries, differences and top of a read whose lone difference is at `place`;
/// the flag byte tells whether it was placed.
fn lone_difference(place: usize) -> (u8, u64, u64, u64) {
    let reference = generate_reference(&mut Prng::new(2), 2000);
    let mut letters = reference.letters.clone();
    letters[place] = if letters[place] == b'A' { b'C' } else { b'A' };
    let proposal = Proposal { letters, position: 0, strand: 1, left: 0, right: 0 };
    let call = EncodeCall::new(&reference, &[proposal], 0, 0);
    let mut out = vec![0; call.capacity];
    assert_eq!(call.run(&mut out).number, 0);
    let outcome = validate_block(2000, &reference.bytes, &out);
    assert_eq!(outcome.number, 0);
    (section(&out, 0)[4] & 7, outcome.entries, outcome.differences, outcome.top)
}

#[test]
fn lone_differences() {
    assert_eq!(lone_difference(0), (4, 1, 1, 0));
    assert_eq!(lone_difference(63), (4, 1, 1, 0));
    assert_eq!(lone_difference(64), (4, 2, 1, 0));
    assert_eq!(lone_difference(126), (4, 2, 1, 0));
    assert_eq!(lone_difference(127), (4, 3, 1, 0));
    assert_eq!(lone_difference(1890), (4, 30, 1, 0));
    assert_eq!(lone_difference(1953), (4, 31, 1, 1));
    assert_eq!(lone_difference(1954), (2, 0, 0, 0));
}
