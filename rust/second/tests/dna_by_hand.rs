//! Property: the corpus' DNA sections by hand give the reads, entries and
//! differences, or the number and read index, worked out from 01. Catches: a
//! step from 0 or from the last 4-byte position, counts of the last read
//! alone, 13 before 12, a read index counted in its group, a wrapped position.

mod common;
use common::*;
use second::cases_dna::{dna_by_hand, n_word_leaves};
use second::*;

/// Label, reads, entries and differences.
const READS: &[(&str, &[&str], u64, u64)] = &[
    ("steps add up", &["ACGT", "GTTG", "TGCA"], 0, 0),
    ("step from a local read, counts add up", &["TATGA", "ATTG"], 3, 2),
];

/// Label, number and read index.
const REFUSED: &[(&str, u32, u64)] = &[
    ("raw padding, last bit", PADDING_NONZERO, 0),
    ("raw4 padding, last bit", PADDING_NONZERO, 0),
    ("raw cut after its flag byte, forward bit", DNA_TRUNCATED, 0),
    ("flag byte missing", DNA_TRUNCATED, 0),
    ("N count missing", DNA_TRUNCATED, 0),
    ("N word cut past the read", DNA_TRUNCATED, 0),
    ("N word 32768 leaves the read", N_POSITIONS_INVALID, 0),
    ("N count 0", N_POSITIONS_INVALID, 0),
    ("N at 30000, then a word of 32768", N_POSITIONS_INVALID, 0),
    ("three group bytes, stray bit, N differs", DNA_TRUNCATED, 0),
    ("with-N bit past the last read, N differs", FLAG_BIT_STRAY, 0),
    ("with-N byte 00, N section 80", N_SECTION_WRONG, 0),
    ("bit past the last read", FLAG_BIT_STRAY, 0),
    ("Forward bit past the last read", FLAG_BIT_STRAY, 0),
    ("with-N bit past the last read, N agrees", FLAG_BIT_STRAY, 0),
    ("group 1, Forward bit past the last read", FLAG_BIT_STRAY, 8),
    ("group 1, first flag byte", RECORD_FLAG_INVALID, 8),
    ("group 1, second flag byte", RECORD_FLAG_INVALID, 9),
    ("global and raw bits", RECORD_FLAG_INVALID, 0),
    ("raw with a count", RECORD_FLAG_INVALID, 0),
    ("clips 0 0, length 4", CLIPS_INVALID, 0),
    ("entry twice", ENTRY_OFFSET_INVALID, 0),
    ("local entry A lands on the right clip", ENTRY_OFFSET_INVALID, 0),
    ("raw4, pos_t bit", FLAG_BIT_STRAY, 0),
];

#[test]
fn sections_that_are_read() {
    let cases = Cases::of("decode");
    for &(label, reads, entries, differences) in READS {
        let case = cases.labelled(label);
        let letters = reads.concat().len() as u64;
        let counts = [reads.len() as u64, letters, entries, differences, 0];
        let reads = reads.iter().map(|read| read.to_string()).collect();
        let expected = (accepted(case.input.len() as u64, counts), reads);
        assert_eq!(run_decode(case), expected, "{label}");
    }
}

#[test]
fn sections_that_are_refused() {
    let cases = Cases::of("decode");
    for &(label, number, read) in REFUSED {
        let expected = (refusal(number, 0, read), Vec::new());
        assert_eq!(run_decode(cases.labelled(label)), expected, "{label}");
    }
}

/// None is left out above.
#[test]
fn every_section_is_told_of() {
    let told: Vec<&str> =
        READS.iter().map(|row| row.0).chain(REFUSED.iter().map(|row| row.0)).collect();
    for input in dna_by_hand().iter().chain([&n_word_leaves()]) {
        assert!(told.contains(&&input.label[..]), "{}", input.label);
    }
}

/// 15: a step of 2 from the last base but one of the longest reference leads
/// to 2^32, not to 0. The reference takes 1 GiB, so no case file holds it; as
/// nothing reads its bytes, none of them is ever in memory.
#[test]
fn a_step_past_2_to_the_32_is_not_wrapped() {
    let reference = vec![0; 1 << 30];
    let dna = [0xC0, 0xC0, 0, 0x40, 0xFE, 0xFF, 0xFF, 0xFF, 2, 0];
    let block = Hand::same(1, 2, &dna, &[0]).bytes();
    let outcome = validate_block(4_294_967_295, &reference, &block);
    assert_eq!(outcome, refusal(SPAN_OUTSIDE_REFERENCE, 0, 1));
}
