//! Property: the corpus' size sections, blocks and files by hand give what 01
//! says of them. Catches: extra header bytes read as DNA, an unused l_read
//! judged, 11 before 10, sums modulo 2^32, a read index without its block's,
//! a file's counts taken from one block, the empty file refused.

mod common;
use common::*;
use second::files::with_block;
use second::listing::listing;
use second::*;

#[test]
fn size_sections() {
    let cases = Cases::of("lengths");
    let read = |label| lengths(&cases.labelled(label).input);
    assert_eq!(read("300 300 5, same after words"), Ok(vec![300, 300, 5]));
    assert_eq!(read("256 32768 65535 in words"), Ok(vec![256, 32_768, 65_535]));
    assert_eq!(read("100000 in words"), Ok(vec![100_000]));
    assert_eq!(read("100001 in words"), Err(Refusal::of_block(LENGTHS_INVALID)));
    assert_eq!(read("byte 0"), Err(Refusal::of_block(LENGTHS_INVALID)));
}

/// 10, not 9: only the sum of the lengths is wrong, though its low 32 bits are
/// the raw DNA size.
#[test]
fn a_sum_of_2_to_the_32_is_not_0() {
    let cases = Cases::of("lengths");
    let case = cases.labelled("sum 2^32, raw DNA size 0");
    assert_eq!(lengths(&case.input), Err(Refusal::of_block(DNA_SIZE_WRONG)));
    // Without the last group, six times the same length, it is 600,000 less.
    let mut shorter = Hand::sized(42_944, 4_294_367_296, section(&case.input, 4));
    shorter.sizes.truncate(shorter.sizes.len() - 2);
    let lengths = lengths(&shorter.bytes()).unwrap();
    let sum: u64 = lengths.iter().map(|&length| length as u64).sum();
    assert_eq!(sum + 6 * lengths[1] as u64, 1 << 32);
}

#[test]
fn headers() {
    let cases = Cases::of("validate_block");
    let judged = |label| {
        let case = cases.labelled(label);
        validate_block(case.call.bases, &case.call.reference, &case.input)
    };
    assert_eq!(judged("longer header"), accepted(133, [1, 4, 1, 1, 0]));
    assert_eq!(judged("flag 1, size section of a byte"), refusal(LENGTHS_INVALID, 0, 0));
    assert_eq!(judged("l_read -1, a read"), refusal(LENGTHS_INVALID, 0, 0));
    assert_eq!(judged("l_read -1, no reads"), accepted(121, [0; 5]));
    assert_eq!(judged("raw DNA size 5"), refusal(DNA_SIZE_WRONG, 0, 0));
    assert_eq!(judged("N section of two bytes"), refusal(N_SECTION_WRONG, 0, 0));
    assert_eq!(judged("raw DNA size 5, N section of two bytes"), refusal(DNA_SIZE_WRONG, 0, 0));
}

#[test]
fn the_second_read_is_refused_without_room() {
    let cases = Cases::of("decode");
    let case = cases.labelled("second read's flag byte, no room");
    assert_eq!((case.letters_lent, case.ends_lent), (0, 0));
    assert_eq!(run_decode(case), (refusal(RECORD_FLAG_INVALID, 0, 1), Vec::new()));
}

#[test]
fn files() {
    let cases = Cases::of("validate");
    let judged = |label| {
        let case = cases.labelled(label);
        validate(case.call.bases, &case.call.reference, &case.input)
    };
    let refused = refusal(RECORD_FLAG_INVALID, 1, 1);
    assert_eq!(judged("second block's second flag byte"), refused);
    let two = Outcome { blocks: 2, ..accepted(0, [2, 8, 2, 2, 0]) };
    assert_eq!(judged("the listing's block twice"), two);
    assert_eq!(judged("empty file, 12 bases"), Outcome::default());
    assert_eq!(judged("empty file, 13 bases in 3 bytes"), refusal(REFERENCE_SIZE_WRONG, 0, 0));
}

/// "Its reads are those of its blocks in order": the case decodes the first,
/// what follows it decodes to the second, and the listing has both.
#[test]
fn the_reads_of_a_file_of_two_blocks() {
    let cases = Cases::of("decode");
    let mut case = cases.labelled("the listing's block twice").clone();
    let file = case.input.clone();
    let one = (accepted(132, [1, 4, 1, 1, 0]), vec!["ACTT".to_string()]);
    assert_eq!(run_decode(&case), one);
    case.input = file[132..].to_vec();
    assert_eq!(run_decode(&case), one);

    let block = "block 7 reads 1 letters 4 entries 1 differences 1 top 0\nACTT\n";
    let reference_file = [&BASES.to_le_bytes()[..], &REFERENCE].concat();
    assert_eq!(listing(&reference_file, &file), format!("{block}{block}end blocks 2\n"));
}

/// "each count's sum modulo 2^64": no file is long enough, so the counts are
/// added by hand.
#[test]
fn counts_are_summed_modulo_2_to_the_64() {
    let added = |sums, counts| with_block(accepted(0, sums), accepted(132, counts));
    let one_block = |counts| Outcome { blocks: 1, ..accepted(0, counts) };
    let last = u64::MAX;
    assert_eq!(added([last; 5], [1, 2, 3, 4, 5]), one_block([0, 1, 2, 3, 4]));
    let below = [last, last - 1, last - 2, last - 3, last - 4];
    assert_eq!(added([last - 4; 5], [4, 3, 2, 1, 0]), one_block(below));
    assert_eq!(added(below, [0; 5]), one_block(below));
}
