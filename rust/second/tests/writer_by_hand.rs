//! Property: the corpus' calls of the writer by hand give the blocks and
//! numbers worked out from 01's fixed rule. Catches: a byte of the block in
//! another place, 0x1 without reads, 32 N in a list, a step of 65,536 in two
//! bytes, a step back, a step from or to a reverse local read's lowest index, a
//! refusal out of order, room counted one off.

mod common;
use common::*;
use second::corpus::{Lent, FILL};
use second::*;

/// The block that an accepted call writes; the room past it stays. It reads
/// back.
fn written(label: &str) -> Vec<u8> {
    let cases = Cases::of("encode");
    let call = &cases.labelled(label).call;
    let mut out = vec![FILL; call.capacity];
    let outcome = call.run(&mut out);
    assert_eq!(outcome, accepted(outcome.length, [0; 5]), "{label}");
    let past = out.split_off(outcome.length as usize);
    assert!(past.iter().all(|&byte| byte == FILL), "{label}");
    let (letters, ends) = (call.letters.len(), call.ends.len());
    let mut lent = Lent::new(letters, ends, call.names.len(), ends);
    assert_eq!(lent.decode(call.bases, &call.reference, &out).number, 0, "{label}");
    assert!(lent.letters == call.letters && lent.ends == call.ends, "{label}");
    out
}

fn dna(label: &str) -> Vec<u8> {
    section(&written(label), 0).to_vec()
}

/// CAAC reverse at 6; GTACGA with clips 2 and 1 at 0; NC without a place;
/// TGCA at 8, up to the last base; CAC with clips 1 and 1 at 11; A at 11, a
/// step of 0; C at 0, where the reference has A.
#[test]
fn seven_reads_byte_by_byte() {
    let mut expected = vec![
        0x49, 0x7C, // magic
        121, 0, 0, 0, // l_header
        35, 0, 0, 0, // dna
        27, 0, 0, 0, // names
        0, 0, 0, 0, 0, 0, 0, 0, // qualN, qual
        8, 0, 0, 0, // size
        1, 0, 0, 0, // N
        0, 0, 0, 0, 0, 0, 0, 0, 0, 0, 0, 0, // m1, m2, m3
        8, 0, 0, 0, // flags
        0, 0, 0, 0, // l_read
        7, 0, 0, 0, // n_reads
        0x19, 0x50, // version 20505
        2, 1, 0, 0, 0, 0, 0, 0, // b_id 258
        40, 0, 0, 0, 0, // q_type, q4
        0, 0, 0, 0, // raw names
        21, 0, 0, 0, // raw DNA
        0, 0, 0, 0, 0, 0, 0, 0, 0, 0, 0, 0, // raw qual, qualN, qualTotal
        5, 0, 0, 0, 0, 0, 0, 0, // c_time
    ];
    expected.extend([0; 24]); // checksums
    expected.extend([0x94, 0x5E, 0x20, 0x9C]); // Perfect, Forward, with-N, pos_t
    expected.extend([6, 0]); // perfect, step 6
    expected.extend([0, 0, 0, 0, 0, 2, 1, 0xB0]); // local, back at 0
    expected.extend([2, 0x10, 1, 0, 0]); // raw, N list
    expected.extend([8, 0]); // perfect, step 8
    expected.extend([0, 3, 0, 1, 1, 0x50]); // local, step 3
    expected.extend([0, 0]); // perfect, step 0
    expected.extend([0x0C, 0, 0, 0, 0, 1]); // global, back at 0
    expected.extend([1, 0, 0, 0, 4]); // one token, steps of 8 bits
    expected.extend([14, 0, 0, 0, 0, 0, 0, 0]); // size
    expected.extend([0, 0, 0, 0, 0, 0, 0, 0, 1, 1, 1, 1, 1, 1]); // names 0 to 6
    expected.extend([0x02, 0xFC, 4, 6, 2, 4, 3, 1]); // sizes, the last the same
    expected.extend([0x20]); // N section
    assert_eq!(written("seven reads"), expected);
}

/// Reads of one length: flags 0x8 and 0x1, l_read, no size section. No reads:
/// 0x8 alone.
#[test]
fn flag_1_is_set_for_equal_reads() {
    let block = written("equal reads");
    assert_eq!(block[42..54], [9, 0, 0, 0, 2, 0, 0, 0, 2, 0, 0, 0]);
    assert_eq!(section(&block, 4), []);
    let block = written("no reads, b_id 0");
    assert_eq!(block.len(), 121);
    assert_eq!(block[42..54], [8, 0, 0, 0, 0, 0, 0, 0, 0, 0, 0, 0]);
}

/// 31 N: raw, all letters A, and a list of 0 and thirty steps of 1. 32 N:
/// raw4, all letters N.
#[test]
fn thirty_one_n_make_a_list_and_thirty_two_raw4() {
    let mut expected = vec![0, 0, 0xC0, 0];
    expected.extend([2, 0, 0, 0, 0, 0, 0, 0, 0, 31, 0, 0]);
    expected.extend([1, 0].repeat(30));
    expected.push(1);
    expected.extend([0x44; 16]);
    assert_eq!(dna("31 and 32 N, no place"), expected);
}

/// All reads are perfect and forward; pos_t is set for steps of 0 to 65,535.
#[test]
fn steps() {
    assert_eq!(dna("step 0"), [0xC0, 0xC0, 0, 0xC0, 5, 0, 0, 0]);
    assert_eq!(dna("step back"), [0xC0, 0xC0, 0, 0x80, 6, 0, 5, 0, 0, 0]);
}

/// A reverse local read steps from and to its highest index, here its place
/// and one more: counted from the lowest, the steps marked with a star would
/// fall on the other side.
#[test]
fn wide_steps() {
    let expected = [
        &[0xF6, 0xF6, 0, 0xC4][..],   // group
        &[1, 0],                      // perfect at 1
        &[0xFF, 0xFF],                // perfect, step 65,535
        &[1, 0, 0, 0],                // perfect, back at 1
        &[1, 0, 1, 0],                // perfect, step 65,536
        &[0, 1, 0, 0, 0, 1, 0, 0x80], // local, back at 1
        &[0xFF, 0xFF],                // perfect, step 65,535 *
        &[0, 0, 0, 0],                // perfect, back at 0
        &[0, 0, 0, 1, 0, 1, 0, 0x80], // local, step 65,536 *
        &[0x25, 0x25, 0, 0x42],       // group
        &[0, 1, 0, 0, 0, 1, 0, 0x80], // local, back at 1
        &[0, 0xFF, 0xFF, 1, 0, 0x80], // local, step 65,535
        &[1, 0, 0, 0],                // perfect, back at 1
        &[0, 1, 0, 1, 0, 1, 0, 0x80], // local, step 65,536 *
        &[0, 1, 0, 0, 0, 1, 0, 0x80], // local, back at 1
        &[1, 0, 1, 0],                // perfect, step 65,536
        &[0, 0, 0, 1, 0, 0x80],       // local, step 0 *
        &[0, 0, 1, 0],                // perfect, back at 65,536 *
    ];
    assert_eq!(dna("steps 65535 and 65536"), expected.concat());
}

#[test]
fn refusals_in_order() {
    let cases = Cases::of("encode");
    for (label, number) in [
        ("13 bases in 3 bytes", REFERENCE_SIZE_WRONG),
        ("no candidate, end 0, letter 9", CANDIDATE_COUNT_WRONG),
        ("end past the letters, letter 9", READ_ENDS_INVALID),
        ("letter 9, no room", LETTER_INVALID),
        ("block one byte too long", BLOCK_CAPACITY_TOO_SMALL),
    ] {
        let call = &cases.labelled(label).call;
        let mut out = vec![FILL; call.capacity];
        assert_eq!(call.run(&mut out), refusal(number, 0, 0), "{label}");
        assert!(out.iter().all(|&byte| byte == FILL), "{label}");
    }
}

/// 121 header bytes, four group bytes, flag byte and letter, the name a, N
/// section.
#[test]
fn a_block_that_just_fits() {
    let block = written("block just fits");
    assert_eq!(block.len(), 143);
    assert_eq!(block[121..127], [0, 0, 0, 0, 2, 0]);
    assert_eq!(block[127..142], [1, 0, 0, 0, 0, 2, 0, 0, 0, 0, 0, 0, 0, b'a', 0]);
    assert_eq!(block[142], 0);
}
