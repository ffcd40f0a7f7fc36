//! Property: the encoder's bytes for a few reads, worked out by hand from
//! 01's fixed rule. Catches: any change of the fixed rule that still decodes.

mod common;
use common::*;
use second::proposals::EncodeCall;
use second::*;

type Read<'a> = (&'a str, u32, u8, u8, u8);

/// The block for reads under ACGTACGTTGCA, b_id 7, c_time 9. Their names are
/// a0, a1 and so on.
fn write(reads: &[Read]) -> Vec<u8> {
    let letters: Vec<u8> = reads.iter().flat_map(|read| read.0.bytes()).collect();
    let mut end = 0;
    let ends: Vec<u32> = reads
        .iter()
        .map(|read| {
            end += read.0.len() as u32;
            end
        })
        .collect();
    let positions: Vec<u32> = reads.iter().map(|read| read.1).collect();
    let strands: Vec<u8> = reads.iter().map(|read| read.2).collect();
    let lefts: Vec<u8> = reads.iter().map(|read| read.3).collect();
    let rights: Vec<u8> = reads.iter().map(|read| read.4).collect();
    let names: Vec<String> = (0..reads.len()).map(|read| format!("a{read}")).collect();
    let (b_id, c_time) = (7, 9);
    let call = EncodeCall {
        letters,
        ends,
        positions,
        strands,
        lefts,
        rights,
        b_id,
        c_time,
        ..sums_call().named(&names)
    };
    let mut out = vec![0; 4000];
    let outcome = call.run(&mut out);
    assert_eq!(outcome.number, 0);
    out.truncate(outcome.length as usize);
    out
}

fn dna(reads: &[Read]) -> Vec<u8> {
    section(&write(reads), 0).to_vec()
}

/// The whole block, header and all. Read ACTT at 0: ACGT with T for G at 2,
/// entry 2*4+3 = 0B; one entry, global: 1*8+4 = 0C; step 0 from 0: pos_t.
#[test]
fn whole_block() {
    let mut expected = vec![
        0x49, 0x7C, // magic
        0x79, 0, 0, 0, // l_header 121
        8, 0, 0, 0, // dna
        32, 0, 0, 0, // names
        0, 0, 0, 0, 0, 0, 0, 0, // qualN, qual
        0, 0, 0, 0, // size
        1, 0, 0, 0, // N
        0, 0, 0, 0, 0, 0, 0, 0, 0, 0, 0, 0, // m1, m2, m3
        9, 0, 0, 0, // flags 0x8 and 0x1
        4, 0, 0, 0, // l_read
        1, 0, 0, 0, // n_reads
        0x19, 0x50, // version 20505
        7, 0, 0, 0, 0, 0, 0, 0, // b_id
        40, 0, 0, 0, 0, // q_type, q4
        0, 0, 0, 0, // raw names
        4, 0, 0, 0, // raw DNA
        0, 0, 0, 0, 0, 0, 0, 0, 0, 0, 0, 0, // raw qual, qualN, qualTotal
        9, 0, 0, 0, 0, 0, 0, 0, // c_time
    ];
    expected.extend([0; 24]); // checksums
    expected.extend([0x00, 0x80, 0x00, 0x80, 0x0C, 0x00, 0x00, 0x0B]); // DNA
    expected.extend([2, 0, 0, 0]); // token count
    expected.extend([0, 4]); // strings, steps of 8 bits
    expected.extend([2, 0, 0, 0, 0, 0, 0, 0]); // size of a and its zero byte
    expected.extend([8, 0, 0, 0, 0, 0, 0, 0]); // size of the start
    expected.extend([b'a', 0]);
    expected.extend([0; 8]); // start 0, no steps
    expected.extend([0x00]); // N
    assert_eq!(write(&[("ACTT", 0, 1, 0, 0)]), expected);
}

/// No reads: the header alone, flag 0x8 set, flag 0x1 not.
#[test]
fn no_reads() {
    let block = write(&[]);
    assert_eq!(block.len(), 121);
    assert_eq!(block[42..46], [8, 0, 0, 0]);
    assert!(block[6..42].iter().all(|&byte| byte == 0));
}

/// GTT at 6 turned is AAC; T before, N after. It ends at 8, which is stored.
/// Ends T and A (for N): 11 00 and padding, C0. The N is at 4. Local, no
/// entries: flag 00. Forward not set.
#[test]
fn reverse_local_with_n() {
    assert_eq!(
        dna(&[("TAACN", 6, 2, 1, 1)]),
        [
            0x00, 0x00, 0x80, 0x80, // group
            0x00, 8, 0, 1, 1, 0xC0, // flag, step, left, right, ends
            1, 4, 0, // N list
        ]
    );
}

/// GTTG at 6 turned is CAAC; CTAC differs at 1 along the read as printed.
#[test]
fn reverse_global() {
    assert_eq!(dna(&[("CTAC", 6, 2, 0, 0)]), [0x00, 0x00, 0x00, 0x80, 0x0C, 6, 0, 0x07]);
}

/// N is not compared, so ANGN at 0 is perfect; raw NACGT: A for N, 00 00 01
/// 10 and 11, with N at 0.
#[test]
fn n_in_perfect_and_raw() {
    assert_eq!(dna(&[("ANGN", 0, 1, 0, 0)]), [0x80, 0x80, 0x80, 0x80, 0, 0, 2, 1, 0, 2, 0]);
    assert_eq!(dna(&[("NACGT", 0, 0, 0, 0)]), [0x00, 0x00, 0x80, 0x00, 2, 0x06, 0xC0, 1, 0, 0]);
}

/// 31 N keep the place; 32 N make raw4 of the same read.
#[test]
fn thirty_one_and_thirty_two_n() {
    let n31 = "N".repeat(31) + "A";
    let mut expected = vec![0x00, 0x00, 0x80, 0x00, 2, 0, 0, 0, 0, 0, 0, 0, 0, 31, 0, 0];
    expected.extend([1, 0].repeat(30));
    assert_eq!(dna(&[(&n31, 0, 1, 0, 0)]), expected); // longer than the reference: raw
    let n32 = "N".repeat(32);
    let mut expected = vec![0x00, 0x00, 0x80, 0x00, 1];
    expected.extend([0x44; 16]);
    assert_eq!(dna(&[(&n32, 0, 1, 0, 0)]), expected);
}

/// The place is not used: past the end, strand 0 or 3, left+right the length.
#[test]
fn unused_places() {
    let raw = [0, 0, 0, 0, 2, 0x1B];
    for (position, strand, left, right) in [
        (9, 1, 0, 0),
        (u32::MAX, 1, 0, 0),
        (4, 0, 0, 0),
        (4, 3, 0, 0),
        (4, 1, 2, 2),
        (4, 1, 255, 255),
    ] {
        assert_eq!(dna(&[("ACGT", position, strand, left, right)]), raw);
    }
    // One aligned letter is enough: A at 11.
    assert_eq!(dna(&[("ACGT", 11, 1, 0, 3)]), [0, 0x80, 0, 0x80, 0, 11, 0, 0, 3, 0x6C]);
}

/// The position runs on past raw reads and over groups. Reads: 4, raw, back
/// to 0 (4 bytes), six at 0 (step 0), in the next group 8 (step 8).
#[test]
fn steps() {
    let mut reads = vec![("ACGT", 4, 1, 0, 0), ("AAAA", 0, 0, 0, 0)];
    reads.extend([("ACGT", 0, 1, 0, 0); 6]);
    reads.push(("TGCA", 8, 1, 0, 0));
    let mut expected = vec![0xBF, 0xBF, 0x00, 0x9F, 4, 0, 2, 0, 0, 0, 0, 0];
    expected.extend([0; 10]);
    expected.extend([0x80, 0x80, 0x00, 0x80, 8, 0]);
    assert_eq!(dna(&reads), expected);
}

/// Lengths 1, 256, 256, 255: byte; words 00 01; same; byte. Same before byte
/// size: 2, 2, 3.
#[test]
fn sizes() {
    let long = "A".repeat(256);
    let reads: Vec<Read> =
        vec![("A", 0, 0, 0, 0), (&long, 0, 0, 0, 0), (&long, 0, 0, 0, 0), (&long[1..], 0, 0, 0, 0)];
    assert_eq!(section(&write(&reads), 4), [0x20, 0x90, 1, 0x00, 0x01, 255]);
    let reads: Vec<Read> = vec![("AA", 0, 0, 0, 0), ("AA", 0, 0, 0, 0), ("AAA", 0, 0, 0, 0)];
    let block = write(&reads);
    assert_eq!(section(&block, 4), [0x40, 0xA0, 2, 3]);
    // l_read is 0 where 0x1 is not set.
    assert_eq!(block[42..50], [8, 0, 0, 0, 0, 0, 0, 0]);
}
