//! Property: the corpus' calls of the encoder with names by hand give the names
//! sections, or 41, that 02, Ticket 1, says. Catches: a width too narrow or too
//! wide, a leading zero lost, 19 digits as a number, a falling column as
//! numbers, 41 before 33 or after 34.

mod common;
use common::*;
use second::corpus::{Lent, FILL};
use second::*;

/// Type and set of each column.
type Columns<'a> = &'a [(u8, &'a [u8])];

/// Label and columns. A start takes eight bytes.
const WRITTEN: &[(&str, Columns)] = &[
    ("written: a", &[(0, b"a\0")]),
    ("written: 0 1", &[(4, &[0, 0, 0, 0, 0, 0, 0, 0, 1])]),
    ("written: 7 7", &[(4, &[7, 0, 0, 0, 0, 0, 0, 0, 0])]),
    ("written: leading zeros", &[(0, b"r\0r\0"), (0, b"00\x0001\0")]),
    ("written: 0 00", &[(0, b"0\x0000\0")]),
    ("written: 9 10, rising though longer", &[(4, &[9, 0, 0, 0, 0, 0, 0, 0, 1])]),
    ("written: 10 9, falling", &[(0, b"10\x009\0")]),
    ("written: 5 6 5, falling last", &[(0, b"5\x006\x005\0")]),
    ("written: step 255", &[(4, &[0, 0, 0, 0, 0, 0, 0, 0, 0xFF])]),
    ("written: step 256", &[(3, &[0, 0, 0, 0, 0, 0, 0, 0, 0, 1])]),
    ("written: step 65535", &[(3, &[1, 0, 0, 0, 0, 0, 0, 0, 0xFF, 0xFF])]),
    ("written: step 65536", &[(5, &[1, 0, 0, 0, 0, 0, 0, 0, 0, 0, 1, 0])]),
    ("written: step 2^32-1", &[(5, &[1, 0, 0, 0, 0, 0, 0, 0, 0xFF, 0xFF, 0xFF, 0xFF])]),
    ("written: step 2^32", &[(0, b"1\x004294967297\0")]),
    // One wide step widens all.
    ("written: steps 1 256 0", &[(3, &[0, 0, 0, 0, 0, 0, 0, 0, 1, 0, 0, 1, 0, 0])]),
    // 999,999,999,999,999,998 is 0DE0B6B3A763FFFE.
    ("written: 18 digits", &[(4, &[0xFE, 0xFF, 0x63, 0xA7, 0xB3, 0xB6, 0xE0, 0x0D, 1])]),
    ("written: 18 and 19 digits", &[(0, b"999999999999999999\x001000000000000000000\0")]),
    ("written: 19 digits", &[(0, b"1234567890123456789\0")]),
    ("written: 1 a", &[(0, b"1\0a\0")]),
    ("written: 1a a1", &[(0, b"1\0a\0"), (0, b"a\x001\0")]),
    ("written: bytes 32 and 126", &[(0, b" \0~\0")]),
    (
        "written: sequencer",
        &[
            (0, b"A\0A\0"),
            (0, b"00123\x0000123\0"),
            (0, b":\0:\0"),
            (4, &[45, 0, 0, 0, 0, 0, 0, 0, 0]),
            (0, b":HXY:\0:HXY:\0"),
            (4, &[1, 0, 0, 0, 0, 0, 0, 0, 0]),
            (0, b":\0:\0"),
            (4, &[0x4D, 0x04, 0, 0, 0, 0, 0, 0, 0]),
            (0, b":\0:\0"),
            (3, &[0xE8, 0x03, 0, 0, 0, 0, 0, 0, 0xF4, 0x01]),
            (0, b":\0:\0"),
            (0, b"2000\x001000\0"),
        ],
    ),
];

/// Token count, types, sizes, sets.
fn names_section(columns: &[(u8, &[u8])]) -> Vec<u8> {
    let mut section = vec![columns.len() as u8, 0, 0, 0];
    for (kind, _) in columns {
        section.push(*kind);
    }
    for (_, set) in columns {
        section.extend([set.len() as u8, 0, 0, 0, 0, 0, 0, 0]);
    }
    for (_, set) in columns {
        section.extend(*set);
    }
    section
}

/// The block of an accepted call, which reads back as the call's names.
fn written(label: &str) -> Vec<u8> {
    let cases = Cases::of("encode");
    let call = &cases.labelled(label).call;
    let mut out = vec![FILL; call.capacity];
    let outcome = call.run(&mut out);
    assert_eq!(outcome, accepted(outcome.length, [0; 5]), "{label}");
    let past = out.split_off(outcome.length as usize);
    assert!(past.iter().all(|&byte| byte == FILL), "{label}");
    let reads = call.ends.len();
    let mut lent = Lent::new(reads, reads, call.names.len(), reads);
    assert_eq!(lent.decode(BASES, &REFERENCE, &out).number, 0, "{label}");
    assert_eq!((lent.names, lent.name_ends), (call.names.clone(), call.name_ends.clone()));
    out
}

#[test]
fn names_sections() {
    for &(label, columns) in WRITTEN {
        let block = written(label);
        let section = names_section(columns);
        assert_eq!(second::section(&block, 1), section, "{label}");
        // Flags 0x8 and 0x1; the raw size of names stays 0.
        assert_eq!(block[10..14], (section.len() as u32).to_le_bytes(), "{label}");
        assert_eq!(block[42..46], [9, 0, 0, 0], "{label}");
        assert_eq!(block[69..73], [0; 4], "{label}");
    }
}

/// "no reads means an empty body", and 0x8 is set.
#[test]
fn no_reads() {
    let block = written("written: no reads");
    assert_eq!(block.len(), 121);
    assert_eq!(block[42..46], [8, 0, 0, 0]);
    assert_eq!(second::section(&block, 1), []);
}

/// 128 columns of others, 127 of numbers: 1 + 8 + 2 bytes, 1 + 8 + 8 bytes.
#[test]
fn the_most_tokens() {
    let block = written("written: 255 tokens");
    let section = second::section(&block, 1);
    assert_eq!(section[..4], [255, 0, 0, 0]);
    assert_eq!(section[4..8], [0, 4, 0, 4]);
    assert_eq!(section.len(), 4 + 128 * 11 + 127 * 17);
}

/// Sections stand in the header's order: DNA, names, sizes, N.
#[test]
fn the_names_stand_after_the_dna() {
    let block = written("written: a");
    assert_eq!(block[121..127], [0, 0, 0, 0, 2, 0]);
    assert_eq!(block[127..142], [1, 0, 0, 0, 0, 2, 0, 0, 0, 0, 0, 0, 0, b'a', 0]);
    assert_eq!(block[142..], [0]);
}

/// The number of a call by its label; a refused call leaves the buffer.
fn told(cases: &Cases, label: &str) -> u32 {
    let call = &cases.labelled(label).call;
    let mut out = vec![FILL; call.capacity];
    let outcome = call.run(&mut out);
    if outcome.number != 0 {
        assert_eq!(outcome, refusal(outcome.number, 0, 0), "{label}");
        assert!(out.iter().all(|&byte| byte == FILL), "{label}");
    }
    outcome.number
}

#[test]
fn names_that_are_refused() {
    let cases = Cases::of("encode");
    let labels: Vec<String> = second::cases_names::refused_calls()
        .into_iter()
        .map(|(label, _)| label)
        .filter(|label| label.starts_with("41: "))
        .collect();
    assert_eq!(labels.len(), 23);
    for label in labels {
        assert_eq!(told(&cases, &label), NAMES_INVALID, "{label}");
    }
}

/// "41 ... after 33", and before 34, which counts the names too.
#[test]
fn order() {
    let cases = Cases::of("encode");
    for (label, number) in [
        ("no strand, no name ends, no room", CANDIDATE_COUNT_WRONG),
        ("end 2, no name ends, no room", READ_ENDS_INVALID),
        ("letter 9, no name ends, no room", LETTER_INVALID),
        ("no name ends, no room", NAMES_INVALID),
        ("name a, one byte too long", BLOCK_CAPACITY_TOO_SMALL),
        ("name a, just fits", 0),
    ] {
        assert_eq!(told(&cases, label), number, "{label}");
    }
}
