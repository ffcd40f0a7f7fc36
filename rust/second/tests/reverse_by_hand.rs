//! Property: the corpus' reverse local records by hand give the reads, numbers
//! and bytes worked out from 01 and 02, Ticket 2: "a reverse local stretch ends
//! at the position and runs down. Steps use the stored position; proposals keep
//! the lowest index." Catches: a stretch that starts at the position, or one
//! base off; a start below 0 taken as 0 or wrapped, 15 out of its order; steps
//! from or to the lowest index; another kind or strand that moves along.

mod common;
use common::*;
use second::cases_reverse::*;
use second::corpus::{Case, Lent, FILL};
use second::*;

/// Label, reads, entries and differences.
const READS: &[(&str, &[&str], u64, u64)] = &[
    ("reverse local, ends at 8", &["GAACC"], 0, 0),
    ("reverse local, ends at 6", &["GCGTC"], 0, 0),
    ("reverse local, five first bases", &["TACGTG"], 0, 0),
    ("reverse local, two first bases", &["TGT"], 0, 0),
    ("reverse local, five last bases", &["CTGCAA"], 0, 0),
    ("reverse local, all bases", &["TTGCAACGTACGT"], 0, 0),
    ("one base, forward, at 5", &["ACC"], 0, 0),
    ("one base, at 5", &["AGC"], 0, 0),
    ("one base, at 0", &["GT"], 0, 0),
    ("one base, at 11", &["TG"], 0, 0),
    ("entries, ends at 8", &["GAATC"], 2, 1),
    ("entries, ends at 6", &["GAGTC"], 2, 1),
    ("entry under N, ends at 8", &["GAANC"], 1, 0),
    ("step 0 from a reverse local read", &["GAACC", "TGCA"], 0, 0),
    (
        "step 0 from a reverse local read, next group",
        &["TAAG", "ACGT", "ACGT", "ACGT", "ACGT", "ACGT", "ACGT", "ACGT", "TGCA"],
        0,
        0,
    ),
    ("step 3 to a reverse local read", &["CGTT", "GAACC"], 0, 0),
    ("first step 2, reverse local", &["GCGTC"], 0, 0),
    ("steps to and from reverse local reads", &["TACGTG", "CTGCAA"], 0, 0),
    ("step 0 between reverse local reads", &["GAACC", "TAAG"], 0, 0),
    ("one stretch in four records", &["GGTTC", "AAC", "AAC", "GAACC"], 1, 0),
    ("unmoved, three first bases", &["GACGC", "CGT", "AGT"], 1, 1),
    ("unmoved, three last bases", &["GGCAC", "TGC", "TGC"], 1, 0),
    ("eleven bases, three end at 10", &["GGCAC"], 0, 0),
];

/// Label, number and read index.
const REFUSED: &[(&str, u32, u64)] = &[
    ("three bases, would start at -1", SPAN_OUTSIDE_REFERENCE, 0),
    ("three bases, would start at -2", SPAN_OUTSIDE_REFERENCE, 0),
    ("two bases, would start at -1", SPAN_OUTSIDE_REFERENCE, 0),
    ("three bases, end at G", SPAN_OUTSIDE_REFERENCE, 0),
    ("one base, at G", SPAN_OUTSIDE_REFERENCE, 0),
    ("three bases, end at 2^32-1", SPAN_OUTSIDE_REFERENCE, 0),
    ("one base, at 2^32-1", SPAN_OUTSIDE_REFERENCE, 0),
    ("all bases, end at 10", SPAN_OUTSIDE_REFERENCE, 0),
    ("all bases, end at 12", SPAN_OUTSIDE_REFERENCE, 0),
    ("13 bases, end at 11", SPAN_OUTSIDE_REFERENCE, 0),
    ("13 bases, end at 12", SPAN_OUTSIDE_REFERENCE, 0),
    ("clips 0 0, below 0", CLIPS_INVALID, 0),
    ("clips 2 3, at G", CLIPS_INVALID, 0),
    ("clips 3 3, at 0", CLIPS_INVALID, 0),
    ("entry past, below 0", SPAN_OUTSIDE_REFERENCE, 0),
    ("entry past, at G", SPAN_OUTSIDE_REFERENCE, 0),
    ("entry past, first bases", ENTRY_OFFSET_INVALID, 0),
    ("entry twice, below 0", SPAN_OUTSIDE_REFERENCE, 0),
    ("entry twice, first bases", ENTRY_OFFSET_INVALID, 0),
    ("padding, below 0", SPAN_OUTSIDE_REFERENCE, 0),
    ("padding, first bases", PADDING_NONZERO, 0),
    ("N count 0, below 0", SPAN_OUTSIDE_REFERENCE, 0),
    ("no N list, below 0", SPAN_OUTSIDE_REFERENCE, 0),
    ("no end letters, below 0", DNA_TRUNCATED, 0),
    ("step 1 from a reverse local read", SPAN_OUTSIDE_REFERENCE, 1),
    ("step 7 to a reverse local read", SPAN_OUTSIDE_REFERENCE, 1),
    ("step 1 to a stretch below 0", SPAN_OUTSIDE_REFERENCE, 1),
    ("first step 1, reverse local", SPAN_OUTSIDE_REFERENCE, 0),
    ("forward local at 10", SPAN_OUTSIDE_REFERENCE, 0),
    ("reverse perfect at 10", SPAN_OUTSIDE_REFERENCE, 0),
    ("reverse global at 10", SPAN_OUTSIDE_REFERENCE, 0),
    ("eleven bases, three end at 11", SPAN_OUTSIDE_REFERENCE, 0),
    ("no bases, one at 0", SPAN_OUTSIDE_REFERENCE, 0),
];

/// Label and DNA section.
const WRITTEN: &[(&str, &[u8])] = &[
    ("reverse local", &[0, 0, 0, 0x80, 0, 8, 0, 1, 1, 0x90]),
    ("reverse local, a difference", &[0, 0, 0, 0x80, 8, 8, 0, 0x0B, 1, 1, 0x90]),
    ("reverse local, five first bases", &[0, 0, 0, 0x80, 0, 4, 0, 0, 1, 0x80]),
    ("reverse local, five last bases", &[0, 0, 0, 0x80, 0, 11, 0, 1, 0, 0x40]),
    ("reverse local, all bases", &[0, 0, 0, 0x80, 0, 11, 0, 1, 0, 0xC0]),
    ("reverse local, five bases from 8", &[0, 0, 0, 0, 2, 0x79, 0]),
    ("reverse local, all bases from 1", &[0, 0, 0, 0, 2, 0xF9, 0x06, 0xC6, 0xC0]),
    ("reverse local, highest index given", &[0, 0, 0, 0x40, 2, 0x79, 0, 8, 8, 0, 3, 0, 1, 0x80]),
    (
        "reverse local, one base",
        &[
            0, 0, 0, 0xA0, // group
            0, 5, 0, 1, 1, 0x10, // step 5
            0, 0, 0, 0, 0, 1, 0, 0x80, // back at 0
            0, 11, 0, 0, 1, 0x80, // step 11
        ],
    ),
    ("step 0 from reverse local", &[0x40, 0x40, 0, 0xC0, 0, 8, 0, 1, 1, 0x90, 0, 0]),
    ("step back from reverse local", &[0x40, 0x40, 0, 0x80, 0, 8, 0, 1, 1, 0x90, 7, 0, 0, 0]),
    ("step 3 to reverse local", &[0x80, 0x80, 0, 0xC0, 5, 0, 0, 3, 0, 1, 1, 0x90]),
    ("step 1 to reverse local", &[0x80, 0x80, 0, 0xC0, 7, 0, 0, 1, 0, 1, 1, 0x90]),
    ("step 0 to reverse local", &[0x80, 0x80, 0, 0xC0, 8, 0, 0, 0, 0, 1, 1, 0x90]),
    ("step back to reverse local", &[0x80, 0x80, 0, 0x80, 9, 0, 0, 8, 0, 0, 0, 1, 1, 0x90]),
    ("steps to and from reverse local", &[0, 0, 0, 0xC0, 0, 4, 0, 0, 1, 0x80, 0, 7, 0, 1, 0, 0x40]),
    (
        "step 0 from reverse local, next group",
        &[
            0, 0, 0, 0x80, 0, 8, 0, 1, 1, 0xE0, // local
            2, 0x1B, 2, 0x1B, 2, 0x1B, 2, 0x1B, 2, 0x1B, 2, 0x1B, 2, 0x1B, // raw
            0x80, 0x80, 0, 0x80, 0, 0, // perfect, step 0
        ],
    ),
    (
        "one stretch in four records",
        &[
            0x40, 0x80, 0, 0xF0, // group
            0, 6, 0, 1, 1, 0x90, // forward local, step 6
            0, 0, // reverse perfect, step 0
            0x0C, 0, 0, 7, // reverse global, step 0, T at 1
            0, 2, 0, 1, 1, 0x90, // reverse local, step 2
        ],
    ),
];

#[test]
fn records_that_are_read() {
    let cases = Cases::of("decode");
    let edge: (&str, &[&str], u64, u64) = ("reverse local", &["GAACC"], 0, 0);
    for &(label, reads, entries, differences) in READS.iter().chain([&edge]) {
        let case = cases.labelled(label);
        let letters = reads.concat().len() as u64;
        let counts = [reads.len() as u64, letters, entries, differences, 0];
        let reads = reads.iter().map(|read| read.to_string()).collect();
        let expected = (accepted(case.input.len() as u64, counts), reads);
        assert_eq!(run_decode(case), expected, "{label}");
    }
}

#[test]
fn records_that_are_refused() {
    let decoded = Cases::of("decode");
    let judged = Cases::of("validate_block");
    for &(label, number, read) in REFUSED {
        let expected = refusal(number, 0, read);
        assert_eq!(run_decode(decoded.labelled(label)), (expected, Vec::new()), "{label}");
        let Case { call, input, .. } = judged.labelled(label);
        assert_eq!(validate_block(call.bases, &call.reference, input), expected, "{label}");
    }
}

#[test]
fn files() {
    let cases = Cases::of("validate");
    let judged = |label| {
        let Case { call, input, .. } = cases.labelled(label);
        validate(call.bases, &call.reference, input)
    };
    let two = Outcome { blocks: 2, ..accepted(0, [2, 9, 0, 0, 0]) };
    assert_eq!(judged("first step after a block with a reverse local read"), two);
    let refused = refusal(SPAN_OUTSIDE_REFERENCE, 1, 1);
    assert_eq!(judged("second block, stretch below 0"), refused);
}

/// What is written is the block worked out, and reads back.
#[test]
fn records_that_are_written() {
    let cases = Cases::of("encode");
    for &(label, dna) in WRITTEN {
        let call = &cases.labelled(label).call;
        let mut out = vec![FILL; call.capacity];
        let outcome = call.run(&mut out);
        assert_eq!(outcome, accepted(outcome.length, [0; 5]), "{label}");
        assert!(out[outcome.length as usize..].iter().all(|&byte| byte == FILL), "{label}");
        assert_eq!(section(&out, 0), dna, "{label}");
        let mut lent = Lent::new(call.letters.len(), call.ends.len(), 16, 9);
        assert_eq!(lent.decode(call.bases, &call.reference, &out).number, 0, "{label}");
        assert_eq!((&lent.letters, &lent.ends), (&call.letters, &call.ends), "{label}");
    }
}

/// None is left out above.
#[test]
fn every_case_is_told_of() {
    let read: Vec<&str> = READS.iter().map(|row| row.0).collect();
    let refused: Vec<&str> = REFUSED.iter().map(|row| row.0).collect();
    let written: Vec<&str> = WRITTEN.iter().map(|row| row.0).collect();
    let labels = |inputs: Vec<cases_by_hand::Input>| -> Vec<String> {
        inputs.into_iter().map(|input| input.label).collect()
    };
    assert_eq!(labels(reverse_by_hand()), read);
    assert_eq!(labels(reverse_refused_by_hand()), refused);
    let calls: Vec<String> = reverse_calls().into_iter().map(|(label, _)| label).collect();
    assert_eq!(calls, written);
}

const BASES_AS_TEXT: &str = "ACGTACGTTGCA";

/// The base at an index, and its partner.
fn partner(index: i64) -> Option<char> {
    let base = BASES_AS_TEXT.chars().nth(usize::try_from(index).ok()?)?;
    "TGCA".chars().nth("ACGT".find(base)?)
}

/// Every position and aligned length around 01's reference, with G before the
/// part and T, or nothing, after it.
#[test]
fn every_place_is_read() {
    for right in [0, 1] {
        for (aligned, position) in (1..=14).flat_map(|aligned| (0..15).map(move |at| (aligned, at)))
        {
            let ends = if right == 0 { 0x80 } else { 0xB0 };
            let dna = [0, 0, 0, 0, 0, position, 0, 0, 0, 1, right, ends];
            let length = 1 + aligned + right;
            let block = Hand::same(length as i32, 1, &dna, &[0]).bytes();
            let down: Option<String> =
                (0..aligned as i64).map(|step| partner(position as i64 - step)).collect();
            let (outcome, letters) = read(&block);
            match down {
                None => assert_eq!(outcome, refusal(15, 0, 0), "{position} {aligned}"),
                Some(down) => {
                    let after = if right == 0 { "" } else { "T" };
                    assert_eq!(letters, format!("G{down}{after}"), "{position} {aligned}");
                }
            }
        }
    }
}

/// Every proposal and aligned length: the highest index is stored.
#[test]
fn every_place_is_written() {
    for (aligned, lowest) in (1..=13i64).flat_map(|aligned| (0..14).map(move |at| (aligned, at))) {
        let highest = lowest + aligned - 1;
        let down: Option<String> = (0..aligned).map(|step| partner(highest - step)).collect();
        let letters = format!("G{}", down.clone().unwrap_or("A".repeat(aligned as usize)));
        let call = proposals::EncodeCall {
            ends: vec![letters.len() as u32],
            letters: letters.into_bytes(),
            positions: vec![lowest as u32],
            strands: vec![2],
            lefts: vec![1],
            rights: vec![0],
            ..sums_call().named(&["a"])
        };
        let mut out = vec![0; 300];
        assert_eq!(call.run(&mut out).number, 0);
        match down {
            None => assert_eq!(section(&out, 0)[..5], [0, 0, 0, 0, 2], "{lowest} {aligned}"),
            Some(_) => {
                let dna = [0, 0, 0, 0x80, 0, highest as u8, 0, 1, 0, 0x80];
                assert_eq!(section(&out, 0), dna, "{lowest} {aligned}");
            }
        }
    }
}

/// The three first bases; then C, and bases 65,535 to 0 turned.
#[test]
fn a_long_stretch() {
    let cases = Cases::of("decode_large");
    let case = cases.labelled("3 and 65537 letters, reverse local");
    let base = |index: usize| case.call.reference[index / 4] >> (6 - 2 * (index % 4)) & 3;
    let first: String = (0..3).map(|index| ['A', 'C', 'G', 'T'][base(index) as usize]).collect();
    let down: String =
        (0..=65_535).rev().map(|index| ['T', 'G', 'C', 'A'][base(index) as usize]).collect();
    let (outcome, reads) = run_decode(case);
    assert_eq!(outcome, accepted(case.input.len() as u64, [2, 65_540, 0, 0, 0]));
    assert!(reads == [first, format!("C{down}")]);
}

/// The longest reference, whose last base has the index 2^32-2. It takes 1 GiB,
/// of which nothing but the last bytes is ever in memory.
#[test]
fn the_last_base_of_the_longest_reference() {
    let bases = 4_294_967_295;
    let reference = vec![0; 1 << 30];
    let judged = |dna: &[u8]| {
        let reads = 1 + (dna[3] == 0x40) as i32;
        let block = Hand::same(3, reads, dna, &[0]).bytes();
        let outcome = validate_block(bases, &reference, &block);
        (outcome.number, outcome.read)
    };
    let local = [1, 0, 0x80];
    // Two bases end at 2^32-2; at 2^32-1.
    assert_eq!(judged(&[&[0, 0, 0, 0, 0, 0xFE, 0xFF, 0xFF, 0xFF], &local[..]].concat()), (0, 0));
    assert_eq!(judged(&[&[0, 0, 0, 0, 0, 0xFF, 0xFF, 0xFF, 0xFF], &local[..]].concat()), (15, 0));
    // From three bases at 2^32-4 steps of 2, 3 and 5: to 2^32-2, to 2^32-1,
    // and to 2^32+1, where two bases would start at 0 if it were wrapped.
    for (step, number) in [(2, (0, 0)), (3, (15, 1)), (5, (15, 1))] {
        let first = [0x80, 0x80, 0, 0x40, 0xFC, 0xFF, 0xFF, 0xFF];
        assert_eq!(judged(&[&first[..], &[0, step, 0], &local].concat()), number, "{step}");
    }
    // Written: two bases from 2^32-3 end at 2^32-2.
    let call = proposals::EncodeCall {
        bases,
        reference,
        letters: b"GTT".to_vec(),
        ends: vec![3],
        positions: vec![0xFFFF_FFFD],
        strands: vec![2],
        lefts: vec![1],
        rights: vec![0],
        ..sums_call().named(&["a"])
    };
    let mut out = vec![0; 300];
    assert_eq!(call.run(&mut out).number, 0);
    assert_eq!(section(&out, 0), [0, 0, 0, 0, 0, 0xFE, 0xFF, 0xFF, 0xFF, 1, 0, 0x80]);
}
