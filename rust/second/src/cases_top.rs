//! Records of 31 entries by hand, read and written, under ACGT forty times. 02,
//! Ticket 4: "reads whose record has exactly 31 entries".
//! tests/top_count.rs tells what they give.

use crate::cases_by_hand::{Hand, Input};
use crate::cases_dna::block;
use crate::cases_encoding::read;
use crate::corpus::{Case, CaseKind};
use crate::generator::ReferencePlan;
use crate::proposals::{EncodeCall, Proposal};

pub const BASES: u64 = 160;
pub const REFERENCE: [u8; 40] = [0x1B; 40];

/// Entries at places 0, 1, 2 and so on: the codes of the first four, over and
/// over.
fn entries(codes: [u8; 4], count: usize) -> Vec<u8> {
    let later = codes.iter().cycle().skip(1).map(|code| 1 << 2 | code);
    [codes[0]].into_iter().chain(later).take(count).collect()
}

/// 31 entries, of which every fourth is a filler, the one at 5 stands under an
/// N and so does the filler at 8; 30 entries; a raw read that differs at all of
/// its 40 letters.
fn full_and_not() -> Hand {
    let dna = [
        &[0, 0xC0, 0x80, 0][..],
        &[0xFC, 0, 0, 0, 0],
        &entries([0, 2, 3, 0], 31),
        &[2, 5, 0, 3, 0],
        &[0xF4, 4, 0, 0, 0],
        &entries([1, 2, 3, 0], 30),
        &[2],
        &[0x6C; 10],
    ];
    block(&[40; 3], &[0x80], &dna.concat())
}

/// 31 entries, every fourth of them a filler, in a forward local record, a
/// reverse global one, and a reverse local one on the first bases; a perfect
/// read; raw4.
fn every_kind() -> Hand {
    let dna = [
        &[0x10, 0x90, 0x08, 0][..],
        &[0xF8, 8, 0, 0, 0],
        &entries([0, 2, 3, 0], 31),
        &[2, 3, 0x5A, 0x80],
        &[0xFC, 5, 0, 0, 0],
        &entries([3, 1, 2, 3], 31),
        &[0xF8, 30, 0, 0, 0],
        &entries([1, 3, 0, 1], 31),
        &[0, 5, 0xAA, 0x80],
        &[0, 0, 0, 0],
        &[1],
        &[0x44; 18],
    ];
    block(&[36; 5], &[0x08], &dna.concat())
}

/// 31 fillers; 31 entries that all differ and all stand under an N.
fn no_differences() -> Hand {
    let dna = [
        &[0, 0xC0, 0x40, 0][..],
        &[0xFC, 0, 0, 0, 0],
        &entries([0, 1, 2, 3], 31),
        &[0xFC, 0, 0, 0, 0],
        &entries([1, 2, 3, 0], 31),
        &[31, 0, 0],
        &[1, 0].repeat(30),
    ];
    block(&[31; 2], &[0x40], &dna.concat())
}

/// 31 entries in the first read of either group, seven raw reads between.
fn two_groups() -> Hand {
    let full = [&[0xFC, 0, 0, 0, 0][..], &entries([1, 2, 3, 0], 31)].concat();
    let first = [&[0, 0x80, 0, 0][..], &full, &[2, 0].repeat(7)].concat();
    let second = [&[0, 0x80, 0, 0][..], &full].concat();
    block(&[31, 1, 1, 1, 1, 1, 1, 1, 31], &[0, 0], &[first, second].concat())
}

/// 31 entries; then the flag byte of raw and raw4: 14.
fn refused_after() -> Hand {
    let dna = [&[0, 0x80, 0, 0, 0xFC, 0, 0, 0, 0][..], &entries([1, 2, 3, 0], 31), &[3]];
    block(&[31; 2], &[0], &dna.concat())
}

fn input(label: &str, hand: &Hand) -> Input {
    let reference = REFERENCE.to_vec();
    Input { label: label.to_string(), bases: BASES, reference, bytes: hand.bytes() }
}

/// Blocks that are read, and one that is refused.
pub fn top_by_hand() -> Vec<Input> {
    vec![
        input("31 entries, 30 entries, raw", &full_and_not()),
        input("31 entries in every kind that has them", &every_kind()),
        input("31 fillers, 31 entries under N", &no_differences()),
        input("31 entries in both groups", &two_groups()),
        input("31 entries, then a flag byte of 3", &refused_after()),
    ]
}

/// 22 for a block with 31 entries.
pub fn top_without_room() -> Case {
    let input = input("31 entries, one letter short", &full_and_not());
    input.case(CaseKind::Decode).lending(119, 3)
}

/// Files of two blocks; 14 at block 1, read 1.
pub fn top_files_by_hand() -> Vec<Case> {
    let file = |label: &str, blocks: [Hand; 2]| {
        let bytes = blocks.map(|hand| hand.bytes()).concat();
        Case::reading(CaseKind::Validate, label, BASES, &REFERENCE, &bytes)
    };
    vec![
        file("31 entries, twice", [full_and_not(), full_and_not()]),
        file("31 entries, three times and once", [every_kind(), full_and_not()]),
        file("31 entries, then a refused block", [full_and_not(), refused_after()]),
    ]
}

/// The same as a file of blocks that is listed.
pub fn top_blocks() -> Vec<u8> {
    [full_and_not(), every_kind(), no_differences()].map(|hand| hand.bytes()).concat()
}

/// A call of the writer: 29 differences and two fillers, the last gap being
/// 127; 30 differences; 40; 31 in a reverse local read; 31 around an N.
pub fn top_call() -> (String, EncodeCall) {
    let letters = b"ACGT".repeat(40);
    let reference = ReferencePlan { bases: BASES, letters, bytes: REFERENCE.to_vec() };
    let proposals: [Proposal; 5] = [
        read(&format!("{}{}ACT", "CGTA".repeat(7), "ACGT".repeat(31)), 0, 1, 0, 0),
        read(&format!("{}CGGTACGTACGT", "CGTA".repeat(7)), 0, 1, 0, 0),
        read(&"CGTA".repeat(10), 0, 1, 0, 0),
        read(&format!("A{}GTA{}", "GTAC".repeat(7), "C"), 100, 2, 1, 1),
        read(&format!("CGTACGTN{}", "CGTA".repeat(6)), 0, 1, 0, 0),
    ];
    let mut call = EncodeCall::new(&reference, &proposals, 0, 0);
    call.capacity = call.run(&mut vec![0; call.capacity]).length as usize + 3;
    ("31 entries, 30 entries, 40 differences".to_string(), call)
}
