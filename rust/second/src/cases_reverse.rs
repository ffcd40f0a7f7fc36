//! Reverse local records by hand, read and written, under ACGTACGTTGCA. 02,
//! Ticket 2: "a reverse local stretch ends at the position and runs down.
//! Steps use the stored position; proposals keep the lowest index."
//! tests/reverse_by_hand.rs tells what they give.

use crate::cases_by_hand::{Hand, Input, BASES, REFERENCE};
use crate::cases_dna::{block, Section};
use crate::cases_encoding::{read, sums_reference};
use crate::corpus::{Case, CaseKind};
use crate::proposals::{EncodeCall, Proposal};

const READ: &[Section] = &[
    // Three aligned letters between G and C. From 8 down the reference has T,
    // T, G, from 6 down G, C, A.
    ("reverse local, ends at 8", &[5], &[0], &[0, 0, 0, 0, 0, 8, 0, 0, 0, 1, 1, 0x90]),
    ("reverse local, ends at 6", &[5], &[0], &[0, 0, 0, 0, 0, 6, 0, 0, 0, 1, 1, 0x90]),
    // The position is the aligned length less one: bases 4 to 0, 1 to 0.
    ("reverse local, five first bases", &[6], &[0], &[0, 0, 0, 0, 0, 4, 0, 0, 0, 0, 1, 0x80]),
    ("reverse local, two first bases", &[3], &[0], &[0, 0, 0, 0, 0, 1, 0, 0, 0, 1, 0, 0xC0]),
    // The position is the last base: bases 11 to 7, and all twelve.
    ("reverse local, five last bases", &[6], &[0], &[0, 0, 0, 0, 0, 11, 0, 0, 0, 1, 0, 0x40]),
    ("reverse local, all bases", &[13], &[0], &[0, 0, 0, 0, 0, 11, 0, 0, 0, 1, 0, 0xC0]),
    // One aligned letter stands at the position on either strand.
    ("one base, forward, at 5", &[3], &[0], &[0, 0x80, 0, 0, 0, 5, 0, 0, 0, 1, 1, 0x10]),
    ("one base, at 5", &[3], &[0], &[0, 0, 0, 0, 0, 5, 0, 0, 0, 1, 1, 0x10]),
    ("one base, at 0", &[2], &[0], &[0, 0, 0, 0, 0, 0, 0, 0, 0, 1, 0, 0x80]),
    ("one base, at 11", &[2], &[0], &[0, 0, 0, 0, 0, 11, 0, 0, 0, 0, 1, 0x80]),
    // Entries A at 0 and T at 2, along the read as printed. From 8 down it is
    // AAC, from 6 down CGT: the first is a filler, or the second.
    ("entries, ends at 8", &[5], &[0], &[0, 0, 0, 0, 0x10, 8, 0, 0, 0, 0, 0x0B, 1, 1, 0x90]),
    ("entries, ends at 6", &[5], &[0], &[0, 0, 0, 0, 0x10, 6, 0, 0, 0, 0, 0x0B, 1, 1, 0x90]),
    // T at 2 stands under the N at 3.
    (
        "entry under N, ends at 8",
        &[5],
        &[0x80],
        &[0, 0, 0x80, 0, 8, 8, 0, 0, 0, 0x0B, 1, 1, 0x90, 1, 3, 0],
    ),
    // From the position 8 a step of 0 to TGCA.
    (
        "step 0 from a reverse local read",
        &[5, 4],
        &[0],
        &[0x40, 0x40, 0, 0x40, 0, 8, 0, 0, 0, 1, 1, 0x90, 0, 0],
    ),
    // The same over seven raw reads, into the next group.
    (
        "step 0 from a reverse local read, next group",
        &[4; 9],
        &[0, 0],
        &[
            0, 0, 0, 0x80, 0, 8, 0, 1, 1, 0xE0, // local, bases 8 and 7
            2, 0x1B, 2, 0x1B, 2, 0x1B, 2, 0x1B, 2, 0x1B, 2, 0x1B, 2, 0x1B, // raw
            0x80, 0x80, 0, 0x80, 0, 0, // perfect at 8
        ],
    ),
    // From CGTT at 5 a step of 3 to the position 8.
    (
        "step 3 to a reverse local read",
        &[4, 5],
        &[0],
        &[0x80, 0x80, 0, 0x40, 5, 0, 0, 0, 0, 3, 0, 1, 1, 0x90],
    ),
    // The first step counts from 0: to 2, the lowest that three bases can have.
    ("first step 2, reverse local", &[5], &[0], &[0, 0, 0, 0x80, 0, 2, 0, 1, 1, 0x90]),
    // From 0 to 4 and from 4 to 11: the five first bases, the five last.
    (
        "steps to and from reverse local reads",
        &[6, 6],
        &[0],
        &[0, 0, 0, 0xC0, 0, 4, 0, 0, 1, 0x80, 0, 7, 0, 1, 0, 0x40],
    ),
    // A step of 0: three bases that end at 8, and two.
    (
        "step 0 between reverse local reads",
        &[5, 4],
        &[0],
        &[0, 0, 0, 0x40, 0, 8, 0, 0, 0, 1, 1, 0x90, 0, 0, 0, 1, 1, 0xE0],
    ),
    // Bases 6 to 8 in four records: forward local, reverse perfect and reverse
    // global at 6, the last with a filler; reverse local at 8.
    (
        "one stretch in four records",
        &[5, 3, 3, 5],
        &[0],
        &[
            0x40, 0x80, 0, 0xF0, // group
            0, 6, 0, 1, 1, 0x90, // forward local
            0, 0, // reverse perfect
            0x0C, 0, 0, 0, // reverse global
            0, 2, 0, 1, 1, 0x90, // reverse local
        ],
    ),
    // The others do not move: bases 0 to 2, and 9 to 11.
    (
        "unmoved, three first bases",
        &[5, 3, 3],
        &[0],
        &[
            0x40, 0x80, 0, 0, // group
            0, 0, 0, 0, 0, 1, 1, 0x90, // forward local
            0, 0, 0, 0, // reverse perfect
            0x0C, 0, 0, 0, 0, 0, // reverse global, A at 0
        ],
    ),
    (
        "unmoved, three last bases",
        &[5, 3, 3],
        &[0],
        &[
            0x40, 0x80, 0, 0, // group
            0, 9, 0, 0, 0, 1, 1, 0x90, // forward local
            9, 0, 0, 0, // reverse perfect
            0x0C, 9, 0, 0, 0, 3, // reverse global, T at 0
        ],
    ),
];

const REFUSED: &[Section] = &[
    // 15: the stretch would start below 0.
    ("three bases, would start at -1", &[5], &[0], &[0, 0, 0, 0, 0, 1, 0, 0, 0, 1, 1, 0x90]),
    ("three bases, would start at -2", &[5], &[0], &[0, 0, 0, 0, 0, 0, 0, 0, 0, 1, 1, 0x90]),
    ("two bases, would start at -1", &[3], &[0], &[0, 0, 0, 0, 0, 0, 0, 0, 0, 1, 0, 0xC0]),
    // 15: the position is G; the highest that four bytes hold.
    ("three bases, end at G", &[5], &[0], &[0, 0, 0, 0, 0, 12, 0, 0, 0, 1, 1, 0x90]),
    ("one base, at G", &[2], &[0], &[0, 0, 0, 0, 0, 12, 0, 0, 0, 1, 0, 0x80]),
    (
        "three bases, end at 2^32-1",
        &[5],
        &[0],
        &[0, 0, 0, 0, 0, 0xFF, 0xFF, 0xFF, 0xFF, 1, 1, 0x90],
    ),
    ("one base, at 2^32-1", &[2], &[0], &[0, 0, 0, 0, 0, 0xFF, 0xFF, 0xFF, 0xFF, 1, 0, 0x80]),
    // 15: all twelve bases, one lower and one higher; thirteen.
    ("all bases, end at 10", &[13], &[0], &[0, 0, 0, 0, 0, 10, 0, 0, 0, 1, 0, 0xC0]),
    ("all bases, end at 12", &[13], &[0], &[0, 0, 0, 0, 0, 12, 0, 0, 0, 1, 0, 0xC0]),
    ("13 bases, end at 11", &[14], &[0], &[0, 0, 0, 0, 0, 11, 0, 0, 0, 1, 0, 0xC0]),
    ("13 bases, end at 12", &[14], &[0], &[0, 0, 0, 0, 0, 12, 0, 0, 0, 1, 0, 0xC0]),
    // 16 before 15: no clips; clips that make the length; clips above it.
    ("clips 0 0, below 0", &[5], &[0], &[0, 0, 0, 0, 0, 0, 0, 0, 0, 0, 0]),
    ("clips 2 3, at G", &[5], &[0], &[0, 0, 0, 0, 0, 12, 0, 0, 0, 2, 3, 0, 0]),
    ("clips 3 3, at 0", &[5], &[0], &[0, 0, 0, 0, 0, 0, 0, 0, 0, 3, 3, 0, 0]),
    // 15 before 17, and 17 where the stretch just fits: an entry past the
    // part, a later offset of 0.
    ("entry past, below 0", &[5], &[0], &[0, 0, 0, 0, 8, 1, 0, 0, 0, 0x0C, 1, 1, 0x90]),
    ("entry past, at G", &[5], &[0], &[0, 0, 0, 0, 8, 12, 0, 0, 0, 0x0C, 1, 1, 0x90]),
    ("entry past, first bases", &[5], &[0], &[0, 0, 0, 0, 8, 2, 0, 0, 0, 0x0C, 1, 1, 0x90]),
    ("entry twice, below 0", &[5], &[0], &[0, 0, 0, 0, 0x10, 1, 0, 0, 0, 1, 1, 1, 1, 0x90]),
    ("entry twice, first bases", &[5], &[0], &[0, 0, 0, 0, 0x10, 2, 0, 0, 0, 1, 1, 1, 1, 0x90]),
    // 15 before 19, and 19; 15 before the N list, and where it is missing; 12
    // before 15 where the end letters are.
    ("padding, below 0", &[5], &[0], &[0, 0, 0, 0, 0, 1, 0, 0, 0, 1, 1, 0x91]),
    ("padding, first bases", &[5], &[0], &[0, 0, 0, 0, 0, 2, 0, 0, 0, 1, 1, 0x91]),
    ("N count 0, below 0", &[5], &[0x80], &[0, 0, 0x80, 0, 0, 1, 0, 0, 0, 1, 1, 0x90, 0]),
    ("no N list, below 0", &[5], &[0x80], &[0, 0, 0x80, 0, 0, 1, 0, 0, 0, 1, 1, 0x90]),
    ("no end letters, below 0", &[5], &[0], &[0, 0, 0, 0, 0, 0, 0, 0, 0, 1, 1]),
    // 15 by a step: from the position 8 to four bases from 9.
    (
        "step 1 from a reverse local read",
        &[5, 4],
        &[0],
        &[0x40, 0x40, 0, 0x40, 0, 8, 0, 0, 0, 1, 1, 0x90, 1, 0],
    ),
    // From 5 to G; from 0 to three bases that would start at -1.
    (
        "step 7 to a reverse local read",
        &[4, 5],
        &[0],
        &[0x80, 0x80, 0, 0x40, 5, 0, 0, 0, 0, 7, 0, 1, 1, 0x90],
    ),
    (
        "step 1 to a stretch below 0",
        &[4, 5],
        &[0],
        &[0x80, 0x80, 0, 0x40, 0, 0, 0, 0, 0, 1, 0, 1, 1, 0x90],
    ),
    ("first step 1, reverse local", &[5], &[0], &[0, 0, 0, 0x80, 0, 1, 0, 1, 1, 0x90]),
    // The others do not move: 15 for three bases from 10.
    ("forward local at 10", &[5], &[0], &[0, 0x80, 0, 0, 0, 10, 0, 0, 0, 1, 1, 0x90]),
    ("reverse perfect at 10", &[3], &[0], &[0x80, 0, 0, 0, 10, 0, 0, 0]),
    ("reverse global at 10", &[3], &[0], &[0, 0, 0, 0, 0x0C, 10, 0, 0, 0, 0]),
];

fn inputs(sections: &[Section]) -> Vec<Input> {
    let input =
        |&(label, lengths, n, dna): &Section| Input::by_hand(label, &block(lengths, n, dna));
    sections.iter().map(input).collect()
}

/// Three bases of ACGTACGTTGC, the last of which has the index 10. The bits of
/// its last byte that are past it are not read.
fn of_eleven(label: &str, position: u8) -> Input {
    let hand = block(&[5], &[0], &[0, 0, 0, 0, 0, position, 0, 0, 0, 1, 1, 0x90]);
    Input { bases: 11, ..Input::by_hand(label, &hand) }
}

/// Blocks that are read.
pub fn reverse_by_hand() -> Vec<Input> {
    let mut inputs = inputs(READ);
    inputs.push(of_eleven("eleven bases, three end at 10", 10));
    inputs
}

/// Blocks that are refused.
pub fn reverse_refused_by_hand() -> Vec<Input> {
    let mut inputs = inputs(REFUSED);
    inputs.push(of_eleven("eleven bases, three end at 11", 11));
    // One base at 0 of a reference that has none.
    let hand = block(&[2], &[0], &[0, 0, 0, 0, 0, 0, 0, 0, 0, 1, 0, 0x80]);
    let none = Input::by_hand("no bases, one at 0", &hand);
    inputs.push(Input { bases: 0, reference: Vec::new(), ..none });
    inputs
}

/// Files of two blocks: in the second the first step counts from 0; 15 at
/// block 1, read 1.
pub fn reverse_files_by_hand() -> Vec<Case> {
    let local = block(&[5], &[0], &[0, 0, 0, 0, 0, 8, 0, 0, 0, 1, 1, 0x90]);
    let stepped = Hand::same(4, 1, &[0x80, 0x80, 0, 0x80, 8, 0]);
    let dna = [0x80, 0x80, 0, 0x40, 0, 0, 0, 0, 0, 1, 0, 1, 1, 0x90];
    let below = block(&[4, 5], &[0], &dna);
    let file = |label: &str, blocks: [&Hand; 2]| {
        let bytes = blocks.map(|hand| hand.bytes()).concat();
        Case::reading(CaseKind::Validate, label, BASES, &REFERENCE, &bytes)
    };
    vec![
        file("first step after a block with a reverse local read", [&local, &stepped]),
        file("second block, stretch below 0", [&local, &below]),
    ]
}

/// Calls of the writer.
pub fn reverse_calls() -> Vec<(String, EncodeCall)> {
    let sums = sums_reference();
    let mut calls = Vec::new();
    let mut add = |label: &str, reads: &[Proposal]| {
        let mut call = EncodeCall::new(&sums, reads, 0, 0);
        call.capacity = call.run(&mut vec![0; call.capacity]).length as usize + 3;
        calls.push((label.to_string(), call));
    };
    // AAC on bases 6 to 8, between G and C; T for its last letter.
    let local = || read("GAACC", 6, 2, 1, 1);
    add("reverse local", &[local()]);
    add("reverse local, a difference", &[read("GAATC", 6, 2, 1, 1)]);
    // The first bases, the last, and all.
    let first = || read("TACGTG", 0, 2, 0, 1);
    let last = || read("CTGCAA", 7, 2, 1, 0);
    add("reverse local, five first bases", &[first()]);
    add("reverse local, five last bases", &[last()]);
    add("reverse local, all bases", &[read("TTGCAACGTACGT", 0, 2, 1, 0)]);
    // A base too high: the place is not used.
    add("reverse local, five bases from 8", &[read("CTGCAA", 8, 2, 1, 0)]);
    add("reverse local, all bases from 1", &[read("TTGCAACGTACGT", 1, 2, 1, 0)]);
    // The highest index for the lowest: outside; inside, with a difference.
    let highest = [read("CTGCAA", 11, 2, 1, 0), read("TACGTG", 4, 2, 0, 1)];
    add("reverse local, highest index given", &highest);
    // One aligned letter, at 5, at the first base and at the last.
    let ones = [read("AGC", 5, 2, 1, 1), read("GT", 0, 2, 1, 0), read("TG", 11, 2, 0, 1)];
    add("reverse local, one base", &ones);
    // From the position 8: to 8, and back to 7.
    add("step 0 from reverse local", &[local(), read("TGCA", 8, 1, 0, 0)]);
    add("step back from reverse local", &[local(), read("TTGC", 7, 1, 0, 0)]);
    // To the position 8: from 5, 7 and 8, and back from 9.
    add("step 3 to reverse local", &[read("CGTT", 5, 1, 0, 0), local()]);
    add("step 1 to reverse local", &[read("TTGC", 7, 1, 0, 0), local()]);
    add("step 0 to reverse local", &[read("TGCA", 8, 1, 0, 0), local()]);
    add("step back to reverse local", &[read("GCA", 9, 1, 0, 0), local()]);
    // From 0 to 4, from 4 to 11.
    add("steps to and from reverse local", &[first(), last()]);
    // From 8 over seven raw reads to 8, in the next group.
    let mut over = vec![read("TAAG", 7, 2, 1, 1)];
    over.extend(vec![read("ACGT", 0, 0, 0, 0); 7]);
    over.push(read("TGCA", 8, 1, 0, 0));
    add("step 0 from reverse local, next group", &over);
    // Bases 6 to 8: forward local, reverse perfect, reverse global, reverse
    // local.
    let four =
        [read("GGTTC", 6, 1, 1, 1), read("AAC", 6, 2, 0, 0), read("ATC", 6, 2, 0, 0), local()];
    add("one stretch in four records", &four);
    calls
}
