//! The sample that the listing program ships with, and the cases of the
//! program `listing_cases`: pairs of a reference file and a file of blocks,
//! each with the text that 01 asks for.

use crate::cases_by_hand::{Hand, BASES, REFERENCE};
use crate::cases_top;
use crate::corpus::stream;
use crate::generator::{generate_reference, generate_with_lengths, ReferencePlan, Shape};
use crate::listing::{listing, ENDS_LENT, LETTERS_LENT, MAX_REFERENCE_FILE, WINDOW};
use crate::prng::Prng;

/// A file of blocks that is listed under a reference file.
pub struct ListingCase {
    pub name: &'static str,
    pub reference: Vec<u8>,
    pub blocks: Vec<u8>,
}

fn case(name: &'static str, reference: Vec<u8>, blocks: Vec<u8>) -> ListingCase {
    ListingCase { name, reference, blocks }
}

/// "G in 8 bytes, then its bytes".
fn reference_file(bases: u64, bytes: &[u8]) -> Vec<u8> {
    [&bases.to_le_bytes()[..], bytes].concat()
}

fn reference_of_sums() -> Vec<u8> {
    reference_file(BASES, &REFERENCE)
}

/// The block of 01's example, 132 bytes.
fn example() -> Vec<u8> {
    let dna = [0x00, 0x80, 0x00, 0x00, 0x0C, 0x00, 0x00, 0x00, 0x00, 0x0B];
    Hand::same(4, 1, &dna).bytes()
}

/// The block whose entry lands outside its 4 letters: 17.
fn entry_outside() -> Vec<u8> {
    let mut block = example();
    block[121 + 9] = 0x13;
    block
}

/// Raw reads of one length, A throughout: a flag byte and packed letters each.
fn raw_block(length: i32, reads: i32) -> Vec<u8> {
    let record = [&[2][..], &vec![0; (length as usize + 3) / 4]].concat();
    let mut dna = Vec::new();
    for first in (0..reads).step_by(8) {
        dna.extend([0; 4]);
        for _ in first..reads.min(first + 8) {
            dna.extend(&record);
        }
    }
    Hand::same(length, reads, &dna).bytes()
}

/// The same block with names, one number of eight digits a read: 10000000 and
/// so on, in steps of 8 bits.
fn numbered(mut block: Vec<u8>, reads: usize) -> Vec<u8> {
    let set = [&10_000_000_u64.to_le_bytes()[..], &vec![1; reads - 1]].concat();
    let size = (set.len() as u64).to_le_bytes();
    let names = [&[1, 0, 0, 0, 4][..], &size, &set].concat();
    let dna = u32::from_le_bytes(block[6..10].try_into().unwrap()) as usize;
    block[10..14].copy_from_slice(&(names.len() as u32).to_le_bytes());
    block[42] |= 0x8;
    block.splice(121 + dna..121 + dna, names);
    block
}

/// The same block with so many bytes in all: the last section, m3, has the
/// rest.
fn filled_up(mut block: Vec<u8>, length: usize) -> Vec<u8> {
    let m3 = (length - block.len()) as u32;
    block[38..42].copy_from_slice(&m3.to_le_bytes());
    block.resize(length, 0x55);
    block
}

/// Lengths 3, 4, 1: a raw read with N in front, raw4 ACNT, a perfect A.
fn lengths_with_n() -> Vec<u8> {
    let sizes = [0x00, 0xE0, 3, 4, 1];
    let dna = [
        &[0x20, 0x20, 0xC0, 0x00][..],
        &[0x02, 0x18, 1, 0x00, 0x00],
        &[0x01, 0x01, 0x43],
        &[0x00, 0x00, 0x00, 0x00],
    ]
    .concat();
    Hand { dna, n: vec![0xC0], ..Hand::sized(3, 8, &sizes) }.bytes()
}

/// Blocks of drawn records, so many reads of up to 60 letters in each.
fn drawn_blocks(rng: &mut Prng, reference: &ReferencePlan, reads: &[usize]) -> Vec<Vec<u8>> {
    let shape = Shape {
        bases: reference.bases,
        max_reads: 0,
        max_length: 60,
        max_carried: 40,
        max_name: 60,
    };
    let mut blocks = Vec::new();
    for (index, &count) in reads.iter().enumerate() {
        let lengths = (0..count).map(|_| rng.range(20, shape.max_length)).collect();
        let mut plan = generate_with_lengths(rng, shape, reference, lengths);
        plan.b_id = index as u64;
        blocks.push(plan.block());
    }
    blocks
}

/// The shipped sample: four blocks of all five kinds under 400 bases, one of
/// them without reads.
pub fn sample() -> ListingCase {
    let rng = &mut stream("listing");
    let reference = generate_reference(rng, 400);
    let blocks = drawn_blocks(rng, &reference, &[12, 9, 0, 20]).concat();
    case("sample", reference_file(reference.bases, &reference.bytes), blocks)
}

pub fn cases() -> Vec<ListingCase> {
    let sums = reference_of_sums();
    let no_bases = reference_file(0, &[]);
    let joined = |blocks: &[Vec<u8>]| blocks.concat();
    let mut cases = vec![
        case("example", sums.clone(), example()),
        case("empty", sums.clone(), Vec::new()),
        case("no_reads", sums.clone(), Hand::same(4, 0, &[]).bytes()),
        case("lengths_with_n", sums.clone(), lengths_with_n()),
        case("refused_first", sums.clone(), joined(&[entry_outside(), example()])),
        case("refused_later", sums.clone(), joined(&[example(), example(), entry_outside()])),
        case("rest_of_a_block", sums.clone(), joined(&[example(), example()[..120].to_vec()])),
        case("cut_block", sums.clone(), joined(&[example(), example()[..131].to_vec()])),
        case("no_bases", no_bases.clone(), raw_block(5, 2)),
        case("no_bases_aligned", no_bases, example()),
    ];
    cases.extend(reference_cases());
    cases.extend(limit_cases());
    cases.push(many_blocks());
    let reference = reference_file(cases_top::BASES, &cases_top::REFERENCE);
    cases.push(case("top", reference, cases_top::top_blocks()));
    cases
}

/// Reference files that get 1, and the largest that does not.
fn reference_cases() -> Vec<ListingCase> {
    let bytes = MAX_REFERENCE_FILE - 8;
    let whole = |bytes: usize| reference_file(bytes as u64 * 4, &vec![0x1B; bytes]);
    vec![
        case("reference_short", vec![0; 7], Vec::new()),
        case("reference_cut", reference_file(BASES, &REFERENCE[..2]), Vec::new()),
        case("reference_cut_example", reference_file(BASES, &REFERENCE[..2]), example()),
        case("reference_largest", whole(bytes), example()),
        case("reference_too_large", whole(bytes + 1), Vec::new()),
    ]
}

/// As much as fits the window and what is lent, and one more.
fn limit_cases() -> Vec<ListingCase> {
    let sums = reference_of_sums();
    let letters = LETTERS_LENT as i32;
    let reads = ENDS_LENT as i32;
    vec![
        case("window_full", sums.clone(), [filled_up(example(), WINDOW), example()].concat()),
        case(
            "window_overrun",
            sums.clone(),
            [example(), filled_up(example(), WINDOW + 1)].concat(),
        ),
        case("buffers_full", sums.clone(), numbered(raw_block(letters / reads, reads), ENDS_LENT)),
        case("too_many_letters", sums.clone(), raw_block(letters + 1, 1)),
        case("too_many_reads", sums, raw_block(1, reads + 1)),
    ]
}

/// More bytes than the program holds at a time.
fn many_blocks() -> ListingCase {
    let rng = &mut stream("listing_many");
    let reference = generate_reference(rng, 4_000);
    let mut blocks = Vec::new();
    while blocks.len() < 3 * WINDOW {
        for block in drawn_blocks(rng, &reference, &[3, 0, 5]) {
            let length = block.len() + rng.below(9_000) as usize;
            let spare = u32::from_le_bytes(block[38..42].try_into().unwrap()) == 0;
            blocks.extend(if spare { filled_up(block, length) } else { block });
        }
    }
    case("many_blocks", reference_file(reference.bases, &reference.bytes), blocks)
}

/// The files of both programs by their paths in `crates`.
pub fn listing_files() -> Vec<(String, Vec<u8>)> {
    let ListingCase { reference, blocks, .. } = sample();
    let mut files = vec![("listing/stdout".to_string(), listing(&reference, &blocks).into_bytes())];
    files.push(("listing/data/reference".to_string(), reference));
    files.push(("listing/data/blocks".to_string(), blocks));
    let mut stdout = String::new();
    for ListingCase { name, reference, blocks } in cases() {
        stdout.push_str(&format!("case {name}\n{}", listing(&reference, &blocks)));
        files.push((format!("listing_cases/data/{name}.reference"), reference));
        files.push((format!("listing_cases/data/{name}.blocks"), blocks));
    }
    files.push(("listing_cases/stdout".to_string(), stdout.into_bytes()));
    files
}
