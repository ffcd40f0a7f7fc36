//! Property: 01's "Sums done by hand" hold through the wrapper. Catches: arguments in another
//! order, slots of an answer exchanged, a strand that is not the writer's.

use ora::*;
use second::cases_by_hand::{Hand, BASES, REFERENCE};

fn reference() -> Reference<'static> {
    Reference::new(BASES, &REFERENCE).unwrap()
}

/// Letters, entries and differences of the only read of a block, or its refusal.
fn sum(length: i32, dna: &[u8]) -> Result<(String, u64, u64), Refusal> {
    let block = Hand::same(length, 1, dna).bytes();
    let decoded = decode(&reference(), &block)?;
    assert_eq!(decoded.summary().length, block.len());
    assert_eq!(validate_block(&reference(), &block), Ok(decoded.summary()));
    let letters = String::from_utf8(decoded.read(0).unwrap().to_vec()).unwrap();
    let Counts { entries, differences, top, .. } = decoded.summary().counts;
    assert_eq!(top, 0);
    Ok((letters, entries, differences))
}

fn gives(letters: &str, entries: u64, differences: u64) -> Result<(String, u64, u64), Refusal> {
    Ok((letters.to_string(), entries, differences))
}

fn refused(number: u64) -> Result<(String, u64, u64), Refusal> {
    Err(Refusal { number, block: 0, read: 0 })
}

#[test]
fn rows_of_the_table() {
    assert_eq!(sum(4, &[0x80, 0x80, 0, 0, 4, 0, 0, 0]), gives("ACGT", 0, 0));
    assert_eq!(sum(4, &[0x80, 0x80, 0, 0x80, 4, 0]), gives("ACGT", 0, 0));
    assert_eq!(sum(4, &[0x80, 0x80, 0, 0, 9, 0, 0, 0]), refused(15));
    assert_eq!(sum(4, &[0x80, 0x80, 0, 0, 8, 0, 0, 0]), gives("TGCA", 0, 0));
    assert_eq!(sum(4, &[0x80, 0, 0, 0, 6, 0, 0, 0]), gives("CAAC", 0, 0));
    assert_eq!(sum(4, &[0, 0x80, 0, 0, 0x0C, 0, 0, 0, 0, 0x0B]), gives("ACTT", 1, 1));
    assert_eq!(sum(4, &[0, 0x80, 0, 0, 0x0C, 0, 0, 0, 0, 0x0A]), gives("ACGT", 1, 0));
    assert_eq!(sum(5, &[0, 0x80, 0, 0, 0, 0, 0, 0, 0, 1, 1, 0xC0]), gives("TACGA", 0, 0));
    assert_eq!(sum(5, &[0, 0x80, 0, 0, 0, 0, 0, 0, 0, 1, 1, 0xC1]), refused(19));
    assert_eq!(sum(5, &[0, 0, 0, 0, 2, 0x8F, 0]), gives("GATTA", 0, 0));
    assert_eq!(sum(3, &[0, 0, 0x80, 0, 1, 0x40, 0x10]), gives("NAC", 0, 0));
    let n_list = [0x80, 0x80, 0x80, 0, 0, 0, 0, 0, 2, 1, 0, 2, 0];
    assert_eq!(sum(4, &n_list), gives("ANGN", 0, 0));
    assert_eq!(sum(4, &[&n_list[..11], &[0, 0]].concat()), refused(20));
}

/// The reverse local records of docs/FORMAT.md, whose stretch ends at the position.
#[test]
fn reverse_local_records() {
    let local = |position| sum(5, &[0, 0, 0, 0, 0, position, 0, 0, 0, 1, 1, 0xC0]);
    assert_eq!(local(8), gives("TAACA", 0, 0));
    assert_eq!(local(2), gives("TCGTA", 0, 0));
    assert_eq!(local(11), gives("TTGCA", 0, 0));
    assert_eq!(local(1), refused(15));
    assert_eq!(local(12), refused(15));
    let with_lists = [0, 0, 0x80, 0, 0x10, 9, 0, 0, 0, 7, 9, 1, 2, 0xB0, 2, 0, 0, 2, 0];
    assert_eq!(sum(7, &with_lists), gives("NCNACTA", 2, 0));
}

/// The block of 132 bytes that the listing's sample shows.
#[test]
fn the_listed_block() {
    let block = Hand::same(4, 1, &[0, 0x80, 0, 0, 0x0C, 0, 0, 0, 0, 0x0B]).bytes();
    assert_eq!(block.len(), 132);
    assert_eq!(block_id(&block), 7);
    assert_eq!(section_span(&block, Section::Dna), 121..131);
    assert_eq!(section(&block, Section::N), [0]);
    assert_eq!(block_length(&block), Ok(132));

    let decoded = decode(&reference(), &block).unwrap();
    let Counts { reads, letters, entries, differences, top, .. } = decoded.summary().counts;
    assert_eq!((reads, letters, entries, differences, top), (1, 4, 1, 1, 0));
    assert_eq!((decoded.letters(), decoded.ends()), (&b"ACTT"[..], &[4][..]));

    let file = validate(&reference(), &block.repeat(3)).unwrap();
    let Counts { reads, letters, entries, differences, top, .. } = file.counts;
    assert_eq!((file.blocks, reads, letters, entries, differences, top), (3, 3, 12, 3, 3, 0));
}

/// Lengths 5, 5, 300 in a size section, both ways.
#[test]
fn lengths() {
    let mut reads = Reads::new();
    for length in [5, 5, 300] {
        reads.push(b"0", &vec![b'C'; length], Candidate::NONE);
    }
    let block = encode(&reference(), &reads, 1, 2).unwrap();
    assert_eq!(section(&block, Section::Size), [0x40, 0x80, 5, 0x2C, 1]);
    assert_eq!(decode(&reference(), &block).unwrap().ends(), [5, 10, 310]);

    for (length, words) in
        [(256, &[0, 1][..]), (32_768, &[0, 0x80, 0, 0]), (65_535, &[0, 0x80, 0xFF, 0x7F])]
    {
        reads.clear();
        reads.push(b"0", b"C", Candidate::NONE);
        reads.push(b"0", &vec![b'C'; length], Candidate::NONE);
        let block = encode(&reference(), &reads, 1, 2).unwrap();
        assert_eq!(section(&block, Section::Size), [&[0, 0x80, 1], words].concat());
    }
}

/// A lone difference at 64 takes 2 entries, at 127 three, at 1953 thirty-one; at 1954 the read goes
/// raw. Of these the one at 1953 alone is at the top.
#[test]
fn entries_of_a_lone_difference() {
    let bytes = [0x1B; 500];
    let reference = Reference::new(2000, &bytes).unwrap();
    for (place, entries) in [(63, 1), (64, 2), (126, 2), (127, 3), (1953, 31), (1954, 0)] {
        let mut letters = b"ACGT".repeat(500);
        letters[place] = if letters[place] == b'A' { b'C' } else { b'A' };
        let mut reads = Reads::new();
        reads.push(b"0", &letters, Candidate::forward(0));
        let block = encode(&reference, &reads, 0, 0).unwrap();
        let decoded = decode(&reference, &block).unwrap();
        assert_eq!(decoded.letters(), letters);
        let Counts { differences, top, .. } = decoded.summary().counts;
        assert_eq!(decoded.summary().counts.entries, entries, "{place}");
        assert_eq!((differences, top), (entries.min(1), (place == 1953) as u64), "{place}");
    }
}

/// A block with one read, b_id 7 and c_time 9, without its name and with it.
#[test]
fn a_written_block() {
    let mut reads = Reads::new();
    reads.push(b"run7:8", b"ACTT", Candidate::forward(0));
    let named = encode(&reference(), &reads, 7, 9).unwrap();
    let block = without_names(&named);
    assert_eq!(block.len(), 130);
    assert_eq!(block[..6], [0x49, 0x7C, 121, 0, 0, 0]);
    assert_eq!(block[42..58], [5, 0, 0, 0, 4, 0, 0, 0, 1, 0, 0, 0, 0x19, 0x50, 7, 0]);
    assert_eq!((block[64], block[73], block[89]), (40, 4, 9));
    assert_eq!(block[121..], [0, 0x80, 0, 0x80, 0x0C, 0, 0, 0x0B, 0]);

    // Four tokens: two of strings, and two numbers with no step.
    let front = [4, 0, 0, 0, 0, 4, 0, 4];
    let sizes = [4u64, 8, 2, 8].map(u64::to_le_bytes).concat();
    let sets = [&b"run\0"[..], &7i64.to_le_bytes(), b":\0", &8i64.to_le_bytes()].concat();
    let names = [&front[..], &sizes, &sets].concat();
    assert_eq!(section(&named, Section::Names), names);
    assert_eq!((named[10], named[42]), (names.len() as u8, 9));
    assert_eq!(named[121..], [&block[121..129], &names, &[0]].concat());
}

/// Each candidate of docs/FORMAT.md, with its group bytes and record.
#[test]
fn candidates() {
    let dna = |letters: &[u8], candidate| {
        let mut reads = Reads::new();
        reads.push(b"0", letters, candidate);
        let block = encode(&reference(), &reads, 7, 9).unwrap();
        assert_eq!(decode(&reference(), &block).unwrap().letters(), letters);
        section(&block, Section::Dna).to_vec()
    };
    let local = [0, 0, 0x80, 0x80, 0, 8, 0, 1, 1, 0xC0, 1, 4, 0];
    assert_eq!(dna(b"CAAC", Candidate::reverse(6)), [0x80, 0, 0, 0x80, 6, 0]);
    assert_eq!(dna(b"CTAC", Candidate::reverse(6)), [0, 0, 0, 0x80, 0x0C, 6, 0, 7]);
    assert_eq!(dna(b"TAACN", Candidate::reverse(6).clipped(1, 1)), local);
    assert_eq!(dna(b"ACGT", Candidate::forward(9)), [0, 0, 0, 0, 2, 0x1B]);
    assert_eq!(dna(b"ACGT", Candidate::forward(4).clipped(2, 2)), [0, 0, 0, 0, 2, 0x1B]);
    assert_eq!(dna(b"ACGT", Candidate { strand: None, ..Candidate::forward(4) }).len(), 6);
    assert_eq!(dna(&[b'N'; 32], Candidate::forward(0))[2..6], [0x80, 0, 1, 0x44]);
}
