//! Property: at the edges of sizes every call answers as 01 says, and a refused one leaves its
//! buffers as they were. Catches: the pointer of an empty slice taken for a fault, a length that is
//! one off, letters written before a refusal, a block without sections that has no end, a stretch
//! that starts below base 0.

use ora::*;
use second::cases_by_hand::{Hand, BASES, REFERENCE};

const NO_READS: usize = 121;

fn reference() -> Reference<'static> {
    Reference::new(BASES, &REFERENCE).unwrap()
}

fn no_bases() -> Reference<'static> {
    Reference::new(0, &[]).unwrap()
}

/// A block with the reads ACTT and GATTACA, whose names are read9 and read10.
fn two_reads() -> Vec<u8> {
    let mut reads = Reads::new();
    reads.push(b"read9", b"ACTT", Candidate::forward(0));
    reads.push(b"read10", b"GATTACA", Candidate::NONE);
    encode(&reference(), &reads, 7, 0).unwrap()
}

/// What is lent to decoding.
struct Lent {
    letters: Vec<u8>,
    ends: Vec<u32>,
    names: Vec<u8>,
    name_ends: Vec<u32>,
}

impl Lent {
    fn new([letters, ends, names, name_ends]: [usize; 4]) -> Lent {
        Lent {
            letters: vec![b'.'; letters],
            ends: vec![99; ends],
            names: vec![b'.'; names],
            name_ends: vec![99; name_ends],
        }
    }

    fn buffers(&mut self) -> Buffers<'_> {
        let Lent { letters, ends, names, name_ends } = self;
        Buffers { letters, ends, names, name_ends }
    }

    fn holds(&self, letters: &[u8], ends: &[u32], names: &[u8], name_ends: &[u32]) -> bool {
        self.letters == letters
            && self.ends == ends
            && self.names == names
            && self.name_ends == name_ends
    }
}

fn refused(number: u64) -> Refusal {
    Refusal { number, block: 0, read: 0 }
}

#[test]
fn references() {
    assert!(Reference::new(0, &[]).is_ok());
    assert!(Reference::new(1, &[0xFF]).is_ok());
    for (bases, bytes) in [(0, 1), (1, 0), (4, 2), (5, 1), (1 << 32, 0), (u64::MAX, 0)] {
        assert_eq!(Reference::new(bases, &vec![0; bytes]), Err(refused(1)), "{bases} in {bytes}");
    }
    let file = [12, 0, 0, 0, 0, 0, 0, 0, 0x1B, 0x1B, 0xE4];
    assert_eq!(Reference::from_file(&file), Ok(reference()));
    assert_eq!(Reference::from_file(&file[..10]), Err(refused(1)));
    assert_eq!(Reference::from_file(&file[..7]), Err(refused(1)));
    assert_eq!(Reference::from_file(&[]), Err(refused(1)));
    assert_eq!(Reference::from_file(&[0; 8]), Ok(no_bases()));
}

#[test]
fn nothing_at_all() {
    assert_eq!(validate(&no_bases(), &[]), Ok(FileSummary::default()));
    assert_eq!(validate_block(&no_bases(), &[]), Err(refused(2)));
    assert_eq!(decode(&no_bases(), &[]).unwrap_err(), refused(2));
    assert_eq!(decode_into(&no_bases(), &[], Buffers::default()), Err(refused(2)));
    assert_eq!((block_id(&[]), has_names(&[]), without_names(&[])), (0, false, vec![]));
    assert_eq!(section(&[], Section::Dna), []);
    assert_eq!(block_length(&[]), Err(refused(2)));
    assert_eq!(blocks(&[]).count(), 0);
}

#[test]
fn no_reads() {
    let block = encode(&no_bases(), &Reads::new(), u64::MAX, u64::MAX).unwrap();
    assert_eq!(block.len(), NO_READS);
    assert_eq!(block_id(&block), u64::MAX);
    let decoded = decode(&no_bases(), &block).unwrap();
    assert!(decoded.is_empty() && decoded.iter().next().is_none() && decoded.read(0).is_none());
    assert_eq!(decoded.summary().length, NO_READS);
    let names = decoded.names().unwrap();
    assert!(names.is_empty() && names.bytes().is_empty() && names.get(0).is_none());
    assert!(decode_into(&no_bases(), &block, Buffers::default()).is_ok());
    assert_eq!(validate(&no_bases(), &block.repeat(2)).unwrap().blocks, 2);
}

#[test]
fn buffers_that_just_fit() {
    let block = two_reads();
    let mut lent = Lent::new([11, 2, 11, 2]);
    let summary = decode_into(&reference(), &block, lent.buffers()).unwrap();
    assert_eq!(summary.length, block.len());
    assert!(lent.holds(b"ACTTGATTACA", &[4, 11], b"read9read10", &[5, 11]));

    let mut lent = Lent::new([13, 3, 12, 4]);
    decode_into(&reference(), &block, lent.buffers()).unwrap();
    assert!(lent.holds(b"ACTTGATTACA..", &[4, 11, 99], b"read9read10.", &[5, 11, 99, 99]));

    let columns = Columns {
        letters: b"ACTTGATTACA",
        ends: &[4, 11],
        names: b"read9read10",
        name_ends: &[5, 11],
        positions: &[0, 0],
        strands: &[1, 0],
        lefts: &[0, 0],
        rights: &[0, 0],
    };
    let mut out = vec![0xEE; block.len()];
    assert_eq!(encode_into(&reference(), &columns, 7, 0, &mut out), Ok(block.len()));
    assert_eq!(out, block);
}

#[test]
fn refused_calls_change_nothing() {
    let block = two_reads();
    let kept = |lent: &Lent| {
        lent.letters.iter().chain(&lent.names).all(|&byte| byte == b'.')
            && lent.ends.iter().chain(&lent.name_ends).all(|&end| end == 99)
    };
    let fits = [11, 2, 11, 2];
    for short in 0..4 {
        for room in [0, fits[short] - 1] {
            let mut sizes = fits;
            sizes[short] = room;
            let mut lent = Lent::new(sizes);
            assert_eq!(decode_into(&reference(), &block, lent.buffers()), Err(refused(22)));
            assert!(kept(&lent), "{sizes:?}");
        }
    }
    assert_eq!(decode_into(&reference(), &block, Buffers::default()), Err(refused(22)));
    let mut lent = Lent::new([20; 4]);
    let cut = &block[..block.len() - 1];
    assert_eq!(decode_into(&reference(), cut, lent.buffers()), Err(refused(8)));
    assert!(kept(&lent));
    let mut names_refused = block.clone();
    names_refused[section_span(&block, Section::Names).start] = 0;
    assert_eq!(decode_into(&reference(), &names_refused, lent.buffers()), Err(refused(40)));
    assert_eq!(decode_into(&reference(), &names_refused, Buffers::default()), Err(refused(40)));
    assert!(kept(&lent));

    let columns = Columns {
        letters: b"ACGT",
        ends: &[4],
        names: b"0",
        name_ends: &[1],
        positions: &[0],
        strands: &[0],
        lefts: &[0],
        rights: &[0],
    };
    let refusals = [
        (31, Columns { rights: &[], ..columns }),
        (31, Columns { positions: &[0, 0], ..columns }),
        (32, Columns { ends: &[3], ..columns }),
        (32, Columns { letters: &[], ..columns }),
        (33, Columns { letters: b"ACGt", ..columns }),
        (33, Columns { letters: b"ACGt", names: b"", ..columns }),
        (41, Columns { names: b"", ..columns }),
        (41, Columns { name_ends: &[], ..columns }),
        (34, columns),
    ];
    for (number, columns) in refusals {
        let mut out = [0xEE; 120];
        let answer = encode_into(&reference(), &columns, 7, 0, &mut out);
        assert_eq!((answer, out), (Err(refused(number)), [0xEE; 120]));
        assert_eq!(encode_into(&reference(), &columns, 7, 0, &mut []), Err(refused(number)));
    }
}

#[test]
fn too_many_reads() {
    let mut reads = Reads::new();
    for _ in 0..MAX_READS {
        reads.push(b"0", b"A", Candidate::NONE);
    }
    let block = encode(&reference(), &reads, 0, 0).unwrap();
    assert_eq!(decode(&reference(), &block).unwrap().len(), MAX_READS);
    reads.push(b"0", b"A", Candidate::NONE);
    assert_eq!(encode(&reference(), &reads, 0, 0), Err(refused(30)));
    reads.clear();
    assert!(reads.is_empty() && reads.letters() == 0);
    reads.push(b"0", &[b'A'; MAX_READ_LENGTH], Candidate::NONE);
    assert!(encode(&reference(), &reads, 0, 0).is_ok());
    reads.push(b"0", &[b'A'; MAX_READ_LENGTH + 1], Candidate::NONE);
    assert_eq!(encode(&reference(), &reads, 0, 0), Err(refused(32)));
    reads.clear();
    reads.push(b"0", b"", Candidate::NONE);
    assert_eq!(encode(&reference(), &reads, 0, 0), Err(refused(32)));
}

/// A reverse read with clips is stored by the highest index of its stretch, at the first base and
/// at the last too. A position from which the stretch would start below 0, or that is past the last
/// base, is refused with 15.
#[test]
fn reverse_clipped_reads_at_both_ends() {
    // The aligned letters, the candidate and what is stored; on ACGTACGTTGCA.
    let reads: [(&str, u32, u8); 6] = [
        ("TACGT", 0, 4),
        ("TGCAA", 7, 11),
        ("TGCAACGTACGT", 0, 11),
        ("AAC", 6, 8),
        ("T", 0, 0),
        ("T", 11, 11),
    ];
    for (aligned, lowest, highest) in reads {
        let letters = format!("G{aligned}C");
        let mut reads = Reads::new();
        reads.push(b"0", letters.as_bytes(), Candidate::reverse(lowest).clipped(1, 1));
        let mut block = encode(&reference(), &reads, 7, 0).unwrap();
        assert_eq!(section(&block, Section::Dna), [0, 0, 0, 0x80, 0, highest, 0, 1, 1, 0x90]);
        assert_eq!(decode(&reference(), &block).unwrap().letters(), letters.as_bytes());

        let field = section_span(&block, Section::Dna).start + 5;
        for position in 0..=13 {
            block[field] = position;
            let inside = (aligned.len() as u8 - 1..BASES as u8).contains(&position);
            let number = decode(&reference(), &block).err().map(|refusal| refusal.number);
            assert_eq!(number, (!inside).then_some(15), "{aligned} at {position}");
        }
    }
}

/// Reads whose records are as long as they can be: 255 letters clipped at both ends, 31 entries, an
/// N list of 31; raw with an N list; raw4.
#[test]
fn room_is_enough_for_any_block() {
    let bytes = vec![0x1B; 25_000];
    let reference = Reference::new(100_000, &bytes).unwrap();
    for length in [1, 2, 31, 600, 700, 1200, 32_768, 65_536, 99_999, 100_000] {
        for ambiguous in [0, 31, 32] {
            for clip in [0, 255] {
                let mut letters = b"ACGT".repeat(25_000)[..length].to_vec();
                letters.iter_mut().rev().step_by(3000).take(ambiguous).for_each(|n| *n = b'N');
                letters.iter_mut().rev().take(ambiguous).for_each(|n| *n = b'N');
                let aligned = clip as usize..(clip as usize + 62).min(length);
                if let Some(aligned) = letters.get_mut(aligned) {
                    aligned.iter_mut().step_by(2).for_each(|letter| *letter = b'G');
                }
                let mut reads = Reads::new();
                for _ in 0..9 {
                    reads.push(b"0", &letters, Candidate::forward(0).clipped(clip, clip));
                    reads.push(b"0", b"A", Candidate::NONE);
                }
                let block = encode(&reference, &reads, 0, 0).unwrap();
                assert!(block.len() <= reads.columns().room());
                assert_eq!(decode(&reference, &block).unwrap().read(16), Some(&letters[..]));
            }
        }
    }
}

/// What is used again grows where it must and keeps the block before where it is refused.
#[test]
fn decoded_again() {
    let block = two_reads();
    let none = encode(&reference(), &Reads::new(), 1, 0).unwrap();
    let mut decoded = Decoded::new();
    decoded.decode(&reference(), &none).unwrap();
    assert_eq!((decoded.len(), decoded.letters()), (0, &b""[..]));
    decoded.decode(&reference(), &block).unwrap();
    assert_eq!(decoded.iter().collect::<Vec<_>>(), [&b"ACTT"[..], b"GATTACA"]);
    assert_eq!(decoded.decode(&reference(), &block[..130]), Err(refused(8)));
    assert_eq!(decoded.letters(), b"ACTTGATTACA");

    let mut reads = Reads::new();
    reads.push(b"0", b"CAAC", Candidate::reverse(6));
    let shorter = encode(&reference(), &reads, 1, 0).unwrap();
    decoded.decode(&reference(), &shorter).unwrap();
    assert_eq!((decoded.letters(), decoded.ends()), (&b"CAAC"[..], &[4][..]));
    assert_eq!((decoded.read(0), decoded.read(1)), (Some(&b"CAAC"[..]), None));
}

/// A block with nothing after its header ends where its header does, whatever 9 to 21 say of it.
#[test]
fn lengths_of_blocks_without_sections() {
    let mut block = vec![0; 130];
    block[..2].copy_from_slice(&[0x49, 0x7C]);
    block[54..56].copy_from_slice(&20505u16.to_le_bytes());
    for (l_header, length) in [(121, Ok(121)), (125, Ok(125)), (130, Ok(130))] {
        block[2..6].copy_from_slice(&i32::to_le_bytes(l_header));
        assert_eq!(block_length(&block), length);
        // A read, and no section for it: 11, or 9 without flag 0x1.
        for flags in [1, 0] {
            let mut with_read = block.clone();
            with_read[42] = flags;
            with_read[46] = 4;
            with_read[50] = 1;
            with_read[73] = 4;
            let number = if flags == 1 { 11 } else { 9 };
            assert_eq!(validate_block(&no_bases(), &with_read), Err(refused(number)));
            assert_eq!(block_length(&with_read), length);
        }
    }
    for (l_header, number) in [(120, 5), (-1, 5), (131, 8), (i32::MAX, 8)] {
        block[2..6].copy_from_slice(&i32::to_le_bytes(l_header));
        assert_eq!(block_length(&block), Err(refused(number)));
    }
}

#[test]
fn blocks_of_a_file() {
    let (first, second) = (two_reads(), Hand::same(4, 1, &[0, 0, 0, 0, 2, 0x1B]).bytes());
    let empty = encode(&reference(), &Reads::new(), 3, 0).unwrap();
    let file = [&first[..], &empty, &second].concat();
    let parts: Vec<Block> = blocks(&file).map(Result::unwrap).collect();
    assert_eq!(parts.iter().map(|block| block.bytes.len()).sum::<usize>(), file.len());
    assert_eq!(parts.iter().map(Block::id).collect::<Vec<_>>(), [7, 3, 7]);
    assert_eq!((parts[2].index, parts[2].offset), (2, first.len() + empty.len()));
    assert_eq!(parts[2].section(Section::Dna), [0, 0, 0, 0, 2, 0x1B]);
    assert_eq!(parts[2].decode(&reference()).unwrap().letters(), b"ACGT");
    assert_eq!(parts[1].validate(&reference()).unwrap().counts, Counts::default());

    // What a header does not tell is refused when the block is judged, with its index.
    let mut wrong = file.clone();
    wrong[first.len() + empty.len() + 121 + 4] = 0x0A;
    let parts: Vec<Block> = blocks(&wrong).map(Result::unwrap).collect();
    let refusal = Refusal { number: 14, block: 2, read: 0 };
    assert_eq!(parts[2].decode(&reference()).unwrap_err(), refusal);
    assert_eq!(parts[2].validate(&reference()), Err(refusal));
    assert_eq!(validate(&reference(), &wrong), Err(refusal));

    // A header that is refused ends the walk.
    let mut walk = blocks(&file[..file.len() - 1]);
    assert!(walk.next().unwrap().is_ok() && walk.next().unwrap().is_ok());
    assert_eq!(walk.next(), Some(Err(Refusal { number: 8, block: 2, read: 0 })));
    assert!(walk.next().is_none() && walk.next().is_none());
}

/// Everything can be sent to and shared between threads.
#[test]
fn threads() {
    fn both<T: Send + Sync>() {}
    both::<Reference>();
    both::<Decoded>();
    both::<Reads>();
    both::<Columns>();
    both::<Buffers>();
    both::<Names>();
    both::<Blocks>();
    both::<Block>();
    both::<Refusal>();
    both::<Box<dyn std::error::Error + Send + Sync>>();
    let _: Box<dyn std::error::Error + Send + Sync> = Box::new(refused(1));
}
