//! Blocks written by hand, field by field, for the tests; and cases of the
//! corpus by their labels.
#![allow(dead_code)]

use second::corpus::{Case, Lent, FILL};
use second::corpus_cases::corpus;
use second::generator::ReferencePlan;
use second::proposals::EncodeCall;
use second::*;

/// ACGTACGTTGCA, the reference of 01's sums.
pub const BASES: u64 = 12;
pub const REFERENCE: [u8; 3] = [0x1B, 0x1B, 0xE4];

/// A block by hand: a 121-byte header and the four sections that are read.
#[derive(Clone)]
pub struct Hand {
    pub flags: u32,
    pub l_read: i32,
    pub n_reads: i32,
    pub raw_dna: u32,
    pub dna: Vec<u8>,
    pub names: Vec<u8>,
    pub sizes: Vec<u8>,
    pub n: Vec<u8>,
}

impl Hand {
    /// `reads` reads of `length` letters each, flag 0x1.
    pub fn same(length: i32, reads: i32, dna: &[u8], n: &[u8]) -> Hand {
        Hand {
            flags: 1,
            l_read: length,
            n_reads: reads,
            raw_dna: (length * reads) as u32,
            dna: dna.to_vec(),
            names: Vec::new(),
            sizes: Vec::new(),
            n: n.to_vec(),
        }
    }

    pub fn sized(reads: i32, raw_dna: u32, sizes: &[u8]) -> Hand {
        Hand {
            flags: 0,
            l_read: 0,
            n_reads: reads,
            raw_dna,
            dna: Vec::new(),
            names: Vec::new(),
            sizes: sizes.to_vec(),
            n: vec![0; (reads as usize + 7) / 8],
        }
    }

    pub fn bytes(&self) -> Vec<u8> {
        let mut block = [0; 121];
        let mut put = |at: usize, bytes: &[u8]| block[at..at + bytes.len()].copy_from_slice(bytes);
        put(0, &[0x49, 0x7C]);
        put(2, &121u32.to_le_bytes());
        put(6, &(self.dna.len() as u32).to_le_bytes());
        put(10, &(self.names.len() as u32).to_le_bytes());
        put(22, &(self.sizes.len() as u32).to_le_bytes());
        put(26, &(self.n.len() as u32).to_le_bytes());
        put(42, &self.flags.to_le_bytes());
        put(46, &self.l_read.to_le_bytes());
        put(50, &self.n_reads.to_le_bytes());
        put(54, &20505u16.to_le_bytes());
        put(56, &7u64.to_le_bytes());
        put(73, &self.raw_dna.to_le_bytes());
        [&block[..], &self.dna, &self.names, &self.sizes, &self.n].concat()
    }
}

/// A call of the encoder under 01's reference, without reads, b_id 0, c_time 0.
pub fn sums_call() -> EncodeCall {
    let letters = b"ACGTACGTTGCA".to_vec();
    let reference = ReferencePlan { bases: BASES, letters, bytes: REFERENCE.to_vec() };
    EncodeCall::new(&reference, &[], 0, 0)
}

/// A block's letters as text, with its outcome, under 01's reference.
pub fn read(block: &[u8]) -> (Outcome, String) {
    let mut lent = Lent::new(64, 64, 0, 0);
    let outcome = lent.decode(BASES, &REFERENCE, block);
    let text = lent.letters[..outcome.letters as usize].to_vec();
    (outcome, String::from_utf8(text).unwrap())
}

/// Number and read index of a block under 01's reference.
pub fn told(block: &[u8]) -> (u32, u64) {
    let outcome = validate_block(BASES, &REFERENCE, block);
    (outcome.number, outcome.read)
}

/// The cases of one case file, found by their labels.
pub struct Cases {
    file: String,
    cases: Vec<Case>,
}

impl Cases {
    pub fn of(file: &str) -> Cases {
        let found = corpus().into_iter().find(|made| made.name == file).unwrap();
        Cases { file: file.to_string(), cases: found.cases }
    }

    /// The one case with this label.
    pub fn labelled(&self, label: &str) -> &Case {
        let found: Vec<&Case> = self.cases.iter().filter(|case| case.label == label).collect();
        assert_eq!(found.len(), 1, "{} in {}", label, self.file);
        found[0]
    }
}

/// Runs a decode case with the buffers that it lends: the outcome, and the
/// reads as text. What lies past them, all of it on a refusal, must stay.
pub fn run_decode(case: &Case) -> (Outcome, Vec<String>) {
    let (outcome, reads, _) = run_named(case);
    (outcome, reads)
}

/// The same with the names; none where they stay unread.
pub fn run_named(case: &Case) -> (Outcome, Vec<String>, Vec<String>) {
    let mut lent = case.lent();
    let outcome = lent.decode(case.call.bases, &case.call.reference, &case.input);
    let stored = outcome.number == 0 && case.input[42] & 8 != 0;
    let names = if stored { outcome.reads } else { 0 };
    let reads = parts(&lent.letters, &lent.ends, outcome.reads, &case.label);
    assert_eq!(reads.concat().len() as u64, outcome.letters, "{}", case.label);
    (outcome, reads, parts(&lent.names, &lent.name_ends, names, &case.label))
}

/// So many parts of a buffer by their ends. All else is as it was lent.
fn parts(bytes: &[u8], ends: &[u32], count: u64, label: &str) -> Vec<String> {
    let (ends, rest) = ends.split_at(count as usize);
    assert!(rest.iter().all(|end| end.to_le_bytes() == [FILL; 4]), "{label}");
    let written = ends.last().copied().unwrap_or(0);
    assert!(bytes[written as usize..].iter().all(|&byte| byte == FILL), "{label}");
    let text = |(&start, &end): (&u32, &u32)| {
        String::from_utf8(bytes[start as usize..end as usize].to_vec()).unwrap()
    };
    [0].iter().chain(ends).zip(ends).map(text).collect()
}

/// A refusal: "every count in a refusal is 0".
pub fn refusal(number: u32, block: u64, read: u64) -> Outcome {
    Outcome { number, block, read, ..Outcome::default() }
}

/// A block of so many bytes, with its counts.
pub fn accepted(length: u64, [reads, letters, entries, differences, top]: [u64; 5]) -> Outcome {
    Outcome { length, reads, letters, entries, differences, top, ..Outcome::default() }
}
