//! The ways of validating, decoding and encoding a block that are timed: the library through its C
//! interface, the second implementation, hand-tuned unsafe Rust, and a copy of the same letters.
use crate::tuned::{self, Counts, Tables, SLACK};
use crate::works::{Work, B_ID, C_TIME};
use ora::{BlockSummary, Reference};
use std::hint::black_box;

const CACHE_LINE: usize = 64;

/// What the ways write to.
pub struct Buffers {
    letters: Vec<u8>,
    ends: Vec<u32>,
    block: Vec<u8>,
}

impl Buffers {
    /// Filled with what no way writes.
    pub fn new(work: &Work) -> Buffers {
        let columns = work.columns();
        Buffers {
            letters: vec![b'.'; columns.letters.len() + SLACK],
            ends: vec![u32::MAX; columns.ends.len()],
            block: vec![b'.'; columns.room() + SLACK],
        }
    }

    /// Copies the letters to where they will be written.
    pub fn fill(&mut self, work: &Work) {
        let letters = work.columns().letters;
        black_box(&mut self.letters)[..letters.len()].copy_from_slice(black_box(letters));
    }
}

/// Reads the reference and the block. With the letters filled in after it, every way finds the same
/// caches, whichever ran before it.
pub fn touch(work: &Work) {
    for bytes in [work.reference(), &work.block] {
        black_box(bytes.iter().step_by(CACHE_LINE).fold(0, |sum, byte| sum ^ byte));
    }
}

/// What a way has done, by which it is compared.
#[derive(Debug)]
pub enum Outcome {
    Copied,
    Validated(Counts),
    Decoded(Counts),
    /// The length of the block.
    Encoded(usize),
    Refused,
}

/// One way of doing something with a block.
pub struct Way {
    pub title: &'static str,
    pub run: fn(&Work, &Tables, &mut Buffers) -> Outcome,
}

pub const fn way(title: &'static str, run: fn(&Work, &Tables, &mut Buffers) -> Outcome) -> Way {
    Way { title, run }
}

pub fn copy(work: &Work, _: &Tables, to: &mut Buffers) -> Outcome {
    let columns = work.columns();
    let mut at = 0;
    for (i, &end) in columns.ends.iter().enumerate() {
        let read = at..end as usize;
        to.letters[read.clone()].copy_from_slice(black_box(&columns.letters[read]));
        to.ends[i] = end;
        at = end as usize;
    }
    Outcome::Copied
}

fn reference_of<'a>(work: &Work<'a>) -> Reference<'a> {
    Reference::new(work.bases(), work.reference()).expect("the reference fits")
}

pub fn counts_of(summary: BlockSummary) -> Counts {
    let counts = summary.counts;
    [counts.reads, counts.letters, counts.entries, counts.differences, counts.top]
}

pub fn proved_validate(work: &Work, _: &Tables, _: &mut Buffers) -> Outcome {
    let answer = ora::validate_block(&reference_of(work), &work.block);
    answer.map_or(Outcome::Refused, |summary| Outcome::Validated(counts_of(summary)))
}

pub fn proved_decode(work: &Work, _: &Tables, to: &mut Buffers) -> Outcome {
    let letters = &mut to.letters[..work.columns().letters.len()];
    let lent = ora::Buffers { letters, ends: &mut to.ends, ..ora::Buffers::default() };
    let answer = ora::decode_into(&reference_of(work), &work.block, lent);
    answer.map_or(Outcome::Refused, |summary| Outcome::Decoded(counts_of(summary)))
}

pub fn proved_encode(work: &Work, _: &Tables, to: &mut Buffers) -> Outcome {
    let out = &mut to.block[..];
    let answer = ora::encode_into(&reference_of(work), &work.columns(), B_ID, C_TIME, out);
    answer.map_or(Outcome::Refused, Outcome::Encoded)
}

pub fn tuned_validate(work: &Work, _: &Tables, _: &mut Buffers) -> Outcome {
    // SAFETY: the validator reads nothing outside its slices.
    let counts = unsafe { tuned::validate::validate(work.bases(), work.reference(), &work.block) };
    counts.map_or(Outcome::Refused, Outcome::Validated)
}

pub fn tuned_decode(work: &Work, tables: &Tables, to: &mut Buffers) -> Outcome {
    // SAFETY: as above.
    let counts = unsafe { tuned::validate::decide(work.bases(), work.reference(), &work.block) };
    match counts {
        None => Outcome::Refused,
        Some(_) => trusting_decode(work, tables, to),
    }
}

pub fn trusting_decode(work: &Work, tables: &Tables, to: &mut Buffers) -> Outcome {
    let (letters, ends) = (to.letters.as_mut_ptr(), to.ends.as_mut_ptr());
    // SAFETY: the block is well-formed; its reference and the letters have SLACK bytes to spare,
    // and the last section of the block is not the DNA section.
    Outcome::Decoded(unsafe {
        tuned::decode::decode(work.reference_pointer(), &work.block, tables, letters, ends)
    })
}

pub fn tuned_encode(work: &Work, tables: &Tables, to: &mut Buffers) -> Outcome {
    let (bases, out) = (work.bases(), to.block.as_mut_ptr());
    // SAFETY: there is room for any block of these reads, and SLACK bytes more.
    let length = unsafe {
        let columns = work.columns();
        tuned::encode::encode(bases, work.reference(), &columns, B_ID, C_TIME, tables, out)
    };
    Outcome::Encoded(length)
}

fn second_counts(outcome: second::Outcome) -> Counts {
    [outcome.reads, outcome.letters, outcome.entries, outcome.differences, outcome.top]
}

pub fn second_validate(work: &Work, _: &Tables, _: &mut Buffers) -> Outcome {
    let outcome = second::validate_block(work.bases(), work.reference(), &work.block);
    match outcome.number {
        0 => Outcome::Validated(second_counts(outcome)),
        _ => Outcome::Refused,
    }
}

pub fn second_decode(work: &Work, _: &Tables, to: &mut Buffers) -> Outcome {
    let letters = &mut to.letters[..work.columns().letters.len()];
    let (reference, block, ends) = (work.reference(), &work.block, &mut to.ends);
    let outcome = second::decode(work.bases(), reference, block, letters, ends, &mut [], &mut []);
    match outcome.number {
        0 => Outcome::Decoded(second_counts(outcome)),
        _ => Outcome::Refused,
    }
}

pub fn second_encode(work: &Work, _: &Tables, to: &mut Buffers) -> Outcome {
    let columns = work.columns();
    let outcome = second::encode(
        work.bases(),
        work.reference(),
        columns.letters,
        columns.ends,
        columns.names,
        columns.name_ends,
        columns.positions,
        columns.strands,
        columns.lefts,
        columns.rights,
        B_ID,
        C_TIME,
        &mut to.block,
    );
    match outcome.number {
        0 => Outcome::Encoded(outcome.length as usize),
        _ => Outcome::Refused,
    }
}

/// The counts of the library, the letters and ends of the reads, and the block with its names: a
/// way that gives others is not timed.
pub fn compare(title: &str, way: &Way, work: &Work, tables: &Tables) {
    let expected = match proved_validate(work, tables, &mut Buffers::new(work)) {
        Outcome::Validated(counts) => counts,
        other => panic!("{title}: the library does not accept the block: {other:?}"),
    };
    let columns = work.columns();
    let mut to = Buffers::new(work);
    let outcome = (way.run)(work, tables, &mut to);
    let written = || to.letters.starts_with(columns.letters) && to.ends == columns.ends;
    let agrees = match outcome {
        Outcome::Copied => written(),
        Outcome::Validated(counts) => counts == expected,
        Outcome::Decoded(counts) => counts == expected && written(),
        Outcome::Encoded(length) => to.block[..length] == work.written,
        Outcome::Refused => false,
    };
    assert!(agrees, "{title}: {}: {outcome:?} differs, or what is written", way.title);
}
