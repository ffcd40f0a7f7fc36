//! Judging and decoding: the types of the answers, and the calls.

use crate::names::{has_names, part, parts, Names};
use crate::raw::{self, Answer, SLOTS};
use crate::reference::Reference;
use crate::refusal::{Refusal, RefusalKind};
use crate::MAX_NAME_LENGTH;

/// What is counted in a block, or summed over the blocks of a file modulo 2^64.
#[derive(Clone, Copy, Debug, Default, PartialEq, Eq)]
#[non_exhaustive]
pub struct Counts {
    /// Reads.
    pub reads: u64,
    /// Letters of all reads.
    pub letters: u64,
    /// Entries of all records, fillers included.
    pub entries: u64,
    /// Entries that are no fillers and do not stand under an N.
    pub differences: u64,
    /// Reads whose record has exactly 31 entries, the most that a record can have: the end of the
    /// scale. Fillers and entries under an N are entries too. A read that would take more at its
    /// place is stored without one, has no entries and is not counted.
    pub top: u64,
}

impl Counts {
    fn of(answer: &Answer) -> Counts {
        let [_, _, _, _, reads, letters, entries, differences, top, ..] = *answer;
        Counts { reads, letters, entries, differences, top }
    }

    /// Each count of the one and of the other together, modulo 2^64: over the blocks of a file these
    /// are the counts of the file.
    ///
    /// ```
    /// use ora::{blocks, encode, validate, Candidate, Counts, Reads, Reference};
    ///
    /// let reference = Reference::new(12, &[0x1B, 0x1B, 0xE4])?;
    /// let mut reads = Reads::new();
    /// reads.push(b"7", b"ACTT", Candidate::forward(0));
    /// let file = encode(&reference, &reads, 7, 0)?.repeat(3);
    ///
    /// let mut sum = Counts::default();
    /// for block in blocks(&file) {
    ///     sum = sum.wrapping_add(block?.validate(&reference)?.counts);
    /// }
    /// assert_eq!(sum, validate(&reference, &file)?.counts);
    /// # Ok::<(), ora::Refusal>(())
    /// ```
    #[must_use]
    pub fn wrapping_add(self, other: Counts) -> Counts {
        Counts {
            reads: self.reads.wrapping_add(other.reads),
            letters: self.letters.wrapping_add(other.letters),
            entries: self.entries.wrapping_add(other.entries),
            differences: self.differences.wrapping_add(other.differences),
            top: self.top.wrapping_add(other.top),
        }
    }
}

/// What an accepted block answers.
#[derive(Clone, Copy, Debug, Default, PartialEq, Eq)]
#[non_exhaustive]
pub struct BlockSummary {
    /// Its length in bytes: what follows it in the input begins there.
    pub length: usize,
    /// Its counts.
    pub counts: Counts,
}

impl BlockSummary {
    fn of(answer: &Answer) -> Result<BlockSummary, Refusal> {
        Refusal::check(answer)?;
        Ok(BlockSummary { length: answer[3] as usize, counts: Counts::of(answer) })
    }
}

/// What an accepted file answers.
#[derive(Clone, Copy, Debug, Default, PartialEq, Eq)]
#[non_exhaustive]
pub struct FileSummary {
    /// The number of its blocks.
    pub blocks: u64,
    /// The sums of their counts, modulo 2^64.
    pub counts: Counts,
}

/// Judges the block at the start of the input, with the refusals 1 to 21 and 40. What follows the
/// block is not looked at.
pub fn validate_block(reference: &Reference, input: &[u8]) -> Result<BlockSummary, Refusal> {
    let mut answer = [0; SLOTS];
    raw::validate_block(reference.bases(), reference.bytes(), input, &mut answer);
    BlockSummary::of(&answer)
}

/// Judges a file, block after block up to its last byte, with the refusals 1 to 21 and 40. A
/// refusal has the index of its block. The empty file is accepted.
///
/// ```
/// use ora::{encode, validate, Candidate, Reads, Reference};
///
/// let reference = Reference::new(12, &[0x1B, 0x1B, 0xE4])?;
/// let mut reads = Reads::new();
/// reads.push(b"7", b"ACTT", Candidate::forward(0));
/// let block = encode(&reference, &reads, 7, 0)?;
///
/// let file = [&block[..], &block[..]].concat();
/// let summary = validate(&reference, &file)?;
/// assert_eq!((summary.blocks, summary.counts.reads), (2, 2));
///
/// // Without its last byte the second block is refused.
/// let refusal = validate(&reference, &file[..file.len() - 1]).unwrap_err();
/// assert_eq!((refusal.number, refusal.block), (8, 1));
/// # Ok::<(), ora::Refusal>(())
/// ```
pub fn validate(reference: &Reference, file: &[u8]) -> Result<FileSummary, Refusal> {
    let mut answer = [0; SLOTS];
    raw::validate(reference.bases(), reference.bytes(), file, &mut answer);
    Refusal::check(&answer)?;
    Ok(FileSummary { blocks: answer[3], counts: Counts::of(&answer) })
}

/// The buffers that [`decode_into`] writes to. Those of a block without names need no room for any,
/// as the empty ones of `Buffers::default()`.
#[derive(Debug, Default)]
pub struct Buffers<'a> {
    /// For the letters of all reads, one after the other in ASCII capitals.
    pub letters: &'a mut [u8],
    /// For the number of letters up to the end of each read.
    pub ends: &'a mut [u32],
    /// For the names of all reads, one after the other; at most 255 bytes a read.
    pub names: &'a mut [u8],
    /// For the number of name bytes up to the end of each name.
    pub name_ends: &'a mut [u32],
}

/// Decodes the block at the start of the input into the caller's buffers, with the refusals 1 to
/// 21, 40 and 22. What lies past what is written keeps what it held, and after a refusal all does.
///
/// A block needs as many letters and ends as [`validate_block`] counts letters and reads. Names are
/// written where [`has_names`] is true: as many as there are reads, and the last name end is the
/// number of their bytes. Elsewhere both buffers are left alone. With too little room the block is
/// refused with 22.
///
/// ```
/// use ora::{decode_into, encode, Buffers, Candidate, Reads, Reference};
///
/// let reference = Reference::new(12, &[0x1B, 0x1B, 0xE4])?;
/// let mut reads = Reads::new();
/// reads.push(b"read7", b"ACTT", Candidate::forward(0));
/// let block = encode(&reference, &reads, 7, 0)?;
///
/// let (mut letters, mut ends) = ([b'.'; 6], [99; 2]);
/// let (mut names, mut name_ends) = ([b'.'; 8], [99; 2]);
/// let buffers = Buffers {
///     letters: &mut letters,
///     ends: &mut ends,
///     names: &mut names,
///     name_ends: &mut name_ends,
/// };
/// let summary = decode_into(&reference, &block, buffers)?;
/// assert_eq!(summary.length, block.len());
/// assert_eq!((&letters, ends), (b"ACTT..", [4, 99]));
/// assert_eq!((&names, name_ends), (b"read7...", [5, 99]));
/// # Ok::<(), ora::Refusal>(())
/// ```
pub fn decode_into(
    reference: &Reference,
    input: &[u8],
    buffers: Buffers,
) -> Result<BlockSummary, Refusal> {
    let mut answer = [0; SLOTS];
    raw::decode(reference.bases(), reference.bytes(), input, buffers, &mut answer);
    BlockSummary::of(&answer)
}

/// Decodes the block at the start of the input, with the refusals 1 to 21 and 40. What follows the
/// block is not looked at. Nothing is allocated for a block that is refused.
///
/// ```
/// use ora::{decode, encode, Candidate, Reads, Reference};
///
/// let reference = Reference::new(12, &[0x1B, 0x1B, 0xE4])?;
/// let mut reads = Reads::new();
/// reads.push(b"run7:1:96", b"ACTT", Candidate::forward(0));
/// reads.push(b"run7:1:105", b"GATTACA", Candidate::NONE);
/// let block = encode(&reference, &reads, 7, 0)?;
///
/// let decoded = decode(&reference, &block)?;
/// assert_eq!(decoded.iter().collect::<Vec<_>>(), [&b"ACTT"[..], b"GATTACA"]);
/// assert_eq!(decoded.summary().counts.differences, 1);
/// let names = decoded.names().expect("the encoder stores them");
/// assert_eq!(names.iter().collect::<Vec<_>>(), [&b"run7:1:96"[..], b"run7:1:105"]);
/// # Ok::<(), ora::Refusal>(())
/// ```
pub fn decode(reference: &Reference, input: &[u8]) -> Result<Decoded, Refusal> {
    let mut decoded = Decoded::new();
    decoded.decode(reference, input)?;
    Ok(decoded)
}

/// The reads of a decoded block, and their names. It can be used again for another block, which
/// saves allocating.
#[derive(Clone, Debug, Default)]
pub struct Decoded {
    summary: BlockSummary,
    // Whether there are names.
    named: bool,
    // As long as the largest block so far; what belongs to this one is told by its counts, and by
    // the last name end.
    letters: Vec<u8>,
    ends: Vec<u32>,
    names: Vec<u8>,
    name_ends: Vec<u32>,
}

impl Decoded {
    /// No block: no reads, and all counts are 0.
    pub fn new() -> Decoded {
        Decoded::default()
    }

    /// Decodes the block at the start of the input in place of the one before. After a refusal (1
    /// to 21 and 40) that one is still there.
    ///
    /// ```
    /// use ora::{encode, Candidate, Decoded, Reads, Reference};
    ///
    /// let reference = Reference::new(12, &[0x1B, 0x1B, 0xE4])?;
    /// let mut reads = Reads::new();
    /// reads.push(b"7", b"ACTT", Candidate::forward(0));
    /// let block = encode(&reference, &reads, 7, 0)?;
    /// let file = [&block[..], &block[..]].concat();
    ///
    /// let (mut decoded, mut at, mut letters) = (Decoded::new(), 0, 0);
    /// while at < file.len() {
    ///     at += decoded.decode(&reference, &file[at..])?.length;
    ///     letters += decoded.letters().len();
    /// }
    /// assert_eq!(letters, 8);
    /// # Ok::<(), ora::Refusal>(())
    /// ```
    pub fn decode(&mut self, reference: &Reference, input: &[u8]) -> Result<BlockSummary, Refusal> {
        if self.ends.is_empty() {
            self.make_room(reference, input)?;
        }
        let at_once = decode_into(reference, input, self.buffers());
        self.summary = match at_once {
            Err(refusal) if refusal.kind() == Some(RefusalKind::CapacityTooSmall) => {
                self.make_room(reference, input)?;
                decode_into(reference, input, self.buffers())?
            }
            at_once => at_once?,
        };
        self.named = has_names(input);
        Ok(self.summary)
    }

    fn buffers(&mut self) -> Buffers<'_> {
        let Decoded { letters, ends, names, name_ends, .. } = self;
        Buffers { letters, ends, names, name_ends }
    }

    fn make_room(&mut self, reference: &Reference, input: &[u8]) -> Result<(), Refusal> {
        let Counts { reads, letters, .. } = validate_block(reference, input)?.counts;
        grow(&mut self.letters, letters as usize);
        grow(&mut self.ends, reads as usize);
        if has_names(input) {
            grow(&mut self.names, MAX_NAME_LENGTH * reads as usize);
            grow(&mut self.name_ends, reads as usize);
        }
        Ok(())
    }

    /// Length and counts of the block.
    pub fn summary(&self) -> BlockSummary {
        self.summary
    }

    /// The letters of all reads, one read after the other.
    pub fn letters(&self) -> &[u8] {
        &self.letters[..self.summary.counts.letters as usize]
    }

    /// For each read the number of letters up to its end.
    pub fn ends(&self) -> &[u32] {
        &self.ends[..self.len()]
    }

    /// The names of the reads; None where the block has none that are read.
    pub fn names(&self) -> Option<Names<'_>> {
        self.named.then(|| Names::new(&self.names, &self.name_ends[..self.len()]))
    }

    /// The number of reads.
    pub fn len(&self) -> usize {
        self.summary.counts.reads as usize
    }

    /// Whether there are no reads.
    pub fn is_empty(&self) -> bool {
        self.len() == 0
    }

    /// The letters of one read; None where there is no such read.
    pub fn read(&self, index: usize) -> Option<&[u8]> {
        part(&self.letters, self.ends(), index)
    }

    /// The letters of each read, in order.
    pub fn iter(&self) -> impl ExactSizeIterator<Item = &[u8]> + '_ {
        parts(&self.letters, self.ends())
    }
}

/// Makes a buffer as long as it has to be. What it held is lost, and what is not written to takes
/// no memory.
fn grow<T: Clone + Default>(buffer: &mut Vec<T>, length: usize) {
    if buffer.len() < length {
        *buffer = vec![T::default(); length];
    }
}
