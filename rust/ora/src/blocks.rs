//! Blocks as parts of a file: what their headers tell without a reference.

use crate::raw::{self, SLOTS};
use crate::read::{decode, validate_block, BlockSummary, Decoded};
use crate::reference::Reference;
use crate::refusal::Refusal;
use std::ops::Range;

/// The nine sections that follow a header, in their order.
#[derive(Clone, Copy, Debug, PartialEq, Eq, PartialOrd, Ord, Hash)]
pub enum Section {
    /// Groups and records.
    Dna,
    /// Names; carried unread without flag 0x8.
    Names,
    /// Quality scores of reads with N; carried unread.
    QualN,
    /// Quality scores of the other reads; carried unread.
    Qual,
    /// The lengths of the reads, where they are not all equal.
    Size,
    /// One bit a read: whether it holds an N.
    N,
    /// Carried unread.
    M1,
    /// Carried unread.
    M2,
    /// Carried unread.
    M3,
}

impl Section {
    /// All sections, in order.
    pub const ALL: [Section; 9] = [
        Section::Dna,
        Section::Names,
        Section::QualN,
        Section::Qual,
        Section::Size,
        Section::N,
        Section::M1,
        Section::M2,
        Section::M3,
    ];

    /// The number by which the C interface knows it, 0 to 8.
    pub fn number(self) -> u64 {
        self as u64
    }
}

/// Where a section of the block at the start of the input stands, in bytes. It is 0..0 where the
/// section is empty or the header is refused with 2 to 8; no other refusal plays a part.
pub fn section_span(input: &[u8], section: Section) -> Range<usize> {
    let mut answer = [0; SLOTS];
    raw::section(input, section.number(), &mut answer);
    let [_, _, _, offset, length, ..] = answer;
    offset as usize..(offset + length) as usize
}

/// A section of the block at the start of the input: the very part of the input that holds it.
/// Empty where [`section_span`] is.
///
/// ```
/// use ora::{encode, section, Candidate, Reads, Reference, Section};
///
/// let reference = Reference::new(12, &[0x1B, 0x1B, 0xE4])?;
/// let mut reads = Reads::new();
/// reads.push(b"7", b"ACTT", Candidate::forward(0));
/// let block = encode(&reference, &reads, 7, 0)?;
/// assert_eq!(section(&block, Section::Dna), [0, 0x80, 0, 0x80, 0x0C, 0, 0, 0x0B]);
/// assert_eq!(section(&block, Section::Size), []);
/// # Ok::<(), ora::Refusal>(())
/// ```
pub fn section(input: &[u8], section: Section) -> &[u8] {
    &input[section_span(input, section)]
}

/// The b_id of the block at the start of the input; 0 where the header is refused with 2 to 8.
pub fn block_id(input: &[u8]) -> u64 {
    raw::block_id(input)
}

/// The length in bytes of the block at the start of the input, which its header tells. Refused with
/// 2 to 8; no other refusal plays a part, and no reference is needed.
pub fn block_length(input: &[u8]) -> Result<usize, Refusal> {
    match raw::block_length(input) {
        0 => Err(header_refusal(input)),
        length => Ok(length as usize),
    }
}

/// Why the header of the block at the start of the input is refused: the first refusal of a block
/// that is judged, under any reference that is none itself.
fn header_refusal(input: &[u8]) -> Refusal {
    let judged = Reference::new(0, &[]).and_then(|no_bases| validate_block(&no_bases, input));
    judged.expect_err("a block without a length is refused")
}

/// The blocks of a file, one after the other, each ending where its header says. No reference is
/// needed and nothing but the headers is judged. The first header that is refused (2 to 8) gives
/// its refusal, with the index of the block, and ends the walk.
///
/// The blocks can be judged or decoded in any order, and by several threads at once.
///
/// ```
/// use ora::{blocks, encode, Candidate, Reads, Reference};
///
/// let reference = Reference::new(12, &[0x1B, 0x1B, 0xE4])?;
/// let mut reads = Reads::new();
/// reads.push(b"7", b"ACTT", Candidate::forward(0));
/// let file = [encode(&reference, &reads, 7, 0)?, encode(&reference, &reads, 8, 0)?].concat();
///
/// let parts = blocks(&file).collect::<Result<Vec<_>, _>>()?;
/// assert_eq!(parts.iter().map(|block| block.id()).collect::<Vec<_>>(), [7, 8]);
/// assert_eq!(parts[1].offset, 151);
///
/// let decoded = std::thread::scope(|scope| {
///     let threads: Vec<_> = (parts.iter())
///         .map(|block| scope.spawn(move || block.decode(&reference)))
///         .collect();
///     threads.into_iter().map(|thread| thread.join().unwrap()).collect::<Result<Vec<_>, _>>()
/// })?;
/// assert_eq!(decoded[1].letters(), b"ACTT");
/// # Ok::<(), ora::Refusal>(())
/// ```
pub fn blocks(file: &[u8]) -> Blocks<'_> {
    Blocks { file, offset: 0, index: 0 }
}

/// The iterator that [`blocks`] gives.
#[derive(Clone, Debug)]
pub struct Blocks<'a> {
    file: &'a [u8],
    // At the file's end, or after a refusal, there is no next block.
    offset: usize,
    index: u64,
}

impl<'a> Iterator for Blocks<'a> {
    type Item = Result<Block<'a>, Refusal>;

    fn next(&mut self) -> Option<Self::Item> {
        let (offset, index) = (self.offset, self.index);
        let rest = &self.file[offset..];
        if rest.is_empty() {
            return None;
        }
        self.index += 1;
        match block_length(rest) {
            Ok(length) => {
                self.offset += length;
                Some(Ok(Block { index, offset, bytes: &rest[..length] }))
            }
            Err(refusal) => {
                self.offset = self.file.len();
                Some(Err(Refusal { block: index, ..refusal }))
            }
        }
    }
}

impl std::iter::FusedIterator for Blocks<'_> {}

/// A block of a file, as [`blocks`] finds it. Of its bytes only the header is known to be right.
#[derive(Clone, Copy, Debug, PartialEq, Eq)]
pub struct Block<'a> {
    /// Its index in the file.
    pub index: u64,
    /// Where it begins in the file, in bytes.
    pub offset: usize,
    /// Its bytes, from the header to the end of its last section.
    pub bytes: &'a [u8],
}

impl<'a> Block<'a> {
    /// Its b_id.
    pub fn id(&self) -> u64 {
        block_id(self.bytes)
    }

    /// One of its sections.
    pub fn section(&self, number: Section) -> &'a [u8] {
        section(self.bytes, number)
    }

    /// Judges it, with the refusals 1 to 21 and 40; a refusal has its index.
    pub fn validate(&self, reference: &Reference) -> Result<BlockSummary, Refusal> {
        validate_block(reference, self.bytes).map_err(|refusal| self.refused(refusal))
    }

    /// Decodes it, with the refusals 1 to 21 and 40; a refusal has its index.
    pub fn decode(&self, reference: &Reference) -> Result<Decoded, Refusal> {
        decode(reference, self.bytes).map_err(|refusal| self.refused(refusal))
    }

    fn refused(&self, refusal: Refusal) -> Refusal {
        Refusal { block: self.index, ..refusal }
    }
}
