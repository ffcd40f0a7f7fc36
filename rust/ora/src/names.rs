//! Names of reads: as a block stores them, and blocks without them.

use crate::blocks::{block_length, section_span, Section};
use std::ops::Range;

/// The byte of a block that holds its lowest eight flags, and those of them that tell of names.
const FLAGS: usize = 42;
const NAMES_NOT_STORED: u8 = 0x4;
const NAMES_STORED: u8 = 0x8;

/// Where a header tells the length of the names section.
const L_NAMES: Range<usize> = 10..14;

/// The names of a decoded block, one for each read.
///
/// ```
/// use ora::{decode, encode, Candidate, Reads, Reference};
///
/// let reference = Reference::new(12, &[0x1B, 0x1B, 0xE4])?;
/// let mut reads = Reads::new();
/// reads.push(b"run7:1:96", b"ACTT", Candidate::forward(0));
/// reads.push(b"run7:1:105", b"GATTACA", Candidate::NONE);
/// let decoded = decode(&reference, &encode(&reference, &reads, 7, 0)?)?;
///
/// let names = decoded.names().expect("the encoder stores them");
/// assert_eq!(names.get(1), Some(&b"run7:1:105"[..]));
/// assert_eq!(names.iter().map(<[u8]>::len).collect::<Vec<_>>(), [9, 10]);
/// assert_eq!((names.bytes().len(), names.ends()), (19, &[9, 19][..]));
/// # Ok::<(), ora::Refusal>(())
/// ```
#[derive(Clone, Copy, Debug, PartialEq, Eq)]
pub struct Names<'a> {
    bytes: &'a [u8],
    ends: &'a [u32],
}

impl<'a> Names<'a> {
    /// The names that end at these places; what lies past the last is not theirs.
    pub(crate) fn new(bytes: &'a [u8], ends: &'a [u32]) -> Names<'a> {
        let length = ends.last().map_or(0, |&end| end as usize);
        Names { bytes: &bytes[..length], ends }
    }

    /// The bytes of all names, one name after the other.
    pub fn bytes(&self) -> &'a [u8] {
        self.bytes
    }

    /// For each name the number of bytes up to its end.
    pub fn ends(&self) -> &'a [u32] {
        self.ends
    }

    /// The number of names, which is that of the reads.
    pub fn len(&self) -> usize {
        self.ends.len()
    }

    /// Whether there are no reads, and so no names.
    pub fn is_empty(&self) -> bool {
        self.ends.is_empty()
    }

    /// The name of one read; None where there is no such read.
    pub fn get(&self, index: usize) -> Option<&'a [u8]> {
        part(self.bytes, self.ends, index)
    }

    /// The name of each read, in order.
    pub fn iter(&self) -> impl ExactSizeIterator<Item = &'a [u8]> + 'a {
        parts(self.bytes, self.ends)
    }
}

/// Of parts that stand one after the other and end at these places, the one at an index.
pub(crate) fn part<'a>(bytes: &'a [u8], ends: &[u32], index: usize) -> Option<&'a [u8]> {
    let end = *ends.get(index)? as usize;
    let start = if index == 0 { 0 } else { ends[index - 1] as usize };
    Some(&bytes[start..end])
}

/// All of them.
pub(crate) fn parts<'a>(
    bytes: &'a [u8],
    ends: &'a [u32],
) -> impl ExactSizeIterator<Item = &'a [u8]> + 'a {
    let mut start = 0;
    ends.iter().map(move |&end| {
        let part = &bytes[start..end as usize];
        start = end as usize;
        part
    })
}

/// Whether the block at the start of the input stores names that decoding reads: flag 0x8 of its
/// header. False where the header is refused with 2 to 8; no other refusal plays a part.
pub fn has_names(input: &[u8]) -> bool {
    block_length(input).is_ok() && input[FLAGS] & NAMES_STORED != 0
}

/// The block at the start of the input without its names: flag 0x8 is cleared and 0x4 set, l_names
/// is 0 and the names section is left out. All else is as it was, and so are the letters. What
/// follows the block is left out too. An input whose header is refused with 2 to 8 comes back as it
/// is.
///
/// The encoder takes a name for each read, with as many tokens in each. Where there are none such,
/// any names will do, if they are dropped afterwards. This is plain Rust, held by tests and not by
/// proof.
///
/// ```
/// use ora::{decode, encode, without_names, Candidate, Reads, Reference};
///
/// let reference = Reference::new(12, &[0x1B, 0x1B, 0xE4])?;
/// let mut reads = Reads::new();
/// reads.push(b"0", b"ACTT", Candidate::forward(0));
/// let block = encode(&reference, &reads, 7, 0)?;
/// let unnamed = without_names(&block);
/// assert_eq!((block.len(), unnamed.len()), (151, 130));
///
/// let decoded = decode(&reference, &unnamed)?;
/// assert_eq!((decoded.letters(), decoded.names()), (&b"ACTT"[..], None));
/// # Ok::<(), ora::Refusal>(())
/// ```
pub fn without_names(input: &[u8]) -> Vec<u8> {
    let Ok(length) = block_length(input) else { return input.to_vec() };
    let names = section_span(input, Section::Names);
    let mut block = [&input[..names.start], &input[names.end..length]].concat();
    block[FLAGS] = block[FLAGS] & !NAMES_STORED | NAMES_NOT_STORED;
    block[L_NAMES].fill(0);
    block
}
