//! The reference under which blocks are read and written.

use crate::raw;
use crate::refusal::Refusal;

/// A reference: so many bases, packed four to a byte, the first in the highest bits; A, C, G, T are
/// 0, 1, 2, 3. Bits past the last base are ignored.
///
/// ```
/// use ora::Reference;
///
/// // ACGT, ACGT, TGCA
/// let reference = Reference::new(12, &[0x1B, 0x1B, 0xE4])?;
/// assert_eq!(reference.bases(), 12);
/// assert!(Reference::new(9, &[0x1B, 0x1B, 0xE4]).is_ok());
/// assert_eq!(Reference::new(13, &[0x1B, 0x1B, 0xE4]).unwrap_err().number, 1);
/// # Ok::<(), ora::Refusal>(())
/// ```
#[derive(Clone, Copy, Debug, PartialEq, Eq)]
pub struct Reference<'a> {
    bases: u64,
    bytes: &'a [u8],
}

impl<'a> Reference<'a> {
    /// A reference of `bases` bases in exactly (bases+3)/4 bytes. Refused with 1 if there are more
    /// or fewer bytes, or more than [`MAX_BASES`](crate::MAX_BASES) bases.
    pub fn new(bases: u64, bytes: &'a [u8]) -> Result<Reference<'a>, Refusal> {
        let mut answer = [0; raw::SLOTS];
        // The empty file is accepted exactly if the reference is.
        raw::validate(bases, bytes, &[], &mut answer);
        Refusal::check(&answer)?;
        Ok(Reference { bases, bytes })
    }

    /// A reference as the listing program's files hold it: the number of bases in 8 bytes, the
    /// lowest first, and then the packed bases. Refused with 1 also where the 8 bytes are missing.
    pub fn from_file(file: &'a [u8]) -> Result<Reference<'a>, Refusal> {
        match file.split_first_chunk() {
            Some((bases, bytes)) => Reference::new(u64::from_le_bytes(*bases), bytes),
            // No byte holds a base.
            None => Reference::new(1, &[]),
        }
    }

    /// The number of bases.
    pub fn bases(&self) -> u64 {
        self.bases
    }

    /// The packed bases.
    pub fn bytes(&self) -> &'a [u8] {
        self.bytes
    }
}
