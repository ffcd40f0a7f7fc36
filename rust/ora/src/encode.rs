//! Writing blocks: the reads with their candidates, and the calls.

use crate::raw;
use crate::reference::Reference;
use crate::refusal::Refusal;

/// On which strand of the reference a read lies.
#[derive(Clone, Copy, Debug, PartialEq, Eq, Hash)]
pub enum Strand {
    /// The read is the stretch of the reference as it stands.
    Forward,
    /// The read is the stretch reversed and complemented.
    Reverse,
}

/// The place that an aligner proposes for a read. A wrong one is no reason to refuse: the read is
/// then written without a place.
///
/// ```
/// use ora::{Candidate, Strand};
///
/// let candidate = Candidate::reverse(6).clipped(1, 2);
/// assert_eq!(candidate.strand, Some(Strand::Reverse));
/// assert_eq!((candidate.position, candidate.left, candidate.right), (6, 1, 2));
/// assert_eq!(Candidate::NONE.strand, None);
/// ```
#[derive(Clone, Copy, Debug, PartialEq, Eq, Hash)]
pub struct Candidate {
    /// The lowest reference index of the aligned letters, on either strand, with clips and without.
    /// Of a reverse read with clips the block stores the highest.
    pub position: u32,
    /// The strand; None where no place is proposed.
    pub strand: Option<Strand>,
    /// How many letters of the read, as it is printed, stand before the aligned ones.
    pub left: u8,
    /// How many letters stand after them.
    pub right: u8,
}

impl Candidate {
    /// No place is proposed.
    pub const NONE: Candidate = Candidate { position: 0, strand: None, left: 0, right: 0 };

    /// All letters lie on the forward strand, from this index on.
    pub fn forward(position: u32) -> Candidate {
        Candidate { position, strand: Some(Strand::Forward), ..Candidate::NONE }
    }

    /// All letters lie on the reverse strand; this is their lowest index.
    pub fn reverse(position: u32) -> Candidate {
        Candidate { position, strand: Some(Strand::Reverse), ..Candidate::NONE }
    }

    /// So many letters at either end of the read are not aligned. The position does not move: it is
    /// the lowest index of those that are.
    pub fn clipped(self, left: u8, right: u8) -> Candidate {
        Candidate { left, right, ..self }
    }

    /// The strand as the encoder takes it.
    fn strand_byte(&self) -> u8 {
        match self.strand {
            None => 0,
            Some(Strand::Forward) => 1,
            Some(Strand::Reverse) => 2,
        }
    }
}

/// The reads of a block to be written, each with its name and its candidate. It can be cleared and
/// filled again. Nothing is judged before [`encode`].
///
/// ```
/// use ora::{encode, Candidate, Reads, Reference};
///
/// let reference = Reference::new(12, &[0x1B, 0x1B, 0xE4])?;
/// let mut reads = Reads::new();
/// reads.push(b"run7:1:96", b"ACTT", Candidate::forward(0));
/// reads.push(b"run7:1:105", b"TACGA", Candidate::forward(0).clipped(1, 1));
/// reads.push(b"run7:2:8", b"GATTACA", Candidate::NONE);
/// let block = encode(&reference, &reads, 7, 0)?;
/// assert_eq!(ora::decode(&reference, &block)?.read(1), Some(&b"TACGA"[..]));
/// # Ok::<(), ora::Refusal>(())
/// ```
#[derive(Clone, Debug, Default)]
pub struct Reads {
    letters: Vec<u8>,
    ends: Vec<u32>,
    names: Vec<u8>,
    name_ends: Vec<u32>,
    positions: Vec<u32>,
    strands: Vec<u8>,
    lefts: Vec<u8>,
    rights: Vec<u8>,
}

impl Reads {
    /// No reads.
    pub fn new() -> Reads {
        Reads::default()
    }

    /// Adds a read: its name, 1 to 255 printable ASCII bytes, its letters, A, C, G, T or N in ASCII
    /// capitals, and its candidate. A name is cut into tokens where digits meet other bytes; all
    /// names of a block have the same number of tokens.
    pub fn push(&mut self, name: &[u8], letters: &[u8], candidate: Candidate) {
        self.letters.extend_from_slice(letters);
        // Past 32 bits the last end is not the number of letters, which is refused with 32.
        self.ends.push(self.letters.len() as u32);
        self.names.extend_from_slice(name);
        // So too the last name end, with 41.
        self.name_ends.push(self.names.len() as u32);
        self.positions.push(candidate.position);
        self.strands.push(candidate.strand_byte());
        self.lefts.push(candidate.left);
        self.rights.push(candidate.right);
    }

    /// Removes all reads and keeps what is allocated.
    pub fn clear(&mut self) {
        self.letters.clear();
        self.ends.clear();
        self.names.clear();
        self.name_ends.clear();
        self.positions.clear();
        self.strands.clear();
        self.lefts.clear();
        self.rights.clear();
    }

    /// The number of reads.
    pub fn len(&self) -> usize {
        self.ends.len()
    }

    /// Whether there are no reads.
    pub fn is_empty(&self) -> bool {
        self.ends.is_empty()
    }

    /// The number of letters of all reads.
    pub fn letters(&self) -> usize {
        self.letters.len()
    }

    /// The reads as plain slices.
    pub fn columns(&self) -> Columns<'_> {
        Columns {
            letters: &self.letters,
            ends: &self.ends,
            names: &self.names,
            name_ends: &self.name_ends,
            positions: &self.positions,
            strands: &self.strands,
            lefts: &self.lefts,
            rights: &self.rights,
        }
    }
}

/// The reads of a block to be written, their names and their candidates as plain slices, as the C
/// interface takes them. Each but `letters` and `names` has one element for each read.
#[derive(Clone, Copy, Debug, Default)]
pub struct Columns<'a> {
    /// The letters of all reads, one read after the other.
    pub letters: &'a [u8],
    /// For each read the number of letters up to its end.
    pub ends: &'a [u32],
    /// The names of all reads, one name after the other.
    pub names: &'a [u8],
    /// For each name the number of bytes up to its end.
    pub name_ends: &'a [u32],
    /// The position of each candidate, the lowest reference index of its aligned letters.
    pub positions: &'a [u32],
    /// The strand of each candidate: 1 forward, 2 reverse, any other number for no place.
    pub strands: &'a [u8],
    /// How many letters stand before the aligned ones.
    pub lefts: &'a [u8],
    /// How many letters stand after them.
    pub rights: &'a [u8],
}

impl Columns<'_> {
    /// Room for any block of so many reads, letters and name bytes, in bytes.
    ///
    /// A record takes 1 byte and at most (letters+1)/2, or (letters+3)/4 or 165 and 69 for an N
    /// list; a length takes at most 8; eight reads share 7 bytes; the header takes 121. Names take
    /// 4 bytes, 9 for each token of a name, and for all names' tokens at one place at most 4 and 4
    /// a read, or one more than its bytes for each; there are at most 255 tokens in a name, each of
    /// a byte or more. 121 + 4 + 255 * 13 is 3440. This bound is held by tests and not by proof.
    pub fn room(&self) -> usize {
        3440 + self.letters.len() / 2 + 256 * self.ends.len() + 4 * self.names.len()
    }
}

/// Writes the one block that the fixed rule makes of these reads, with the refusals 30, 32, 33 and
/// 41. `b_id` and `c_time` are stored as they are. The block decodes to these reads and names,
/// whatever the candidates.
pub fn encode(
    reference: &Reference,
    reads: &Reads,
    b_id: u64,
    c_time: u64,
) -> Result<Vec<u8>, Refusal> {
    let columns = reads.columns();
    let mut block = vec![0; columns.room()];
    let length = encode_into(reference, &columns, b_id, c_time, &mut block)?;
    block.truncate(length);
    block.shrink_to_fit();
    Ok(block)
}

/// Writes the block to the start of the caller's buffer, with the refusals 30 to 33, 41 and 34, and
/// answers its length in bytes. What lies past it keeps what it held, and after a refusal all does.
///
/// ```
/// use ora::{encode_into, Columns, Reference};
///
/// let reference = Reference::new(12, &[0x1B, 0x1B, 0xE4])?;
/// let columns = Columns {
///     letters: b"ACTTCAAC",
///     ends: &[4, 8],
///     names: b"read9read10",
///     name_ends: &[5, 11],
///     positions: &[0, 6],
///     strands: &[1, 2],
///     lefts: &[0, 0],
///     rights: &[0, 0],
/// };
/// let mut out = [b'.'; 200];
/// let length = encode_into(&reference, &columns, 7, 0, &mut out)?;
/// assert_eq!((length, out[length]), (173, b'.'));
/// # Ok::<(), ora::Refusal>(())
/// ```
pub fn encode_into(
    reference: &Reference,
    columns: &Columns,
    b_id: u64,
    c_time: u64,
    out: &mut [u8],
) -> Result<usize, Refusal> {
    let mut answer = [0; raw::SLOTS];
    raw::encode(reference.bases(), reference.bytes(), columns, b_id, c_time, out, &mut answer);
    Refusal::check(&answer)?;
    Ok(answer[3] as usize)
}
