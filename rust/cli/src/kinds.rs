//! How reads are stored, by kind. The library is asked about each read by itself, as it does not
//! tell of a whole block.

use ora::{encode_into, validate_block, Columns, Reads, Reference, Refusal};

/// A read with more N is stored raw4, with a place or without.
const MAX_N: usize = 31;

/// How many reads are stored in which way; raw4 counts as raw.
#[derive(Clone, Copy, Debug, Default, PartialEq, Eq)]
pub struct Kinds {
    pub perfect: u64,
    pub global: u64,
    pub local: u64,
    pub raw: u64,
    /// Of the raw ones, without raw4, those whose place fits but takes more than 31 entries.
    pub too_many_entries: u64,
}

impl Kinds {
    /// Adds others.
    pub fn add(&mut self, other: &Kinds) {
        self.perfect += other.perfect;
        self.global += other.global;
        self.local += other.local;
        self.raw += other.raw;
        self.too_many_entries += other.too_many_entries;
    }

    /// The kinds of these reads; their names make no difference.
    pub fn of(reference: &Reference, reads: &Reads) -> Result<Kinds, Refusal> {
        let (mut kinds, mut start) = (Kinds::default(), 0);
        let all = reads.columns();
        for (read, &end) in all.ends.iter().enumerate() {
            let one = Columns {
                letters: &all.letters[start..end as usize],
                ends: &[end - start as u32],
                names: b"0",
                name_ends: &[1],
                positions: &all.positions[read..read + 1],
                strands: &all.strands[read..read + 1],
                lefts: &all.lefts[read..read + 1],
                rights: &all.rights[read..read + 1],
            };
            start = end as usize;
            kinds.count(reference, &one)?;
        }
        Ok(kinds)
    }

    /// Counts one read. A place that is not used makes no difference to the block. One that is used
    /// makes a local record with clips, and without them a perfect one, or a global one if there are
    /// entries.
    fn count(&mut self, reference: &Reference, one: &Columns) -> Result<(), Refusal> {
        let unplaced = Columns { strands: &[0], ..*one };
        if one.strands == unplaced.strands {
            self.raw += 1;
            return Ok(());
        }
        let block = encode_one(reference, one)?;
        if block == encode_one(reference, &unplaced)? {
            self.raw += 1;
            self.too_many_entries += u64::from(!is_raw4(one) && fits(reference, one));
        } else if one.lefts[0] > 0 || one.rights[0] > 0 {
            self.local += 1;
        } else if validate_block(reference, &block)?.counts.entries > 0 {
            self.global += 1;
        } else {
            self.perfect += 1;
        }
        Ok(())
    }
}

fn is_raw4(one: &Columns) -> bool {
    one.letters.iter().filter(|&&letter| letter == b'N').count() > MAX_N
}

/// Whether a place has an aligned letter and lies inside the reference; then the number of entries
/// alone decides whether it is used.
fn fits(reference: &Reference, one: &Columns) -> bool {
    let clipped = usize::from(one.lefts[0]) + usize::from(one.rights[0]);
    let aligned = one.letters.len().saturating_sub(clipped) as u64;
    aligned > 0 && u64::from(one.positions[0]) + aligned <= reference.bases()
}

fn encode_one(reference: &Reference, one: &Columns) -> Result<Vec<u8>, Refusal> {
    let mut block = vec![0; one.room()];
    let length = encode_into(reference, one, 0, 0, &mut block)?;
    block.truncate(length);
    Ok(block)
}

#[cfg(test)]
mod tests {
    use super::*;
    use ora::Candidate;

    #[test]
    fn each_kind_is_counted() {
        // ACGTACGTTGCA
        let reference = Reference::new(12, &[0x1B, 0x1B, 0xE4]).unwrap();
        let mut reads = Reads::new();
        let mut push = |letters: &[u8], candidate| reads.push(b"", letters, candidate);
        push(b"ACGT", Candidate::forward(4));
        push(b"CAAC", Candidate::reverse(6));
        push(b"ANGN", Candidate::forward(0));
        push(b"ACTT", Candidate::forward(0));
        push(b"TACGA", Candidate::forward(0).clipped(1, 1));
        push(b"TAACN", Candidate::reverse(6).clipped(1, 1));
        push(b"ACGT", Candidate::NONE);
        push(b"ACGT", Candidate::forward(9));
        push(b"ACGT", Candidate::forward(4).clipped(2, 2));
        push(&[b'N'; 32], Candidate::NONE);
        let kinds = Kinds::of(&reference, &reads).unwrap();
        let expected = Kinds { perfect: 3, global: 1, local: 2, raw: 4, too_many_entries: 0 };
        assert_eq!(kinds, expected);
    }

    /// The letters of ACGT, 50 times, of which the first differ.
    fn differing(count: usize) -> Vec<u8> {
        (0..200).map(|place| b"ACGT"[(place + usize::from(place < count)) % 4]).collect()
    }

    #[test]
    fn more_than_31_entries() {
        let reference = Reference::new(200, &[0x1B; 50]).unwrap();
        let of = |letters: &[u8], candidate: Candidate| {
            let mut reads = Reads::new();
            reads.push(b"", letters, candidate);
            Kinds::of(&reference, &reads).unwrap()
        };
        let raw = Kinds { raw: 1, ..Kinds::default() };
        let too_many = Kinds { too_many_entries: 1, ..raw };
        let at_0 = Candidate::forward(0);
        assert_eq!(of(&differing(31), at_0), Kinds { global: 1, ..Kinds::default() });
        assert_eq!(of(&differing(32), at_0), too_many);
        assert_eq!(of(&differing(40), at_0), too_many);
        assert_eq!(of(&differing(40), Candidate::NONE), raw);
        // Letters under an N are not compared.
        let mut with_n = differing(40);
        with_n[..9].fill(b'N');
        assert_eq!(of(&with_n, at_0), Kinds { global: 1, ..Kinds::default() });
        with_n[..9].copy_from_slice(&differing(40)[..9]);
        with_n[100..131].fill(b'N');
        assert_eq!(of(&with_n, at_0), too_many);
        with_n[131] = b'N';
        assert_eq!(of(&with_n, at_0), raw);
        // Clips are not compared either.
        assert_eq!(of(&differing(40), at_0.clipped(9, 0)), too_many);
        let clipped = Candidate::forward(9).clipped(9, 0);
        assert_eq!(of(&differing(40), clipped), Kinds { local: 1, ..Kinds::default() });
        assert_eq!(of(&differing(41), clipped), too_many);
        // Places that do not fit, however many entries they would take.
        assert_eq!(of(&differing(40), Candidate::forward(1)), raw);
        assert_eq!(of(&differing(40)[..20], at_0.clipped(20, 0)), raw);
    }
}
