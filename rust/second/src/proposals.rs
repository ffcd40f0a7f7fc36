//! Calls of the encoder: random and adversarial candidates, names in several
//! styles, and the faults 1, 30 to 34 and 41. A read is first cut from the
//! reference, then spoiled with differences and N; its candidate may then be
//! wrong in any way. 02, Ticket 2: "proposals keep the lowest index".

use crate::generator::ReferencePlan;
use crate::name_faults::spoil_given_names;
use crate::name_plans::{draw_rows, joined};
use crate::prng::Prng;
use crate::refusal::*;

/// Everything lent to one call of the encoder.
#[derive(Clone, Debug)]
pub struct EncodeCall {
    pub bases: u64,
    pub reference: Vec<u8>,
    pub letters: Vec<u8>,
    pub ends: Vec<u32>,
    pub names: Vec<u8>,
    pub name_ends: Vec<u32>,
    pub positions: Vec<u32>,
    pub strands: Vec<u8>,
    pub lefts: Vec<u8>,
    pub rights: Vec<u8>,
    pub b_id: u64,
    pub c_time: u64,
    pub capacity: usize,
}

/// One read with its candidate.
#[derive(Clone, Debug)]
pub struct Proposal {
    pub letters: Vec<u8>,
    pub position: u32,
    pub strand: u8,
    pub left: u8,
    pub right: u8,
}

/// The numbers that `spoil_call` knows, in the order in which they are given.
pub const CALL_NUMBERS: [u32; 7] = [1, 30, 31, 32, 33, 41, 34];

/// Of several numbers, the one that is told.
pub fn told_first(numbers: &[u32]) -> u32 {
    *CALL_NUMBERS.iter().find(|number| numbers.contains(number)).unwrap()
}

impl EncodeCall {
    /// The names are the reads' indices, 0, 1, 2 and so on.
    pub fn new(
        reference: &ReferencePlan,
        proposals: &[Proposal],
        b_id: u64,
        c_time: u64,
    ) -> EncodeCall {
        let mut call = EncodeCall {
            bases: reference.bases,
            reference: reference.bytes.clone(),
            letters: Vec::new(),
            ends: Vec::new(),
            names: Vec::new(),
            name_ends: Vec::new(),
            positions: Vec::new(),
            strands: Vec::new(),
            lefts: Vec::new(),
            rights: Vec::new(),
            b_id,
            c_time,
            capacity: 0,
        };
        for proposal in proposals {
            call.letters.extend(&proposal.letters);
            call.ends.push(call.letters.len() as u32);
            call.positions.push(proposal.position);
            call.strands.push(proposal.strand);
            call.lefts.push(proposal.left);
            call.rights.push(proposal.right);
        }
        let names: Vec<String> = (0..proposals.len()).map(|read| read.to_string()).collect();
        call.named(&names)
    }

    /// The same call with other names.
    pub fn named<Name: AsRef<[u8]>>(mut self, names: &[Name]) -> EncodeCall {
        self.names.clear();
        self.name_ends.clear();
        for name in names {
            self.names.extend(name.as_ref());
            self.name_ends.push(self.names.len() as u32);
        }
        self.capacity = self.enough();
        self
    }

    /// More bytes than any block of these reads takes. A token has a byte or
    /// more, and takes four bytes or one more than its own; a column takes 17.
    pub fn enough(&self) -> usize {
        let names = 4 + 17 * 255 + 4 * self.names.len();
        200 + self.letters.len() + 300 * self.ends.len() + names
    }

    pub fn run(&self, out: &mut [u8]) -> Outcome {
        crate::encode(
            self.bases,
            &self.reference,
            &self.letters,
            &self.ends,
            &self.names,
            &self.name_ends,
            &self.positions,
            &self.strands,
            &self.lefts,
            &self.rights,
            self.b_id,
            self.c_time,
            out,
        )
    }
}

pub fn random_call(
    rng: &mut Prng,
    reference: &ReferencePlan,
    max_reads: u64,
    max_length: u64,
) -> EncodeCall {
    let reads = if rng.once_in(15) { 0 } else { rng.range(1, max_reads) };
    let one_length = rng.coin().then(|| random_length(rng, max_length));
    let proposals: Vec<Proposal> = (0..reads)
        .map(|_| {
            let length = one_length.unwrap_or_else(|| random_length(rng, max_length));
            random_proposal(rng, reference, length)
        })
        .collect();
    let mut call = EncodeCall::new(reference, &proposals, rng.next_u64(), rng.next_u64());
    let max_name = rng.pick(&[1, 8, 40, 40, 60, 255]);
    (call.names, call.name_ends) = joined(&draw_rows(rng, proposals.len(), max_name));
    call.capacity = call.enough();
    call
}

fn random_length(rng: &mut Prng, max_length: u64) -> u64 {
    let any = rng.range(1, max_length);
    let small = rng.range(1, 40);
    rng.pick(&[any, small, small, 1, 2, 3, 32, 33, 64, 130, 255, 256, 257]).min(max_length)
}

/// A read of `length` letters and a candidate that mostly fits it.
pub fn random_proposal(rng: &mut Prng, reference: &ReferencePlan, length: u64) -> Proposal {
    let (left, right) = random_clips(rng, length);
    let clipped = left as u64 + right as u64;
    let span = length.saturating_sub(clipped);
    let mut letters: Vec<u8> = (0..length).map(|_| rng.pick(b"ACGT")).collect();
    let strand = rng.pick(&[1, 1, 1, 2, 2, 2, 0, 3]);
    let mut position = rng.below(reference.bases + 2);
    if span > 0 && span <= reference.bases {
        let most = reference.bases - span;
        let any = rng.range(0, most);
        position = rng.pick(&[any, any, any, most, 0]);
        let aligned = left as usize..(left as u64 + span) as usize;
        put_stretch(&mut letters[aligned.clone()], reference, position, strand);
        put_differences(rng, &mut letters[aligned]);
    }
    put_n(rng, &mut letters);
    let mut proposal = Proposal { letters, position: position as u32, strand, left, right };
    if rng.once_in(6) {
        spoil_candidate(rng, reference.bases, span, &mut proposal);
    }
    proposal
}

/// Short reads, most of them reverse and clipped, on places near each other or
/// about 65,535 bases apart: steps around both ends of what 2 bytes hold, from
/// and to reverse local records. The reference has a base at least.
pub fn stepping_call(rng: &mut Prng, reference: &ReferencePlan, reads: usize) -> EncodeCall {
    let mut proposals: Vec<Proposal> = Vec::new();
    let mut before = 0;
    for _ in 0..reads {
        let span = rng.range(1, reference.bases.min(9));
        let strand = rng.pick(&[1, 2, 2]);
        let (left, right) = rng.pick(&[(0, 0), (1, 0), (0, 1), (2, 3)]);
        let last = reference.bases - span;
        let near = rng.pick(&[before, before, before + 65_535, 0, last]);
        let off = rng.range(0, 20) as i64 - 10;
        let position = (near as i64 + off).clamp(0, last as i64) as u64;
        let mut letters: Vec<u8> = (0..left + span + right).map(|_| rng.pick(b"ACGT")).collect();
        let aligned = left as usize..(left + span) as usize;
        put_stretch(&mut letters[aligned], reference, position, strand);
        let [left, right] = [left, right].map(|clip| clip as u8);
        proposals.push(Proposal { letters, position: position as u32, strand, left, right });
        before = position;
    }
    EncodeCall::new(reference, &proposals, rng.next_u64(), rng.next_u64())
}

/// The aligned letters of a read, as the reference gives them.
fn put_stretch(aligned: &mut [u8], reference: &ReferencePlan, position: u64, strand: u8) {
    let stretch = &reference.letters[position as usize..][..aligned.len()];
    aligned.copy_from_slice(&if strand == 2 { turned(stretch) } else { stretch.to_vec() });
}

/// None, some, or left+right around the length.
fn random_clips(rng: &mut Prng, length: u64) -> (u8, u8) {
    let wanted = match rng.below(12) {
        0 => rng.range(0, length.min(510)),
        1..=4 => rng.range(1, 9).min(length - 1),
        5 => (length + 1).saturating_sub(rng.range(0, 3)),
        6 => 510,
        _ => 0,
    };
    let clipped = wanted.min(510);
    let left = rng.range(clipped.saturating_sub(255), clipped.min(255));
    (left as u8, (clipped - left) as u8)
}

/// No, one or several differences; gaps around 63 and 126; 31 and 32 of them.
fn put_differences(rng: &mut Prng, aligned: &mut [u8]) {
    let gaps: &[u64] = rng.pick(&[
        [1].as_slice(),
        &[1, 2, 3],
        &[62, 63, 64],
        &[126, 127, 128],
        &[1, 63, 64, 127, 200],
    ]);
    let count = rng.pick(&[0, 0, 1, 1, 2, 5, 30, 31, 32]);
    let mut place = rng.pick(&[0, 1, 62, 63, 64, 126, 127]);
    for _ in 0..count {
        let Some(letter) = aligned.get_mut(place) else { return };
        *letter = other_letter(rng, *letter);
        place += rng.pick(gaps) as usize;
    }
}

fn other_letter(rng: &mut Prng, letter: u8) -> u8 {
    loop {
        let other = rng.pick(b"ACGT");
        if other != letter {
            return other;
        }
    }
}

/// 0, 1, 31, 32 or 33 N.
fn put_n(rng: &mut Prng, letters: &mut [u8]) {
    let count = rng.pick(&[0, 0, 0, 0, 1, 2, 31, 32, 33]).min(letters.len());
    let mut put = 0;
    while put < count {
        let place = rng.below(letters.len() as u64) as usize;
        put += (letters[place] != b'N') as usize;
        letters[place] = b'N';
    }
}

/// A place just past the end, anywhere at all, the highest index for the
/// lowest, any strand byte, any clips.
fn spoil_candidate(rng: &mut Prng, bases: u64, span: u64, proposal: &mut Proposal) {
    let any = rng.next_u64() as u32;
    match rng.below(6) {
        0 => proposal.position = (bases + 1).saturating_sub(span) as u32,
        1 => proposal.position = rng.pick(&[0xFFFF_FFFF, bases as u32, any]),
        2 => proposal.strand = rng.byte(),
        3 => proposal.strand = 3 - proposal.strand.min(3),
        4 => proposal.position += span.max(1) as u32 - 1,
        _ => {
            proposal.left = rng.byte();
            proposal.right = rng.byte();
        }
    }
}

fn turned(letters: &[u8]) -> Vec<u8> {
    let complement =
        |letter: &u8| b"TGCA"[b"ACGT".iter().position(|known| known == letter).unwrap()];
    letters.iter().rev().map(complement).collect()
}

/// Puts a fault of the given number into a call, where there is a place for
/// it. 34 wants the length of the block that the call would make.
pub fn spoil_call(call: &mut EncodeCall, number: u32, block_length: usize, rng: &mut Prng) -> bool {
    match number {
        REFERENCE_SIZE_WRONG => match rng.below(3) {
            0 => call.reference.push(0),
            1 => call.bases += 4,
            _ => call.bases = 1 << 32,
        },
        READ_COUNT_TOO_LARGE => call.ends.resize(50_001, 0),
        CANDIDATE_COUNT_WRONG => return spoil_candidate_count(call, rng),
        READ_ENDS_INVALID => spoil_ends(call, rng),
        LETTER_INVALID => {
            if call.letters.is_empty() {
                return false;
            }
            let place = rng.below(call.letters.len() as u64) as usize;
            call.letters[place] = rng.pick(&[0, b'a', b'n', b'.', b'U', b'@', b'O', 255]);
        }
        BLOCK_CAPACITY_TOO_SMALL => {
            call.capacity = rng.pick(&[0, 1, 120, block_length - 1, block_length - 1]);
        }
        NAMES_INVALID => return spoil_given_names(call, rng).is_some(),
        _ => return false,
    }
    true
}

fn spoil_candidate_count(call: &mut EncodeCall, rng: &mut Prng) -> bool {
    let which = rng.below(4);
    if rng.coin() {
        match which {
            0 => call.positions.push(0),
            1 => call.strands.push(1),
            2 => call.lefts.push(0),
            _ => call.rights.push(0),
        }
        return true;
    }
    match which {
        0 => call.positions.pop().is_some(),
        1 => call.strands.pop().is_some(),
        2 => call.lefts.pop().is_some(),
        _ => call.rights.pop().is_some(),
    }
}

fn spoil_ends(call: &mut EncodeCall, rng: &mut Prng) {
    let reads = call.ends.len();
    if reads == 0 || rng.once_in(4) {
        // The last is not the letters' count.
        call.letters.push(b'A');
        return;
    }
    let read = rng.below(reads as u64) as usize;
    let before = if read == 0 { 0 } else { call.ends[read - 1] };
    call.ends[read] = match rng.below(4) {
        0 => before,
        1 => before.saturating_sub(1),
        2 => before + 100_001,
        _ => 0,
    };
}
