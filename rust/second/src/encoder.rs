//! 01, "The writer's fixed rule". "Writer: 1, 30 to 34." 02, Ticket 1, adds 41
//! "after 33" and the names; Ticket 2 the stored position of a reverse local
//! read. The block is built aside and copied out last, so a refusal leaves the
//! buffer as it was.

use crate::header::*;
use crate::lengths::{write_words, MAX_LENGTH};
use crate::letters::{code_of, pack, N_CODE};
use crate::name_writer::{check_names, write_names};
use crate::records::MAX_ENTRIES;
use crate::reference::{Reference, Strand};
use crate::refusal::*;

const MAX_N: usize = 31;
const MAX_STEP: u64 = 63;
const VERSION: u16 = 20505;
const Q_TYPE: u8 = 40;

/// Writes a block. The answer is the block's length.
#[allow(clippy::too_many_arguments)]
pub fn encode(
    reference_bases: u64,
    reference: &[u8],
    letters: &[u8],
    ends: &[u32],
    names: &[u8],
    name_ends: &[u32],
    positions: &[u32],
    strands: &[u8],
    lefts: &[u8],
    rights: &[u8],
    b_id: u64,
    c_time: u64,
    out: &mut [u8],
) -> Outcome {
    let mut write = || {
        let reference = Reference::new(reference_bases, reference)?;
        check_counts(ends, [positions.len(), strands.len(), lefts.len(), rights.len()])?;
        check_ends(ends, letters.len())?;
        let codes = check_letters(letters)?;
        let names = write_names(&check_names(names, name_ends, ends.len())?);
        let reads = cut(&codes, ends);
        let candidate = |read: usize| Candidate {
            position: positions[read] as u64,
            strand: strands[read],
            left: lefts[read] as u64,
            right: rights[read] as u64,
        };
        let block = write_block(&reference, &reads, candidate, names, b_id, c_time);
        // 34: "block longer than the buffer".
        if block.len() > out.len() {
            return Err(Refusal::of_block(BLOCK_CAPACITY_TOO_SMALL));
        }
        out[..block.len()].copy_from_slice(&block);
        Ok(Outcome { length: block.len() as u64, ..Outcome::default() })
    };
    write().unwrap_or_else(|refusal: Refusal| refusal.into())
}

/// 30: "reads above 50,000"; 31: "the four proposal buffers aren't one per
/// read".
fn check_counts(ends: &[u32], candidates: [usize; 4]) -> Result<(), Refusal> {
    if ends.len() as u64 > MAX_READS {
        return Err(Refusal::of_block(READ_COUNT_TOO_LARGE));
    }
    if candidates.iter().any(|&count| count != ends.len()) {
        return Err(Refusal::of_block(CANDIDATE_COUNT_WRONG));
    }
    Ok(())
}

/// 32: "ends not rising from 0 by 1 to 100,000, or the last not the letters'
/// count (0 if no reads)".
fn check_ends(ends: &[u32], letters: usize) -> Result<(), Refusal> {
    let mut before = 0;
    for &end in ends {
        let end = end as u64;
        if end < before + 1 || end > before + MAX_LENGTH {
            return Err(Refusal::of_block(READ_ENDS_INVALID));
        }
        before = end;
    }
    if before != letters as u64 {
        return Err(Refusal::of_block(READ_ENDS_INVALID));
    }
    Ok(())
}

/// 33: "a letter not A, C, G, T, N".
fn check_letters(letters: &[u8]) -> Result<Vec<u8>, Refusal> {
    let codes: Option<Vec<u8>> = letters.iter().map(|&letter| code_of(letter)).collect();
    codes.ok_or(Refusal::of_block(LETTER_INVALID))
}

fn cut<'a>(codes: &'a [u8], ends: &[u32]) -> Vec<&'a [u8]> {
    let mut start = 0;
    let mut reads = Vec::new();
    for &end in ends {
        reads.push(&codes[start..end as usize]);
        start = end as usize;
    }
    reads
}

/// What the mapper proposes for one read. 02, Ticket 2: "proposals keep the
/// lowest index", on both strands.
#[derive(Clone, Copy)]
struct Candidate {
    position: u64,
    strand: u8,
    left: u64,
    right: u64,
}

/// What the fixed rule makes of a read and its candidate.
enum Choice {
    Placed { strand: Strand, entries: Vec<u8> },
    Raw,
    Raw4,
}

/// "More than 31 N: raw4. Otherwise the place is used exactly if strand is 1
/// or 2, left+right is below the length, the stretch is inside, and at most
/// 31 entries suffice; if not, raw."
fn choose(reference: &Reference, read: &[u8], candidate: Candidate) -> Choice {
    if n_positions(read).len() > MAX_N {
        return Choice::Raw4;
    }
    let strand = match candidate.strand {
        1 => Strand::Forward,
        2 => Strand::Reverse,
        _ => return Choice::Raw,
    };
    let length = read.len() as u64;
    if candidate.left + candidate.right >= length {
        return Choice::Raw;
    }
    let reference_span = length - candidate.left - candidate.right;
    if !reference.holds(candidate.position, reference_span) {
        return Choice::Raw;
    }
    let given = reference.stretch(candidate.position, reference_span, strand);
    let first = candidate.left as usize;
    let aligned = &read[first..first + given.len()];
    match mismatch_entries(aligned, &given) {
        entries if entries.len() > MAX_ENTRIES => Choice::Raw,
        entries => Choice::Placed { strand, entries },
    }
}

/// "Letters under N aren't compared". "A gap of d above 63 gets fillers at
/// steps of 63 until 63 or less remains." The first gap counts from the first
/// aligned letter.
fn mismatch_entries(aligned: &[u8], given: &[u8]) -> Vec<u8> {
    let mut entries = Vec::new();
    let mut before = 0;
    for place in 0..aligned.len() as u64 {
        let letter = aligned[place as usize];
        if letter == N_CODE || letter == given[place as usize] {
            continue;
        }
        while place - before > MAX_STEP {
            before += MAX_STEP;
            entries.push(entry(MAX_STEP, given[before as usize]));
        }
        entries.push(entry(place - before, letter));
        before = place;
    }
    entries
}

/// "6 bits of offset ...; 2 bits of letter".
fn entry(offset: u64, code: u8) -> u8 {
    (offset as u8) << 2 | code
}

fn n_positions(read: &[u8]) -> Vec<u32> {
    (0..read.len() as u32).filter(|&place| read[place as usize] == N_CODE).collect()
}

/// The DNA section, and the with-N byte of each group, which is the N section.
struct Dna {
    bytes: Vec<u8>,
    n_section: Vec<u8>,
}

fn write_dna(
    reference: &Reference,
    reads: &[&[u8]],
    candidate: impl Fn(usize) -> Candidate,
) -> Dna {
    let mut dna = Dna { bytes: Vec::new(), n_section: Vec::new() };
    let mut previous = 0;
    for (group, group_reads) in reads.chunks(8).enumerate() {
        let mut group_bytes = [0u8; 4];
        let mut records = Vec::new();
        for (index, read) in group_reads.iter().enumerate() {
            let proposed = candidate(8 * group + index);
            let bits = write_record(reference, read, proposed, &mut previous, &mut records);
            for (byte, set) in group_bytes.iter_mut().zip(bits) {
                *byte |= (set as u8) << (7 - index);
            }
        }
        dna.bytes.extend(group_bytes);
        dna.bytes.extend(records);
        dna.n_section.push(group_bytes[2]);
    }
    dna
}

/// Writes one record; answers its bits of Perfect, Forward, with-N, pos_t.
fn write_record(
    reference: &Reference,
    read: &[u8],
    candidate: Candidate,
    previous: &mut u64,
    out: &mut Vec<u8>,
) -> [bool; 4] {
    let n_positions = n_positions(read);
    let with_n = !n_positions.is_empty();
    let (strand, entries) = match choose(reference, read, candidate) {
        Choice::Raw4 => {
            out.push(0b001);
            out.extend(pack(read, 4));
            return [false, false, with_n, false];
        }
        Choice::Raw => {
            out.push(0b010);
            out.extend(pack(&n_as_a(read), 2));
            write_n_list(&n_positions, out);
            return [false, false, with_n, false];
        }
        Choice::Placed { strand, entries } => (strand, entries),
    };
    // "With no ends: perfect without differences, else global; with ends:
    // local."
    let clipped = candidate.left + candidate.right > 0;
    let perfect = !clipped && entries.is_empty();
    if !perfect {
        let global_bit = if clipped { 0 } else { 0b100 };
        out.push((entries.len() as u8) << 3 | global_bit);
    }
    let position = stored_position(candidate, strand, read.len() as u64);
    let pos_t = write_position(position, previous, out);
    out.extend(entries);
    if clipped {
        out.push(candidate.left as u8);
        out.push(candidate.right as u8);
        let (left, right) = (candidate.left as usize, candidate.right as usize);
        let end_codes = [&read[..left], &read[read.len() - right..]].concat();
        out.extend(pack(&n_as_a(&end_codes), 2));
    }
    write_n_list(&n_positions, out);
    [perfect, strand == Strand::Forward, with_n, pos_t]
}

/// 02, Ticket 2: "a reverse local stretch ends at the position and runs down",
/// so its highest index is stored; every other record stores the lowest. The
/// place is one that is used: left+right is below the length.
fn stored_position(candidate: Candidate, strand: Strand, length: u64) -> u64 {
    let clipped = candidate.left + candidate.right;
    if clipped > 0 && strand == Strand::Reverse {
        let reference_span = length - clipped;
        candidate.position + reference_span - 1
    } else {
        candidate.position
    }
}

/// "pos_t is set exactly where the step is 0 to 65,535." 02, Ticket 2: "Steps
/// use the stored position".
fn write_position(position: u64, previous: &mut u64, out: &mut Vec<u8>) -> bool {
    let step = position.checked_sub(*previous).and_then(|step| u16::try_from(step).ok());
    *previous = position;
    match step {
        Some(position_delta) => out.extend(position_delta.to_le_bytes()),
        None => out.extend((position as u32).to_le_bytes()),
    }
    step.is_some()
}

/// Letters under N "are stored as A where packed".
fn n_as_a(codes: &[u8]) -> Vec<u8> {
    codes.iter().map(|&code| if code == N_CODE { 0 } else { code }).collect()
}

/// The count byte, then each offset "from the one before (the first from 0)".
fn write_n_list(n_positions: &[u32], out: &mut Vec<u8>) {
    if n_positions.is_empty() {
        return;
    }
    out.push(n_positions.len() as u8);
    let mut before = 0;
    for &place in n_positions {
        write_words(place - before, out);
        before = place;
    }
}

/// "Same bit before byte-size bit before words".
fn write_sizes(lengths: &[u32]) -> Vec<u8> {
    let mut out = Vec::new();
    let mut before = None;
    for group in lengths.chunks(8) {
        let (mut same, mut byte_size) = (0u8, 0u8);
        let mut sizes = Vec::new();
        for (index, &length) in group.iter().enumerate() {
            let bit = 0x80 >> index;
            if before == Some(length) {
                same |= bit;
            } else if length < 256 {
                byte_size |= bit;
                sizes.push(length as u8);
            } else {
                write_words(length, &mut sizes);
            }
            before = Some(length);
        }
        out.extend([same, byte_size]);
        out.extend(sizes);
    }
    out
}

/// "Header 121 bytes, version 20505, q_type 40, flag 0x4; b_id and c_time are
/// given; what reading checks gets its right number; the rest is 0 or empty."
/// 02, Ticket 1: "The writer sets 0x8 for 0x4".
fn write_block(
    reference: &Reference,
    reads: &[&[u8]],
    candidate: impl Fn(usize) -> Candidate,
    names: Vec<u8>,
    b_id: u64,
    c_time: u64,
) -> Vec<u8> {
    let dna = write_dna(reference, reads, candidate);
    let lengths: Vec<u32> = reads.iter().map(|read| read.len() as u32).collect();
    let letters: u32 = lengths.iter().sum();
    // "0x1 set exactly if there is a read and all are equal."
    let all_equal = !lengths.is_empty() && lengths.iter().all(|&length| length == lengths[0]);
    let (flags, l_read, sizes) = if all_equal {
        (NAMES_TOKENIZED | SAME_LENGTH, lengths[0], Vec::new())
    } else {
        (NAMES_TOKENIZED, 0, write_sizes(&lengths))
    };
    let mut sections: [Vec<u8>; SECTIONS] = Default::default();
    sections[DNA as usize] = dna.bytes;
    sections[NAMES as usize] = names;
    sections[SIZE as usize] = sizes;
    sections[N as usize] = dna.n_section;

    let mut block = vec![0; HEADER_BYTES];
    let mut put = |at: usize, bytes: &[u8]| block[at..at + bytes.len()].copy_from_slice(bytes);
    put(0, &MAGIC);
    put(2, &(HEADER_BYTES as u32).to_le_bytes());
    for (number, section) in sections.iter().enumerate() {
        put(6 + 4 * number, &(section.len() as u32).to_le_bytes());
    }
    put(42, &flags.to_le_bytes());
    put(46, &l_read.to_le_bytes());
    put(50, &(reads.len() as u32).to_le_bytes());
    put(54, &VERSION.to_le_bytes());
    put(56, &b_id.to_le_bytes());
    put(64, &[Q_TYPE]);
    put(73, &letters.to_le_bytes());
    put(89, &c_time.to_le_bytes());
    block.extend(sections.concat());
    block
}
