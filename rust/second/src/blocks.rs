//! 01, "Records" and "Numbers of refusal": a whole block. "Smallest step
//! first: 1 to 11, then DNA group by group, then 21, 22." 02, Ticket 1, adds 40
//! "after 21, before 22". "Reading takes the block at its input's start; what
//! follows the bodies isn't part of it."

use crate::header::{Header, DNA, N, NAMES, SIZE};
use crate::lengths::{bit, bits_past, read_lengths};
use crate::names::read_names;
use crate::records::{read_record, Bits, Cursor, Record};
use crate::reference::Reference;
use crate::refusal::*;

/// A block that earns none of 2 to 21 and 40.
pub struct Block {
    pub length: u64,
    pub records: Vec<Record>,
    /// One a read; none where they stay unread.
    pub names: Vec<Vec<u8>>,
}

/// Numbers 2 to 21 and 40.
pub fn read_block(reference: &Reference, input: &[u8]) -> Result<Block, Refusal> {
    let header = Header::read(input)?;
    let lengths = read_lengths(&header, header.section(input, SIZE))?;

    // 11: "N body not (n_reads+7)/8 rounded down".
    let n_section = header.section(input, N);
    if n_section.len() as u64 != (header.reads + 7) / 8 {
        return Err(Refusal::of_block(N_SECTION_WRONG));
    }
    let mut dna = Cursor::new(header.section(input, DNA));
    let records = read_groups(&mut dna, reference, &lengths, n_section)?;

    // 21: "DNA bytes left over".
    if !dna.at_end() {
        return Err(Refusal::of_block(DNA_TRAILING));
    }
    // 40; "without 0x8 names stay unread".
    let names = match header.names_stored() {
        true => read_names(header.section(input, NAMES), records.len())?,
        false => Vec::new(),
    };
    Ok(Block { length: header.block_length(), records, names })
}

/// "Groups of 8, the last of 1 to 8: bytes Perfect, Forward, with-N, pos_t;
/// then a record a read."
fn read_groups(
    dna: &mut Cursor,
    reference: &Reference,
    lengths: &[u32],
    n_section: &[u8],
) -> Result<Vec<Record>, Refusal> {
    let mut records: Vec<Record> = Vec::new();
    // One running position for the whole block: groups do not restart it and
    // raw reads leave it alone. 02, Ticket 2: "Steps use the stored position".
    let mut previous = 0;
    for (group, group_lengths) in lengths.chunks(8).enumerate() {
        let first_read = records.len() as u64;
        let bytes = read_group_bytes(dna, group_lengths.len(), n_section[group])
            .map_err(|number| Refusal::at_read(number, first_read))?;
        for (index, &length) in group_lengths.iter().enumerate() {
            let bits = Bits {
                perfect: bit(bytes[0], index),
                forward: bit(bytes[1], index),
                with_n: bit(bytes[2], index),
                pos_t: bit(bytes[3], index),
            };
            let record = read_record(dna, bits, length as u64, previous, reference)
                .map_err(|number| Refusal::at_read(number, first_read + index as u64))?;
            if let Some(place) = record.placement() {
                previous = place.position;
            }
            records.push(record);
        }
    }
    Ok(records)
}

/// "Group bytes: 12, 13, 11."
fn read_group_bytes(dna: &mut Cursor, in_group: usize, n_byte: u8) -> Result<[u8; 4], u32> {
    let bytes: [u8; 4] = dna.take(4)?.try_into().unwrap();
    // 13: "Bits past the last read are 0."
    if bytes.iter().any(|&byte| bits_past(byte, in_group)) {
        return Err(FLAG_BIT_STRAY);
    }
    // 11: "its byte is not the group's with-N byte".
    if bytes[2] != n_byte {
        return Err(N_SECTION_WRONG);
    }
    Ok(bytes)
}

impl Block {
    pub fn letters(&self) -> u64 {
        self.records.iter().map(|record| record.length).sum()
    }

    pub fn name_bytes(&self) -> u64 {
        self.names.iter().map(|name| name.len() as u64).sum()
    }

    /// "Counts of a block: reads, letters, entries, and differences ... All
    /// are sums over its reads." 02, Ticket 4: they "get a fifth", "counted
    /// over the defined records".
    pub fn outcome(&self, reference: &Reference) -> Outcome {
        let entries = self.records.iter().map(|record| record.entries().len() as u64);
        let differences = self.records.iter().map(|record| record.differences(reference));
        let saturated = self.records.iter().filter(|record| record.is_saturated());
        Outcome {
            length: self.length,
            reads: self.records.len() as u64,
            letters: self.letters(),
            entries: entries.sum(),
            differences: differences.sum(),
            top: saturated.count() as u64,
            ..Outcome::default()
        }
    }
}

/// Judges the block at the input's start: numbers 1 to 21 and 40.
pub fn validate_block(reference_bases: u64, reference: &[u8], input: &[u8]) -> Outcome {
    let judge = || {
        let reference = Reference::new(reference_bases, reference)?;
        let block = read_block(&reference, input)?;
        Ok(block.outcome(&reference))
    };
    judge().unwrap_or_else(|refusal: Refusal| refusal.into())
}

/// Reads the block at the input's start: numbers 1 to 21, 40 and 22. Letters
/// go out "in ASCII capitals", and `ends` "gets the end of each read, counted
/// in letters"; so too the names and, counted in bytes, the end of each name.
/// What lies past them, and all four buffers on a refusal, stays.
pub fn decode(
    reference_bases: u64,
    reference: &[u8],
    input: &[u8],
    letters: &mut [u8],
    ends: &mut [u32],
    names: &mut [u8],
    name_ends: &mut [u32],
) -> Outcome {
    let mut read = || {
        let reference = Reference::new(reference_bases, reference)?;
        let block = read_block(&reference, input)?;
        // 22: "letters or ends buffer too small"; it "covers names and name
        // ends".
        let letters_fit = block.letters() <= letters.len() as u64;
        let names_fit = block.name_bytes() <= names.len() as u64;
        let reads_fit = block.records.len() <= ends.len() && block.names.len() <= name_ends.len();
        if !(letters_fit && names_fit && reads_fit) {
            return Err(Refusal::of_block(CAPACITY_TOO_SMALL));
        }
        let reads = block.records.iter().map(|record| record.letters(&reference));
        write_parts(reads, letters, ends);
        write_parts(block.names.iter().cloned(), names, name_ends);
        Ok(block.outcome(&reference))
    };
    read().unwrap_or_else(|refusal: Refusal| refusal.into())
}

/// Parts one after the other, and the end of each.
fn write_parts(parts: impl Iterator<Item = Vec<u8>>, out: &mut [u8], ends: &mut [u32]) {
    let mut end = 0;
    for (part, part_end) in parts.zip(ends) {
        out[end..end + part.len()].copy_from_slice(&part);
        end += part.len();
        *part_end = end as u32;
    }
}
