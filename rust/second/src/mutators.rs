//! Faults put into a plan's fields, for each number 1 to 21 and 40, and plain
//! damage to bytes. Each fault knows its number, its read index and its place
//! in 01's order, so that of two faults the one to be told is known without
//! asking the decoder.

use crate::generator::{Plan, RecordKind, RecordPlan};
use crate::name_faults::spoil_names_section;
use crate::prng::Prng;
use crate::refusal::*;

/// The numbers that `spoil` knows.
pub const BLOCK_NUMBERS: [u32; 22] =
    [1, 2, 3, 4, 5, 6, 7, 8, 9, 10, 11, 12, 13, 14, 15, 16, 17, 18, 19, 20, 21, 40];

/// Where a fault stands in 01's order: phase, group, slot (0 for the group
/// bytes, then the records), stage within the slot, field of the N list.
pub type OrderKey = [u64; 5];

#[derive(Clone, Copy, Debug, PartialEq, Eq)]
pub struct Fault {
    pub number: u32,
    pub read: u64,
    pub key: OrderKey,
}

impl Fault {
    /// "1 to 11", and the read index is 0.
    fn of_block(number: u32) -> Fault {
        Fault { number, read: 0, key: [0, number as u64, 0, 0, 0] }
    }

    /// "Group bytes: 12, 13, 11."
    fn of_group(number: u32, group: usize) -> Fault {
        let stage = [DNA_TRUNCATED, FLAG_BIT_STRAY, N_SECTION_WRONG]
            .iter()
            .position(|&known| known == number)
            .unwrap();
        Fault { number, read: 8 * group as u64, key: [1, group as u64, 0, stage as u64, 0] }
    }

    fn of_record(number: u32, read: usize, stage: u64, field: u64) -> Fault {
        let key = [1, read as u64 / 8, 1 + read as u64 % 8, stage, field];
        Fault { number, read: read as u64, key }
    }

    /// 21, then 40.
    fn at_end(number: u32) -> Fault {
        Fault { number, read: 0, key: [2, number as u64, 0, 0, 0] }
    }
}

/// The stages of a record, in 01's order.
const FLAG_BYTE: u64 = 0;
const REST: u64 = 1;
const STRAY: u64 = 2;
const CLIPS: u64 = 3;
const SPAN: u64 = 4;
const ENTRIES: u64 = 5;
const CODES: u64 = 6;
const PADDING: u64 = 7;
const N_LIST: u64 = 8;

/// Of several faults, the one that is told.
pub fn first(faults: &[Fault]) -> Fault {
    *faults.iter().min_by_key(|fault| fault.key).unwrap()
}

/// Puts several faults in. Cuts come last, since other faults move fields.
pub fn spoil_all(plan: &mut Plan, numbers: &[u32], rng: &mut Prng) -> Vec<Fault> {
    let mut numbers = numbers.to_vec();
    numbers.sort_by_key(|&number| match number {
        SECTIONS_TRUNCATED => 2,
        DNA_TRUNCATED => 1,
        _ => 0,
    });
    numbers.iter().filter_map(|&number| spoil(plan, number, rng)).collect()
}

/// Puts a fault of the given number into the plan, or answers None where the
/// plan has no place for it.
pub fn spoil(plan: &mut Plan, number: u32, rng: &mut Prng) -> Option<Fault> {
    match number {
        REFERENCE_SIZE_WRONG => spoil_reference(plan, rng),
        HEADER_TRUNCATED => cut_block(plan, number, 0, 121, rng),
        MAGIC_WRONG => spoil_magic(plan, rng),
        VERSION_UNSUPPORTED => spoil_version(plan, rng),
        HEADER_LENGTH_TOO_SMALL => spoil_header_length(plan, rng),
        FLAG_UNSUPPORTED => spoil_flags(plan, rng),
        READ_COUNT_OUT_OF_RANGE => spoil_read_count(plan, rng),
        SECTIONS_TRUNCATED => spoil_sections(plan, rng),
        LENGTHS_INVALID => spoil_lengths(plan, rng),
        DNA_SIZE_WRONG => spoil_dna_size(plan, rng),
        N_SECTION_WRONG => spoil_n_section(plan, rng),
        DNA_TRUNCATED => cut_dna(plan, rng),
        FLAG_BIT_STRAY => spoil_group_bits(plan, rng),
        DNA_TRAILING => add_dna(plan, rng),
        NAMES_SECTION_INVALID => {
            spoil_names_section(plan, rng).map(|()| Fault::at_end(NAMES_SECTION_INVALID))
        }
        _ => spoil_some_record(plan, number, rng),
    }
}

fn spoil_reference(plan: &mut Plan, rng: &mut Prng) -> Option<Fault> {
    let reference = &mut plan.reference;
    match rng.below(5) {
        0 => reference.bytes.push(rng.byte()),
        1 => {
            reference.bytes.pop()?;
        }
        2 => reference.bases += 4,
        3 => reference.bases = 1 << 32,
        _ => reference.bases = u64::MAX - rng.below(4),
    }
    Some(Fault::of_block(REFERENCE_SIZE_WRONG))
}

/// Cuts the block to a length from `low` to below `high`.
fn cut_block(plan: &mut Plan, number: u32, low: u64, high: u64, rng: &mut Prng) -> Option<Fault> {
    if low >= high {
        return None;
    }
    let near = high - 1 - rng.below(4).min(high - 1 - low);
    let any = rng.range(low, high - 1);
    let cut = rng.pick(&[low, near, any]) as usize;
    plan.block_cut = Some(plan.block_cut.map_or(cut, |before| before.min(cut)));
    Some(Fault::of_block(number))
}

fn spoil_magic(plan: &mut Plan, rng: &mut Prng) -> Option<Fault> {
    match rng.below(3) {
        0 => plan.magic = [0x7C, 0x49],
        1 => plan.magic[0] ^= 1 << rng.below(8),
        _ => plan.magic[1] ^= 1 << rng.below(8),
    }
    Some(Fault::of_block(MAGIC_WRONG))
}

fn spoil_version(plan: &mut Plan, rng: &mut Prng) -> Option<Fault> {
    plan.version = rng.pick(&[0, 255, 10000, 20504, 30000, 32768, 65535]);
    Some(Fault::of_block(VERSION_UNSUPPORTED))
}

fn spoil_header_length(plan: &mut Plan, rng: &mut Prng) -> Option<Fault> {
    plan.l_header = rng.pick(&[i32::MIN, -121, -1, 0, 1, 120]);
    Some(Fault::of_block(HEADER_LENGTH_TOO_SMALL))
}

fn spoil_flags(plan: &mut Plan, rng: &mut Prng) -> Option<Fault> {
    plan.flags |= rng.pick(&[0x40, 0x80, 0xC0]);
    Some(Fault::of_block(FLAG_UNSUPPORTED))
}

fn spoil_read_count(plan: &mut Plan, rng: &mut Prng) -> Option<Fault> {
    plan.n_reads = rng.pick(&[i32::MIN, -50_000, -1, 50_001, 65_536, i32::MAX]);
    Some(Fault::of_block(READ_COUNT_OUT_OF_RANGE))
}

fn spoil_sections(plan: &mut Plan, rng: &mut Prng) -> Option<Fault> {
    if rng.coin() {
        let whole = plan.sections().concat().len() + 121 + plan.header_extra.len();
        return cut_block(plan, SECTIONS_TRUNCATED, 121, whole as u64, rng);
    }
    let section = rng.below(9) as usize;
    let extra = rng.pick(&[1, 0x1_0000, 0x7FFF_0000, 0xFFFF_0000]);
    plan.told_extra = Some((section, extra));
    Some(Fault::of_block(SECTIONS_TRUNCATED))
}

fn spoil_lengths(plan: &mut Plan, rng: &mut Prng) -> Option<Fault> {
    let reads = plan.lengths.len();
    if plan.flags & 1 != 0 && reads > 0 && rng.coin() {
        plan.l_read = rng.pick(&[i32::MIN, -1, 0, 100_001, i32::MAX]);
    } else if plan.flags & 1 != 0 || reads == 0 || rng.once_in(6) {
        // Bytes left.
        let count = rng.range(1, 3) as usize;
        plan.size_extra = rng.bytes(count);
    } else {
        spoil_size_section(plan, rng);
    }
    Some(Fault::of_block(LENGTHS_INVALID))
}

/// One of the faults that 01 lists, at a random read.
fn spoil_size_section(plan: &mut Plan, rng: &mut Prng) {
    let reads = plan.lengths.len();
    let read = rng.below(reads as u64) as usize;
    let bit = 0x80 >> (read % 8);
    let group = &mut plan.size_groups[read / 8];
    let size = &mut group.sizes[read % 8];
    let in_words = group.same & bit == 0 && group.byte_size & bit == 0;
    match rng.below(9) {
        // Bytes missing.
        0 => plan.size_cut = 1,
        // Both bits set.
        1 => {
            group.same |= bit;
            group.byte_size |= bit;
        }
        // Same on the first read.
        2 => plan.size_groups[0].same |= 0x80,
        // A bit past the last read.
        3 if reads % 8 != 0 => {
            let stray = 0x80 >> rng.range(reads as u64 % 8, 7);
            let group = &mut plan.size_groups[reads / 8];
            let byte = if rng.coin() { &mut group.same } else { &mut group.byte_size };
            *byte |= stray;
        }
        // A word above 32768 for the remainder.
        4 if in_words => {
            let at = size.len() - 2;
            size[at..].copy_from_slice(&rng.range(32_769, 65_535).to_le_bytes()[..2]);
        }
        // Length 0 in either coding.
        5 if group.byte_size & bit != 0 => size[0] = 0,
        6 if in_words => *size = vec![0, 0],
        // Above 100,000.
        7 if in_words => *size = [[0, 0x80], [0, 0x80], [0, 0x80], [0xA1, 0x06]].concat(),
        8 if in_words => *size = [[0, 0x80]; 8].concat(),
        // The flag for equal lengths over a size section.
        _ => plan.flags |= 1,
    }
}

fn spoil_dna_size(plan: &mut Plan, rng: &mut Prng) -> Option<Fault> {
    plan.raw_sizes[1] ^= 1 << rng.below(32);
    Some(Fault::of_block(DNA_SIZE_WRONG))
}

fn spoil_n_section(plan: &mut Plan, rng: &mut Prng) -> Option<Fault> {
    if plan.n_section.is_empty() || rng.once_in(3) {
        if plan.n_section.pop().is_none() || rng.coin() {
            plan.n_section.extend([0, 0]);
        }
        return Some(Fault::of_block(N_SECTION_WRONG));
    }
    // A used bit or an unused one.
    let group = rng.below(plan.n_section.len() as u64) as usize;
    plan.n_section[group] ^= 0x80 >> rng.below(8);
    Some(Fault::of_group(N_SECTION_WRONG, group))
}

/// Ends the DNA section early. The first field that is cut gets 12.
fn cut_dna(plan: &mut Plan, rng: &mut Prng) -> Option<Fault> {
    let whole = plan.whole_dna().len();
    if whole == 0 || !plan.dna_extra.is_empty() {
        return None;
    }
    let cut = if rng.once_in(4) { whole - 1 } else { rng.below(whole as u64) as usize };
    plan.dna_cut = Some(cut);
    let mut place = 0;
    for (group_index, group) in plan.groups.iter().enumerate() {
        place += 4;
        if place > cut {
            return Some(Fault::of_group(DNA_TRUNCATED, group_index));
        }
        for (index, record) in group.records.iter().enumerate() {
            let read = 8 * group_index + index;
            for (field_index, field) in record.fields().iter().enumerate() {
                place += field.len();
                if place > cut {
                    let (stage, field) = match field_index {
                        0 => (FLAG_BYTE, 0),
                        1..=4 => (REST, 0),
                        _ => (N_LIST, 2 * (field_index as u64 - 5)),
                    };
                    return Some(Fault::of_record(DNA_TRUNCATED, read, stage, field));
                }
            }
        }
    }
    unreachable!("the cut lies before the end")
}

fn spoil_group_bits(plan: &mut Plan, rng: &mut Prng) -> Option<Fault> {
    let last = plan.groups.len().checked_sub(1)?;
    let in_group = plan.groups[last].records.len() as u64;
    if in_group < 8 && rng.coin() {
        let byte = rng.below(4) as usize;
        plan.groups[last].bytes[byte] |= 0x80 >> rng.range(in_group, 7);
        return Some(Fault::of_group(FLAG_BIT_STRAY, last));
    }
    spoil_some_record(plan, FLAG_BIT_STRAY, rng)
}

fn add_dna(plan: &mut Plan, rng: &mut Prng) -> Option<Fault> {
    if plan.dna_cut.is_some() {
        return None;
    }
    let count = rng.pick(&[1, 2, 4, 9]);
    plan.dna_extra = rng.bytes(count);
    Some(Fault::at_end(DNA_TRAILING))
}

/// Tries the records from a random one on.
fn spoil_some_record(plan: &mut Plan, number: u32, rng: &mut Prng) -> Option<Fault> {
    let reads = plan.lengths.len();
    let from = rng.below(reads.max(1) as u64) as usize;
    (0..reads).find_map(|step| spoil_record(plan, (from + step) % reads, number, rng))
}

/// Numbers 13 to 20 at one read.
pub fn spoil_record(plan: &mut Plan, read: usize, number: u32, rng: &mut Prng) -> Option<Fault> {
    if number == SPAN_OUTSIDE_REFERENCE && plan.is_reverse_local(read) {
        let count = REVERSE_LOCAL_FAULTS.len();
        let from = rng.below(count as u64) as usize;
        let mut faults = REVERSE_LOCAL_FAULTS.iter().cycle().skip(from).take(count);
        return faults.find_map(|(_, fault)| spoil_reverse_local(plan, read, *fault, rng));
    }
    let bases = plan.reference.letters.len() as u64;
    let group = &mut plan.groups[read / 8];
    let bit = 0x80 >> (read % 8);
    let is_raw4 = group.records[read % 8].kind == RecordKind::Raw4;
    if number == N_POSITIONS_INVALID && is_raw4 {
        group.bytes[2] ^= bit;
        *plan.n_section.get_mut(read / 8)? ^= bit;
        return Some(Fault::of_record(number, read, N_LIST, 1));
    }
    let pos_t = &mut group.bytes[3];
    let record = &mut group.records[read % 8];
    let is_raw = matches!(record.kind, RecordKind::Raw | RecordKind::Raw4);
    let (stage, field) = match number {
        FLAG_BIT_STRAY if is_raw => {
            let byte = rng.pick(&[1, 3]);
            group.bytes[byte] |= bit;
            (STRAY, 0)
        }
        RECORD_FLAG_INVALID => (spoil_record_flag(record, rng)?, 1),
        CLIPS_INVALID => (spoil_clips(record, rng)?, 0),
        SPAN_OUTSIDE_REFERENCE => (spoil_position(record, bases, pos_t, bit, rng)?, 0),
        ENTRY_OFFSET_INVALID => (spoil_entry(record, rng)?, 0),
        BASE_CODE_INVALID => (spoil_code(record, rng)?, 0),
        PADDING_NONZERO => (spoil_padding(record, rng)?, 0),
        N_POSITIONS_INVALID => (N_LIST, spoil_n_list(record, rng)?),
        _ => return None,
    };
    Some(Fault::of_record(number, read, stage, field))
}

fn spoil_record_flag(record: &mut RecordPlan, rng: &mut Prng) -> Option<u64> {
    if record.kind == RecordKind::Perfect {
        return None;
    }
    let count = rng.byte() & 0xF8;
    let some_count = 8 * rng.range(1, 31) as u8;
    record.flag = vec![rng.pick(&[
        count | 0b011,
        count | 0b101,
        count | 0b110,
        count | 0b111,
        0b100,
        some_count | 0b010,
        some_count | 0b001,
    ])];
    Some(FLAG_BYTE)
}

/// The end letters that the spoiled clips ask for are all there.
fn spoil_clips(record: &mut RecordPlan, rng: &mut Prng) -> Option<u64> {
    if record.kind != RecordKind::Local {
        return None;
    }
    let most = 510.max(record.length);
    let any = rng.range(record.length, most);
    let clipped = rng.pick(&[0, record.length, record.length + 1, any]);
    if clipped > 510 {
        return None;
    }
    let left = rng.range(clipped.saturating_sub(255), clipped.min(255));
    record.clips = vec![left as u8, (clipped - left) as u8];
    record.packed = rng.bytes(((clipped + 3) / 4) as usize);
    Some(CLIPS)
}

/// A position from which a stretch that runs up leaves the reference.
fn spoil_position(
    record: &mut RecordPlan,
    bases: u64,
    pos_t: &mut u8,
    bit: u8,
    rng: &mut Prng,
) -> Option<u64> {
    if record.position.is_empty() {
        return None;
    }
    let least = (bases + 1).checked_sub(record.span)?;
    let mut positions = vec![least, least, rng.range(least, 0xFFFF_FFFF), 0xFFFF_FFFF];
    let stepped = [record.previous, record.previous + 65_535];
    positions.extend(stepped.iter().filter(|&&position| position >= least));
    let position = rng.pick(&positions);
    put_position(record, position, pos_t, bit, rng);
    Some(SPAN)
}

/// For a stretch of so many bases and a reference of so many: a position that
/// puts a reverse local record outside, or None where there is none such.
pub type ReverseLocalFault = fn(u64, u64, &mut Prng) -> Option<u64>;

/// 02, Ticket 2: "a reverse local stretch ends at the position and runs down",
/// and 15 is given "where the stretch would start below 0". The first two do so
/// from a position inside the reference; the others have one past its end.
pub const REVERSE_LOCAL_FAULTS: &[(&str, ReverseLocalFault)] = &[
    ("starts 1 below 0", |span, _, _| span.checked_sub(2)),
    ("starts more than 1 below 0", |span, _, rng| {
        let most = span.checked_sub(3)?;
        let any = rng.range(0, most);
        Some(rng.pick(&[0, any, most]))
    }),
    ("ends at G", |_, bases, _| Some(bases)),
    ("ends past G", |_, bases, rng| {
        let any = rng.range(bases + 1, 0xFFFF_FFFF);
        Some(rng.pick(&[bases + 1, any, 0xFFFF_FFFF]))
    }),
];

/// Puts one of these faults into a read, or answers None where the read is not
/// a reverse local one or has no place for it.
pub fn spoil_reverse_local(
    plan: &mut Plan,
    read: usize,
    fault: ReverseLocalFault,
    rng: &mut Prng,
) -> Option<Fault> {
    if !plan.is_reverse_local(read) {
        return None;
    }
    let group = &mut plan.groups[read / 8];
    let record = &mut group.records[read % 8];
    let position = fault(record.span, plan.reference.letters.len() as u64, rng)?;
    put_position(record, position, &mut group.bytes[3], 0x80 >> (read % 8), rng);
    Some(Fault::of_record(SPAN_OUTSIDE_REFERENCE, read, SPAN, 0))
}

/// In 2 bytes for some of the steps they can hold.
fn put_position(record: &mut RecordPlan, position: u64, pos_t: &mut u8, bit: u8, rng: &mut Prng) {
    match position.checked_sub(record.previous) {
        Some(step) if step <= 65_535 && rng.coin() => {
            *pos_t |= bit;
            record.position = (step as u16).to_le_bytes().to_vec();
        }
        _ => {
            *pos_t &= !bit;
            record.position = (position as u32).to_le_bytes().to_vec();
        }
    }
}

fn spoil_entry(record: &mut RecordPlan, rng: &mut Prng) -> Option<u64> {
    let count = record.entries.len() as u64;
    if count == 0 {
        return None;
    }
    if count > 1 && rng.coin() {
        let later = rng.range(1, count - 1) as usize;
        record.entries[later] &= 3;
        return Some(ENTRIES);
    }
    let mut before = 0;
    for entry in &mut record.entries {
        if before + 63 >= record.span {
            let least = record.span.saturating_sub(before);
            *entry = (rng.pick(&[least, 63]) as u8) << 2 | *entry & 3;
            return Some(ENTRIES);
        }
        before += (*entry >> 2) as u64;
    }
    None
}

fn spoil_code(record: &mut RecordPlan, rng: &mut Prng) -> Option<u64> {
    if record.kind != RecordKind::Raw4 {
        return None;
    }
    let letter = rng.below(record.length) as usize;
    let code = rng.range(5, 15) as u8;
    let byte = &mut record.packed[letter / 2];
    *byte = if letter % 2 == 0 { code << 4 | *byte & 0x0F } else { *byte & 0xF0 | code };
    Some(CODES)
}

fn spoil_padding(record: &mut RecordPlan, rng: &mut Prng) -> Option<u64> {
    let bits = match record.kind {
        RecordKind::Raw => 2 * record.length,
        RecordKind::Raw4 => 4 * record.length,
        RecordKind::Local => 2 * (record.clips[0] as u64 + record.clips[1] as u64),
        _ => return None,
    };
    if bits % 8 == 0 {
        return None;
    }
    *record.packed.last_mut()? |= 1 << rng.below(8 - bits % 8);
    Some(PADDING)
}

/// Answers the place of the spoiled field in the list.
fn spoil_n_list(record: &mut RecordPlan, rng: &mut Prng) -> Option<u64> {
    let words = (record.n_list.len() as u64).checked_sub(1)?;
    if rng.once_in(4) {
        record.n_list[0] = vec![rng.pick(&[0, 32, 33, 128, 255])];
        return Some(1);
    }
    let target = rng.range(1, words) as usize;
    let mut place = 0;
    for word in &record.n_list[1..target] {
        place += word[0] as u64 + 256 * word[1] as u64;
    }
    let is_whole = target > 1 && record.n_list[target - 1] != [0x00, 0x80];
    let above = rng.range(32_769, 65_535);
    let leaving = (record.length - place).min(40_000);
    let word = match rng.below(3) {
        0 => above,
        1 if is_whole => 0,
        _ if place + 32_768 >= record.length && rng.coin() => 32_768,
        _ => leaving,
    };
    if word == 32_768 && place + 32_768 < record.length {
        return None;
    }
    record.n_list[target] = vec![word as u8, (word >> 8) as u8];
    Some(2 * target as u64 + 1)
}

/// Plain damage: some bytes changed, anywhere or past the header.
pub fn damage(bytes: &mut [u8], rng: &mut Prng) {
    if bytes.is_empty() {
        return;
    }
    let from = if bytes.len() > 121 && !rng.once_in(4) { 121 } else { 0 };
    for _ in 0..rng.range(1, 3) {
        let place = rng.range(from, bytes.len() as u64 - 1) as usize;
        match rng.below(3) {
            0 => bytes[place] ^= 1 << rng.below(8),
            1 => bytes[place] = rng.byte(),
            _ => bytes[place] = rng.pick(&[0, 1, 0x1F, 0x20, 0x7F, 0x80, 0xFF]),
        }
    }
}
