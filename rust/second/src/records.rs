//! 01, "Records": one record, its five kinds, and what it defines. The
//! checks stand in 01's order: "12 or 14 at the flag byte, 12 for the rest up
//! to the N list, then 13, 16, 15, 17, 18, 19; then the list". 02, Ticket 2,
//! places the stretch of a reverse local record; Ticket 4 asks which records
//! have 31 entries.

use crate::lengths::FULL_WORD;
use crate::letters::{packed_bytes, padding_is_zero, unpack, LETTERS, N_CODE};
use crate::reference::{Reference, Strand};
use crate::refusal::*;

/// "count 1 to 31": the five bits of a flag byte's count hold no more.
pub const MAX_ENTRIES: usize = 31;

/// The DNA section and how far it has been read.
pub struct Cursor<'a> {
    bytes: &'a [u8],
    place: usize,
}

impl<'a> Cursor<'a> {
    pub fn new(bytes: &'a [u8]) -> Cursor<'a> {
        Cursor { bytes, place: 0 }
    }

    /// 12: "the DNA body ends too soon".
    pub fn take(&mut self, count: u64) -> Result<&'a [u8], u32> {
        let left = (self.bytes.len() - self.place) as u64;
        if count > left {
            return Err(DNA_TRUNCATED);
        }
        let from = self.place;
        self.place += count as usize;
        Ok(&self.bytes[from..self.place])
    }

    pub fn at_end(&self) -> bool {
        self.place == self.bytes.len()
    }
}

/// One read's bits of the four group bytes.
#[derive(Clone, Copy, Debug)]
pub struct Bits {
    pub perfect: bool,
    pub forward: bool,
    pub with_n: bool,
    pub pos_t: bool,
}

impl Bits {
    fn strand(self) -> Strand {
        if self.forward {
            Strand::Forward
        } else {
            Strand::Reverse
        }
    }
}

/// A placed record "carries its own place". The position is the stored one,
/// which a later step is added to; `Record::stretch` tells where the stretch
/// lies. Left and right are the clips, 0 but for a local record.
#[derive(Clone, Copy, Debug, PartialEq, Eq)]
pub struct Placement {
    pub position: u64,
    pub strand: Strand,
    pub left: u64,
    pub right: u64,
}

/// A mismatch entry: its place counted from the first aligned letter, along
/// the read as printed, and its letter's code. It may be a filler.
#[derive(Clone, Copy, Debug, PartialEq, Eq)]
pub struct Entry {
    pub place: u64,
    pub code: u8,
}

/// "Each record is one of five kinds".
#[derive(Clone, Debug, PartialEq, Eq)]
pub enum Kind {
    Perfect(Placement),
    Global(Placement, Vec<Entry>),
    Local(Placement, Vec<Entry>, Vec<u8>),
    Raw(Vec<u8>),
    Raw4(Vec<u8>),
}

#[derive(Clone, Debug, PartialEq, Eq)]
pub struct Record {
    pub length: u64,
    pub kind: Kind,
    pub n_positions: Vec<u64>,
}

/// Reads the record of a read of `length` letters. `previous` is "the
/// position of the nearest earlier read in this block that has one, else" 0.
pub fn read_record(
    dna: &mut Cursor,
    bits: Bits,
    length: u64,
    previous: u64,
    reference: &Reference,
) -> Result<Record, u32> {
    let flag = read_flag(dna, bits)?;
    let fields = read_fields(dna, flag, bits, length, previous)?;
    check_stray_bits(flag, bits)?;
    check_clips(flag, &fields, length)?;
    check_span(flag, bits, &fields, length, reference)?;
    let entries = check_entries(flag, &fields, length)?;
    check_codes(flag, &fields)?;
    check_padding(&fields)?;
    let n_positions = read_n_list(dna, flag, &fields, bits, length)?;

    let place = Placement {
        position: fields.position,
        strand: bits.strand(),
        left: fields.left,
        right: fields.right,
    };
    let codes = unpack(fields.packed, fields.packed_letters, fields.width);
    let kind = match flag.tag {
        Tag::Perfect => Kind::Perfect(place),
        Tag::Global => Kind::Global(place, entries),
        Tag::Local => Kind::Local(place, entries, codes),
        Tag::Raw => Kind::Raw(codes),
        Tag::Raw4 => Kind::Raw4(codes),
    };
    Ok(Record { length, kind, n_positions })
}

#[derive(Clone, Copy, PartialEq, Eq)]
enum Tag {
    Perfect,
    Global,
    Local,
    Raw,
    Raw4,
}

impl Tag {
    fn is_raw(self) -> bool {
        matches!(self, Tag::Raw | Tag::Raw4)
    }
}

#[derive(Clone, Copy)]
struct Flag {
    tag: Tag,
    count: u64,
}

/// "Perfect (its bit set)"; otherwise the flag byte: "count in bits 0-4, bits
/// 5, 6, 7 for global, raw, raw4, none for local, at most one set". Global
/// has "count 1 to 31", local 0 to 31, the raw kinds 0. Else 14.
fn read_flag(dna: &mut Cursor, bits: Bits) -> Result<Flag, u32> {
    if bits.perfect {
        return Ok(Flag { tag: Tag::Perfect, count: 0 });
    }
    let byte = dna.take(1)?[0];
    let count = (byte >> 3) as u64;
    let (tag, count_fits) = match byte & 0b111 {
        0b100 => (Tag::Global, count >= 1),
        0b000 => (Tag::Local, true),
        0b010 => (Tag::Raw, count == 0),
        0b001 => (Tag::Raw4, count == 0),
        _ => return Err(RECORD_FLAG_INVALID),
    };
    if !count_fits {
        return Err(RECORD_FLAG_INVALID);
    }
    Ok(Flag { tag, count })
}

/// The fields between the flag byte and the N list, as they stand. Those the
/// kind does not have are 0 or empty.
struct Fields<'a> {
    position: u64,
    entries: &'a [u8],
    left: u64,
    right: u64,
    packed: &'a [u8],
    packed_letters: u64,
    width: u64,
}

/// "12 for the rest up to the N list". The clips are taken at their word
/// here: the end letters they ask for must be there before 16 is tried.
fn read_fields<'a>(
    dna: &mut Cursor<'a>,
    flag: Flag,
    bits: Bits,
    length: u64,
    previous: u64,
) -> Result<Fields<'a>, u32> {
    let mut fields = Fields {
        position: 0,
        entries: &[],
        left: 0,
        right: 0,
        packed: &[],
        packed_letters: 0,
        width: 2,
    };
    if !flag.tag.is_raw() {
        fields.position = read_position(dna, bits, previous)?;
        fields.entries = dna.take(flag.count)?;
    }
    match flag.tag {
        Tag::Perfect | Tag::Global => return Ok(fields),
        Tag::Local => {
            fields.left = dna.take(1)?[0] as u64;
            fields.right = dna.take(1)?[0] as u64;
            fields.packed_letters = fields.left + fields.right;
        }
        Tag::Raw => fields.packed_letters = length,
        Tag::Raw4 => {
            fields.packed_letters = length;
            fields.width = 4;
        }
    }
    fields.packed = dna.take(packed_bytes(fields.packed_letters, fields.width))?;
    Ok(fields)
}

/// "Position: 4 bytes, or with pos_t set 2 bytes added to the position of the
/// nearest earlier read". The sum is not reduced. 02, Ticket 2: "Steps use the
/// stored position".
fn read_position(dna: &mut Cursor, bits: Bits, previous: u64) -> Result<u64, u32> {
    if bits.pos_t {
        let position_delta = dna.take(2)?;
        Ok(previous + u16::from_le_bytes(position_delta.try_into().unwrap()) as u64)
    } else {
        let position = dna.take(4)?;
        Ok(u32::from_le_bytes(position.try_into().unwrap()) as u64)
    }
}

/// 13: of the raw kinds, "Forward and pos_t bits 0".
fn check_stray_bits(flag: Flag, bits: Bits) -> Result<(), u32> {
    if flag.tag.is_raw() && (bits.forward || bits.pos_t) {
        return Err(FLAG_BIT_STRAY);
    }
    Ok(())
}

/// 16: "left+right is at least 1 and below the length".
fn check_clips(flag: Flag, fields: &Fields, length: u64) -> Result<(), u32> {
    let clipped = fields.left + fields.right;
    if flag.tag == Tag::Local && !(1..length).contains(&clipped) {
        return Err(CLIPS_INVALID);
    }
    Ok(())
}

/// 15: "stretch outside the reference"; 02, Ticket 2: "also given where the
/// stretch would start below 0, at its old place".
fn check_span(
    flag: Flag,
    bits: Bits,
    fields: &Fields,
    length: u64,
    reference: &Reference,
) -> Result<(), u32> {
    if flag.tag.is_raw() {
        return Ok(());
    }
    let reference_span = length - fields.left - fields.right;
    let is_local = flag.tag == Tag::Local;
    match lowest_index(is_local, bits.strand(), fields.position, reference_span) {
        Some(lowest) if reference.holds(lowest, reference_span) => Ok(()),
        _ => Err(SPAN_OUTSIDE_REFERENCE),
    }
}

/// Where a stretch starts; None where it "would start below 0". The position
/// is "the lowest reference index of the aligned stretch", but for a reverse
/// local record. 02, Ticket 2: "a reverse local stretch ends at the position
/// and runs down".
fn lowest_index(is_local: bool, strand: Strand, position: u64, span: u64) -> Option<u64> {
    if is_local && strand == Strand::Reverse {
        (position + 1).checked_sub(span)
    } else {
        Some(position)
    }
}

/// 17: "6 bits of offset from the entry before, the first from the first
/// aligned letter"; "a later offset of 0 is refused, and any landing outside
/// the aligned part".
fn check_entries(flag: Flag, fields: &Fields, length: u64) -> Result<Vec<Entry>, u32> {
    let mut entries: Vec<Entry> = Vec::new();
    if flag.tag.is_raw() {
        return Ok(entries);
    }
    let reference_span = length - fields.left - fields.right;
    for &byte in fields.entries {
        let offset = (byte >> 2) as u64;
        let place = match entries.last() {
            None => offset,
            Some(_) if offset == 0 => return Err(ENTRY_OFFSET_INVALID),
            Some(before) => before.place + offset,
        };
        if place >= reference_span {
            return Err(ENTRY_OFFSET_INVALID);
        }
        entries.push(Entry { place, code: byte & 3 });
    }
    Ok(entries)
}

/// 18: "4-bit letter above 4".
fn check_codes(flag: Flag, fields: &Fields) -> Result<(), u32> {
    if flag.tag == Tag::Raw4 {
        let codes = unpack(fields.packed, fields.packed_letters, fields.width);
        if codes.iter().any(|&code| code > N_CODE) {
            return Err(BASE_CODE_INVALID);
        }
    }
    Ok(())
}

/// 19: "padding is 0".
fn check_padding(fields: &Fields) -> Result<(), u32> {
    if padding_is_zero(fields.packed, fields.packed_letters, fields.width) {
        Ok(())
    } else {
        Err(PADDING_NONZERO)
    }
}

/// "With-N set, for all but raw4: last comes a byte, 1 to 31, and that many N
/// positions". "Raw4 has no list; its bit is set exactly if it holds an N."
/// "12 where a field is cut, else 20, field by field".
fn read_n_list(
    dna: &mut Cursor,
    flag: Flag,
    fields: &Fields,
    bits: Bits,
    length: u64,
) -> Result<Vec<u64>, u32> {
    let mut positions: Vec<u64> = Vec::new();
    if flag.tag == Tag::Raw4 {
        let codes = unpack(fields.packed, fields.packed_letters, fields.width);
        if codes.contains(&N_CODE) != bits.with_n {
            return Err(N_POSITIONS_INVALID);
        }
        return Ok(positions);
    }
    if !bits.with_n {
        return Ok(positions);
    }
    let count = dna.take(1)?[0];
    if !(1..=31).contains(&count) {
        return Err(N_POSITIONS_INVALID);
    }
    for _ in 0..count {
        let place = read_n_position(dna, positions.last().copied(), length)?;
        positions.push(place);
    }
    Ok(positions)
}

/// One N position: "an offset from the one before (the first from 0), in the
/// 32768 split above; later offsets at least 1, all inside the read"; "each
/// word a field and 20 once its place leaves the read".
fn read_n_position(dna: &mut Cursor, before: Option<u64>, length: u64) -> Result<u64, u32> {
    let mut place = before.unwrap_or(0);
    loop {
        let word = u16::from_le_bytes(dna.take(2)?.try_into().unwrap()) as u32;
        if word > FULL_WORD {
            return Err(N_POSITIONS_INVALID);
        }
        place += word as u64;
        if place >= length {
            return Err(N_POSITIONS_INVALID);
        }
        if word < FULL_WORD {
            break;
        }
    }
    if before == Some(place) {
        return Err(N_POSITIONS_INVALID);
    }
    Ok(place)
}

impl Record {
    pub fn placement(&self) -> Option<Placement> {
        match &self.kind {
            Kind::Perfect(place) | Kind::Global(place, _) | Kind::Local(place, _, _) => {
                Some(*place)
            }
            Kind::Raw(_) | Kind::Raw4(_) => None,
        }
    }

    pub fn entries(&self) -> &[Entry] {
        match &self.kind {
            Kind::Global(_, entries) | Kind::Local(_, entries, _) => entries,
            _ => &[],
        }
    }

    /// 02, Ticket 4: "exactly 31 entries". A filler is an entry, and so is one
    /// under an N.
    pub fn is_saturated(&self) -> bool {
        self.entries().len() == MAX_ENTRIES
    }

    /// The stretch of a placed record: its lowest reference index, and how many
    /// bases it has.
    pub fn stretch(&self) -> Option<(u64, u64)> {
        let place = self.placement()?;
        let span = self.length - place.left - place.right;
        let is_local = matches!(self.kind, Kind::Local(..));
        Some((lowest_index(is_local, place.strand, place.position, span)?, span))
    }

    /// What the reference gives for the aligned part of a placed record, as
    /// printed. A stretch that would start below 0 has got 15.
    fn aligned(&self, place: &Placement, reference: &Reference) -> Vec<u8> {
        let (lowest, span) = self.stretch().unwrap();
        reference.stretch(lowest, span, place.strand)
    }

    /// "differences: entries that aren't fillers and don't stand under an N";
    /// "an entry equal to what the reference gives there is a filler".
    pub fn differences(&self, reference: &Reference) -> u64 {
        let Some(place) = self.placement() else { return 0 };
        if self.entries().is_empty() {
            return 0;
        }
        let aligned = self.aligned(&place, reference);
        let counts = |entry: &&Entry| {
            let is_filler = aligned[entry.place as usize] == entry.code;
            let under_n = self.n_positions.contains(&(place.left + entry.place));
            !is_filler && !under_n
        };
        self.entries().iter().filter(counts).count() as u64
    }

    /// The letters of the read, in ASCII capitals.
    pub fn letters(&self, reference: &Reference) -> Vec<u8> {
        let mut codes = match &self.kind {
            Kind::Raw(codes) | Kind::Raw4(codes) => codes.clone(),
            Kind::Perfect(place) => self.aligned(place, reference),
            Kind::Global(place, entries) => replaced(self.aligned(place, reference), entries),
            Kind::Local(place, entries, end_codes) => {
                // "end letters at 2 bits, left first"
                let (left, right) = end_codes.split_at(place.left as usize);
                let middle = replaced(self.aligned(place, reference), entries);
                [left, &middle, right].concat()
            }
        };
        // "N replaces the letter."
        for &place in &self.n_positions {
            codes[place as usize] = N_CODE;
        }
        codes.iter().map(|&code| LETTERS[code as usize]).collect()
    }
}

/// Entries are put in after turning: "offsets run along the read as printed".
fn replaced(mut aligned: Vec<u8>, entries: &[Entry]) -> Vec<u8> {
    for entry in entries {
        aligned[entry.place as usize] = entry.code;
    }
    aligned
}
