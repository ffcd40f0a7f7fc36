//! Valid blocks built forward from random record fields and names, with the
//! letters, ends, names and counts they must give. Nothing here uses the
//! decoder or the encoder: letters are handled as ASCII and bits are laid down
//! one by one. A `Plan` keeps every field apart, so that mutators can spoil
//! one.

use crate::name_plans::{draw_rows, joined, NamesPlan};
use crate::prng::Prng;

#[derive(Clone, Copy, Debug, PartialEq, Eq)]
pub enum RecordKind {
    Perfect,
    Global,
    Local,
    Raw,
    Raw4,
}

pub const RECORD_KINDS: [RecordKind; 5] =
    [RecordKind::Perfect, RecordKind::Global, RecordKind::Local, RecordKind::Raw, RecordKind::Raw4];

/// The bounds within which a plan is drawn.
#[derive(Clone, Copy, Debug)]
pub struct Shape {
    pub bases: u64,
    pub max_reads: u64,
    pub max_length: u64,
    pub max_carried: u64,
    /// The bytes of a name, 1 to 255.
    pub max_name: u64,
}

/// A reference as letters, and packed. Bits past the last base are random.
#[derive(Clone, Debug)]
pub struct ReferencePlan {
    pub bases: u64,
    pub letters: Vec<u8>,
    pub bytes: Vec<u8>,
}

/// One record, each field as its bytes; absent fields are empty.
#[derive(Clone, Debug)]
pub struct RecordPlan {
    pub kind: RecordKind,
    pub length: u64,
    pub span: u64,
    /// The position that a position_delta is added to.
    pub previous: u64,
    pub flag: Vec<u8>,
    pub position: Vec<u8>,
    pub entries: Vec<u8>,
    pub clips: Vec<u8>,
    pub packed: Vec<u8>,
    /// The count byte, then one element for each word.
    pub n_list: Vec<Vec<u8>>,
}

#[derive(Clone, Debug)]
pub struct GroupPlan {
    /// Perfect, Forward, with-N, pos_t.
    pub bytes: [u8; 4],
    pub records: Vec<RecordPlan>,
}

/// One group of the size section: same byte, byte-size byte, and the bytes
/// stored for each read.
#[derive(Clone, Debug)]
pub struct SizeGroup {
    pub same: u8,
    pub byte_size: u8,
    pub sizes: Vec<Vec<u8>>,
}

#[derive(Clone, Debug, Default)]
pub struct Expected {
    pub letters: Vec<u8>,
    pub ends: Vec<u32>,
    /// None where they stay unread.
    pub names: Vec<u8>,
    pub name_ends: Vec<u32>,
    pub entries: u64,
    pub differences: u64,
    pub top: u64,
}

#[derive(Clone, Debug)]
pub struct Plan {
    pub reference: ReferencePlan,
    pub magic: [u8; 2],
    pub l_header: i32,
    pub header_extra: Vec<u8>,
    pub flags: u32,
    pub l_read: i32,
    pub n_reads: i32,
    pub version: u16,
    pub b_id: u64,
    pub quality: [u8; 5],
    /// names, DNA, qual, qualN, qualTotal.
    pub raw_sizes: [u32; 5],
    pub c_time: u64,
    pub checksums: [u64; 3],
    pub lengths: Vec<u64>,
    pub groups: Vec<GroupPlan>,
    pub dna_extra: Vec<u8>,
    pub dna_cut: Option<usize>,
    pub size_groups: Vec<SizeGroup>,
    pub size_extra: Vec<u8>,
    pub size_cut: usize,
    pub n_section: Vec<u8>,
    /// With flag 0x8 the names section; without it carried bytes stand there.
    pub names: Option<NamesPlan>,
    /// names where they stay unread, qualN, qual, m1, m2, m3.
    pub carried: [Vec<u8>; 6],
    /// A length field that tells so much more than its section's length.
    pub told_extra: Option<(usize, u32)>,
    pub block_cut: Option<usize>,
    pub expected: Expected,
}

pub fn generate(rng: &mut Prng, shape: Shape) -> Plan {
    let reference = generate_reference(rng, shape.bases);
    generate_under(rng, shape, &reference)
}

pub fn generate_reference(rng: &mut Prng, bases: u64) -> ReferencePlan {
    let letters: Vec<u8> = (0..bases).map(|_| rng.pick(b"ACGT")).collect();
    let mut bits = bits_of(&letters, 2);
    while bits.len() % 8 != 0 {
        bits.push(rng.coin());
    }
    ReferencePlan { bases, letters, bytes: bytes_of(&bits) }
}

/// A plan under a given reference, as the blocks of one file need.
pub fn generate_under(rng: &mut Prng, shape: Shape, reference: &ReferencePlan) -> Plan {
    let reads = if rng.once_in(12) { 0 } else { rng.range(1, shape.max_reads) };
    let lengths = generate_lengths(rng, reads as usize, shape.max_length);
    generate_with_lengths(rng, shape, reference, lengths)
}

pub fn generate_with_lengths(
    rng: &mut Prng,
    shape: Shape,
    reference: &ReferencePlan,
    lengths: Vec<u64>,
) -> Plan {
    generate_with_entries(rng, shape, reference, lengths, draw_entries)
}

/// A plan whose global and local records have 30 or 31 entries, but for aligned
/// parts that are shorter. Its reads have 31 letters or more, which the shape
/// must allow.
pub fn generate_saturated(rng: &mut Prng, shape: Shape, reference: &ReferencePlan) -> Plan {
    let reads = rng.range(1, shape.max_reads);
    let lengths = (0..reads).map(|_| rng.range(31, shape.max_length)).collect();
    generate_with_entries(rng, shape, reference, lengths, draw_most_entries)
}

/// Draws places and letters for what the reference gives, one at least where
/// it is asked for.
type EntryDraw = fn(&mut Prng, &[u8], bool) -> Vec<(u64, u8)>;

fn generate_with_entries(
    rng: &mut Prng,
    shape: Shape,
    reference: &ReferencePlan,
    lengths: Vec<u64>,
    entry_draw: EntryDraw,
) -> Plan {
    let mut expected = Expected::default();
    let groups = generate_groups(rng, reference, &lengths, entry_draw, &mut expected);
    let n_section = groups.iter().map(|group| group.bytes[2]).collect();

    let all_equal = lengths.windows(2).all(|pair| pair[0] == pair[1]);
    let same_length = all_equal && !rng.once_in(3);
    let mut flags = rng.next_u64() as u32 & !(0x40 | 0x80 | 0x1 | 0x8);
    if rng.coin() {
        flags &= 0x3FFF;
    }
    let mut carried = [0; 6].map(|_: u8| some_bytes(rng, shape.max_carried));
    let rows = draw_rows(rng, lengths.len(), shape.max_name);
    let mut names = Some(NamesPlan::drawn(rng, &rows));
    if !rng.once_in(6) {
        flags |= 0x8;
        (expected.names, expected.name_ends) = joined(&rows);
    } else if let (Some(unread), true) = (names.take(), rng.coin()) {
        // They could be read, but for the flag.
        carried[0] = unread.section();
    }
    let mut l_read = rng.next_u64() as i32;
    let mut size_groups = Vec::new();
    if same_length {
        flags |= 0x1;
        if let Some(&length) = lengths.first() {
            l_read = length as i32;
        }
    } else {
        size_groups = generate_sizes(rng, &lengths);
    }
    let header_extra = if rng.once_in(3) { some_bytes(rng, 20) } else { Vec::new() };
    let mut raw_sizes = [0; 5].map(|_: u32| rng.next_u64() as u32);
    raw_sizes[1] = expected.letters.len() as u32;
    Plan {
        reference: reference.clone(),
        magic: [0x49, 0x7C],
        l_header: 121 + header_extra.len() as i32,
        header_extra,
        flags,
        l_read,
        n_reads: lengths.len() as i32,
        version: rng.range(20505, 29999) as u16,
        b_id: rng.next_u64(),
        quality: [0; 5].map(|_: u8| rng.byte()),
        raw_sizes,
        c_time: rng.next_u64(),
        checksums: [0; 3].map(|_: u64| rng.next_u64()),
        lengths,
        groups,
        dna_extra: Vec::new(),
        dna_cut: None,
        size_groups,
        size_extra: Vec::new(),
        size_cut: 0,
        n_section,
        names,
        carried,
        told_extra: None,
        block_cut: None,
        expected,
    }
}

fn some_bytes(rng: &mut Prng, most: u64) -> Vec<u8> {
    let count = rng.range(0, most) as usize;
    rng.bytes(count)
}

/// Lengths in several styles: equal, runs, around a byte, around the words.
fn generate_lengths(rng: &mut Prng, reads: usize, max_length: u64) -> Vec<u64> {
    let small = max_length.min(40);
    let style = rng.below(6);
    let base = rng.range(1, small);
    let marks: Vec<u64> = [1, 2, 255, 256, 257, 300, 511, 512, 32767, 32768, 32769, 65535, 65536]
        .into_iter()
        .chain([65537, 98303, 98304, 98305, 99999, 100000])
        .filter(|&mark| mark <= max_length)
        .collect();
    let mut lengths: Vec<u64> = Vec::new();
    for _ in 0..reads {
        let length = match (style, lengths.last()) {
            (0, _) => base,
            (1, Some(&before)) if !rng.once_in(3) => before,
            (2, _) => rng.range(1, max_length.min(600)),
            (3, _) => rng.pick(&marks),
            _ => rng.range(1, small),
        };
        lengths.push(length);
    }
    lengths
}

/// Any coding that holds the length may be taken, also a longer one.
fn generate_sizes(rng: &mut Prng, lengths: &[u64]) -> Vec<SizeGroup> {
    let mut groups = Vec::new();
    let mut before = 0;
    for chunk in lengths.chunks(8) {
        let mut group = SizeGroup { same: 0, byte_size: 0, sizes: Vec::new() };
        for (index, &length) in chunk.iter().enumerate() {
            let bit = 1 << (7 - index);
            if length == before && !rng.once_in(4) {
                group.same |= bit;
                group.sizes.push(Vec::new());
            } else if length <= 255 && !rng.once_in(4) {
                group.byte_size |= bit;
                group.sizes.push(vec![length as u8]);
            } else {
                group.sizes.push(words_of(length).concat());
            }
            before = length;
        }
        groups.push(group);
    }
    groups
}

/// Q words of 32768 and one remainder.
fn words_of(value: u64) -> Vec<Vec<u8>> {
    let mut words = vec![vec![0x00, 0x80]; (value / 32768) as usize];
    let remainder = value % 32768;
    words.push(vec![(remainder % 256) as u8, (remainder / 256) as u8]);
    words
}

fn generate_groups(
    rng: &mut Prng,
    reference: &ReferencePlan,
    lengths: &[u64],
    entry_draw: EntryDraw,
    expected: &mut Expected,
) -> Vec<GroupPlan> {
    let mut previous = 0;
    let mut groups = Vec::new();
    for chunk in lengths.chunks(8) {
        let mut group = GroupPlan { bytes: [0; 4], records: Vec::new() };
        for (index, &length) in chunk.iter().enumerate() {
            let kind = feasible_kind(rng, length, reference.bases);
            let mut draft = Draft::new(kind, length, previous);
            draft.fill(rng, reference, entry_draw);
            for (byte, set) in group.bytes.iter_mut().zip(draft.bits) {
                *byte |= (set as u8) << (7 - index);
            }
            if let Some(position) = draft.placed_at {
                previous = position;
            }
            expected.letters.extend(&draft.letters);
            expected.ends.push(expected.letters.len() as u32);
            expected.entries += draft.record.entries.len() as u64;
            expected.differences += draft.differences;
            // 02, Ticket 4: "exactly 31 entries", a byte each.
            expected.top += (draft.record.entries.len() == 31) as u64;
            group.records.push(draft.record);
        }
        groups.push(group);
    }
    groups
}

/// Local records are drawn twice as often as others.
fn feasible_kind(rng: &mut Prng, length: u64, bases: u64) -> RecordKind {
    loop {
        let kind = if rng.once_in(6) { RecordKind::Local } else { rng.pick(&RECORD_KINDS) };
        let feasible = match kind {
            RecordKind::Perfect | RecordKind::Global => length <= bases,
            RecordKind::Local => length >= 2 && length <= bases + 400 && bases >= 1,
            RecordKind::Raw => true,
            RecordKind::Raw4 => length <= 2000,
        };
        if feasible {
            return kind;
        }
    }
}

/// A record while it is drawn, with what it must give.
struct Draft {
    record: RecordPlan,
    /// Perfect, Forward, with-N, pos_t.
    bits: [bool; 4],
    placed_at: Option<u64>,
    letters: Vec<u8>,
    differences: u64,
}

impl Draft {
    fn new(kind: RecordKind, length: u64, previous: u64) -> Draft {
        let record = RecordPlan {
            kind,
            length,
            span: 0,
            previous,
            flag: Vec::new(),
            position: Vec::new(),
            entries: Vec::new(),
            clips: Vec::new(),
            packed: Vec::new(),
            n_list: Vec::new(),
        };
        Draft { record, bits: [false; 4], placed_at: None, letters: Vec::new(), differences: 0 }
    }

    fn fill(&mut self, rng: &mut Prng, reference: &ReferencePlan, entry_draw: EntryDraw) {
        match self.record.kind {
            RecordKind::Raw => self.fill_raw(rng),
            RecordKind::Raw4 => return self.fill_raw4(rng),
            _ => {}
        }
        let n_places = if rng.once_in(3) { self.draw_n_places(rng) } else { Vec::new() };
        if self.record.kind != RecordKind::Raw {
            self.fill_placed(rng, reference, &n_places, entry_draw);
        }
        self.fill_n_list(&n_places);
    }

    fn fill_raw(&mut self, rng: &mut Prng) {
        self.record.flag = vec![0b0000_0010];
        self.letters = (0..self.record.length).map(|_| rng.pick(b"ACGT")).collect();
        self.record.packed = packed(&self.letters, 2);
    }

    fn fill_raw4(&mut self, rng: &mut Prng) {
        self.record.flag = vec![0b0000_0001];
        let alphabet: &[u8] = rng.pick(&[b"ACGT".as_slice(), b"ACGTN", b"N", b"ACGTACGTACGTACGTN"]);
        self.letters = (0..self.record.length).map(|_| rng.pick(alphabet)).collect();
        self.record.packed = packed(&self.letters, 4);
        self.bits[2] = self.letters.contains(&b'N');
    }

    /// 1 to 31 places, rising.
    fn draw_n_places(&mut self, rng: &mut Prng) -> Vec<u64> {
        let most = self.record.length.min(31);
        let any = rng.range(1, 31);
        let count = rng.pick(&[1, 2, 3, any, 31]).min(most);
        let mut places = Vec::new();
        while (places.len() as u64) < count {
            let place = match rng.below(8) {
                0 => 0,
                1 => self.record.length - 1,
                _ => rng.below(self.record.length),
            };
            if !places.contains(&place) {
                places.push(place);
            }
        }
        places.sort();
        places
    }

    fn fill_n_list(&mut self, n_places: &[u64]) {
        if n_places.is_empty() {
            return;
        }
        self.bits[2] = true;
        self.record.n_list.push(vec![n_places.len() as u8]);
        let mut before = 0;
        for &place in n_places {
            self.record.n_list.extend(words_of(place - before));
            before = place;
            self.letters[place as usize] = b'N';
        }
    }

    fn fill_placed(
        &mut self,
        rng: &mut Prng,
        reference: &ReferencePlan,
        n_places: &[u64],
        entry_draw: EntryDraw,
    ) {
        let (left, right) = self.draw_clips(rng, reference.bases);
        let span = self.record.length - left - right;
        self.record.span = span;
        let is_local = self.record.kind == RecordKind::Local;
        let forward = if is_local { rng.once_in(3) } else { rng.coin() };
        self.bits[1] = forward;
        let given = if is_local && !forward {
            // 02, Ticket 2: "a reverse local stretch ends at the position and
            // runs down".
            let position = self.draw_position(rng, span - 1, reference.bases - 1) as usize;
            turned(&reference.letters[position + 1 - span as usize..=position])
        } else {
            // "the lowest reference index of the aligned stretch"
            let position = self.draw_position(rng, 0, reference.bases - span) as usize;
            let stretch = &reference.letters[position..position + span as usize];
            if forward {
                stretch.to_vec()
            } else {
                turned(stretch)
            }
        };

        let entries = match self.record.kind {
            RecordKind::Perfect => Vec::new(),
            kind => entry_draw(rng, &given, kind == RecordKind::Global),
        };
        let mut aligned = given.clone();
        for &(place, letter) in &entries {
            let under_n = n_places.contains(&(left + place));
            if letter != given[place as usize] && !under_n {
                self.differences += 1;
            }
            aligned[place as usize] = letter;
        }
        self.put_entries(&entries);

        let clipped: Vec<u8> = (0..left + right).map(|_| rng.pick(b"ACGT")).collect();
        self.letters = clipped[..left as usize].to_vec();
        self.letters.extend(aligned);
        self.letters.extend(&clipped[left as usize..]);

        let count = (entries.len() as u8) << 3;
        match self.record.kind {
            RecordKind::Perfect => self.bits[0] = true,
            RecordKind::Global => self.record.flag = vec![count | 0b100],
            _ => {
                self.record.flag = vec![count];
                self.record.clips = vec![left as u8, right as u8];
                self.record.packed = packed(&clipped, 2);
            }
        }
    }

    fn draw_clips(&mut self, rng: &mut Prng, bases: u64) -> (u64, u64) {
        if self.record.kind != RecordKind::Local {
            return (0, 0);
        }
        let length = self.record.length;
        // Enough is clipped for the rest to fit into the reference.
        let least = length.saturating_sub(bases).max(1);
        let most = (length - 1).min(510);
        let clipped = match rng.below(4) {
            0 => least,
            1 => most,
            _ => rng.range(least, most.min(least + 12)),
        };
        let low = clipped.saturating_sub(255);
        let high = clipped.min(255);
        let any = rng.range(low, high);
        let left = rng.pick(&[low, high, any]);
        (left, clipped - left)
    }

    /// The position as it is stored, and stepped from later. At `low` the
    /// stretch starts at the reference's first base, at `high` it ends at the
    /// last. 16 bits are taken for some of the steps they can hold.
    fn draw_position(&mut self, rng: &mut Prng, low: u64, high: u64) -> u64 {
        let position = match rng.below(8) {
            0 => low,
            1 => high,
            2 => self.record.previous.clamp(low, high),
            _ => rng.range(low, high),
        };
        self.placed_at = Some(position);
        let step = position as i64 - self.record.previous as i64;
        if (0..=65535).contains(&step) && !rng.once_in(3) {
            self.bits[3] = true;
            self.record.position = (step as u16).to_le_bytes().to_vec();
        } else {
            self.record.position = (position as u32).to_le_bytes().to_vec();
        }
        position
    }

    fn put_entries(&mut self, entries: &[(u64, u8)]) {
        let mut before = 0;
        for &(place, letter) in entries {
            let code = b"ACGT".iter().position(|&known| known == letter).unwrap();
            self.record.entries.push(((place - before) as u8) * 4 + code as u8);
            before = place;
        }
    }
}

/// Places along the read and letters; a letter may equal what is given there,
/// which makes a filler. A global record needs one entry.
fn draw_entries(rng: &mut Prng, given: &[u8], at_least_one: bool) -> Vec<(u64, u8)> {
    let most = rng.pick(&[1, 2, 3, 8, 31]);
    let widest = rng.pick(&[2, 8, 64]);
    let count = rng.range(if at_least_one { 1 } else { 0 }, most);
    let mut entries: Vec<(u64, u8)> = Vec::new();
    for _ in 0..count {
        let (low, before) = match entries.last() {
            None => (0, 0),
            Some(&(place, _)) => (1, place),
        };
        let furthest = given.len() as u64 - 1 - before;
        if furthest < low {
            break;
        }
        let place = before + rng.range(low, furthest.min(widest - 1).max(low));
        let letter = if rng.once_in(3) { given[place as usize] } else { rng.pick(b"ACGT") };
        entries.push((place, letter));
    }
    entries
}

/// 30 or 31 entries, or one for each letter of a shorter part; few of them,
/// some or all are fillers.
fn draw_most_entries(rng: &mut Prng, given: &[u8], _at_least_one: bool) -> Vec<(u64, u8)> {
    let count = rng.pick(&[30, 31, 31]).min(given.len() as u64);
    let mut spare = given.len() as u64 - count;
    let widest = rng.pick(&[1, 2, 8, 63]);
    let fillers = rng.pick(&[0, 1, 3]);
    let mut entries = Vec::new();
    let mut place = 0;
    for _ in 0..count {
        let skipped = rng.range(0, spare.min(widest - 1));
        spare -= skipped;
        place += skipped;
        let is_filler = rng.below(3) < fillers;
        let letter = if is_filler { given[place as usize] } else { rng.pick(b"ACGT") };
        entries.push((place, letter));
        place += 1;
    }
    entries
}

/// Reversed and complemented.
fn turned(letters: &[u8]) -> Vec<u8> {
    let complement = |letter: &u8| match letter {
        b'A' => b'T',
        b'C' => b'G',
        b'G' => b'C',
        _ => b'A',
    };
    letters.iter().rev().map(complement).collect()
}

fn bits_of(letters: &[u8], width: usize) -> Vec<bool> {
    let mut bits = Vec::new();
    for letter in letters {
        let code = b"ACGTN".iter().position(|known| known == letter).unwrap();
        for bit in (0..width).rev() {
            bits.push(code >> bit & 1 == 1);
        }
    }
    bits
}

fn bytes_of(bits: &[bool]) -> Vec<u8> {
    let byte = |eight: &[bool]| {
        let value = eight.iter().fold(0u16, |value, &bit| value * 2 + bit as u16);
        (value << (8 - eight.len())) as u8
    };
    bits.chunks(8).map(byte).collect()
}

fn packed(letters: &[u8], width: usize) -> Vec<u8> {
    bytes_of(&bits_of(letters, width))
}

impl RecordPlan {
    /// The fields in order; absent ones are empty.
    pub fn fields(&self) -> Vec<&[u8]> {
        let mut fields: Vec<&[u8]> = vec![&self.flag, &self.position, &self.entries];
        fields.extend([self.clips.as_slice(), &self.packed]);
        fields.extend(self.n_list.iter().map(|field| field.as_slice()));
        fields
    }
}

impl Plan {
    /// Whether a read is local and its Forward bit not set.
    pub fn is_reverse_local(&self, read: usize) -> bool {
        let group = &self.groups[read / 8];
        let forward = group.bytes[1] & (0x80 >> (read % 8)) != 0;
        group.records[read % 8].kind == RecordKind::Local && !forward
    }

    /// The DNA section before any cut.
    pub fn whole_dna(&self) -> Vec<u8> {
        let mut dna = Vec::new();
        for group in &self.groups {
            dna.extend(group.bytes);
            for record in &group.records {
                dna.extend(record.fields().concat());
            }
        }
        dna.extend(&self.dna_extra);
        dna
    }

    fn size_section(&self) -> Vec<u8> {
        let mut sizes = Vec::new();
        for group in &self.size_groups {
            sizes.extend([group.same, group.byte_size]);
            sizes.extend(group.sizes.concat());
        }
        sizes.extend(&self.size_extra);
        sizes.truncate(sizes.len() - self.size_cut.min(sizes.len()));
        sizes
    }

    pub fn sections(&self) -> [Vec<u8>; 9] {
        let mut dna = self.whole_dna();
        if let Some(cut) = self.dna_cut {
            dna.truncate(cut);
        }
        let [unread, qual_n, qual, m1, m2, m3] = self.carried.clone();
        let names = self.names.as_ref().map_or(unread, |names| names.section());
        [dna, names, qual_n, qual, self.size_section(), self.n_section.clone(), m1, m2, m3]
    }

    /// The block's bytes.
    pub fn block(&self) -> Vec<u8> {
        let sections = self.sections();
        let mut block = Vec::new();
        block.extend(self.magic);
        block.extend(self.l_header.to_le_bytes());
        for (number, section) in sections.iter().enumerate() {
            let extra = match self.told_extra {
                Some((spoiled, extra)) if spoiled == number => extra,
                _ => 0,
            };
            block.extend((section.len() as u32 + extra).to_le_bytes());
        }
        block.extend(self.flags.to_le_bytes());
        block.extend(self.l_read.to_le_bytes());
        block.extend(self.n_reads.to_le_bytes());
        block.extend(self.version.to_le_bytes());
        block.extend(self.b_id.to_le_bytes());
        block.extend(self.quality);
        for size in self.raw_sizes {
            block.extend(size.to_le_bytes());
        }
        block.extend(self.c_time.to_le_bytes());
        for checksum in self.checksums {
            block.extend(checksum.to_le_bytes());
        }
        assert_eq!(block.len(), 121);
        block.extend(&self.header_extra);
        block.extend(sections.concat());
        if let Some(cut) = self.block_cut {
            block.truncate(cut);
        }
        block
    }
}
