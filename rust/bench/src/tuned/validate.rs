//! The validator: one pass with pointers and every check of a block whose header is sound. It says
//! only whether a block is accepted, not with which number it is refused. Names are judged by the
//! plain code.
use super::{take_word, Counts, Group, MAX_ENTRIES, MAX_READ_LENGTH, WORD_ESCAPE};
use crate::names::plain;
use second::header::{Header, DNA, N, NAMES, SIZE};

/// The bytes of a section that are left.
struct Part {
    at: *const u8,
    end: *const u8,
}

impl Part {
    fn new(section: &[u8]) -> Part {
        let std::ops::Range { start, end } = section.as_ptr_range();
        Part { at: start, end }
    }

    #[inline(always)]
    unsafe fn holds(&self, n: usize) -> bool {
        self.end.offset_from(self.at) as usize >= n
    }

    /// The next `n` bytes, which are passed over; None where they are missing.
    #[inline(always)]
    unsafe fn take(&mut self, n: usize) -> Option<*const u8> {
        if !self.holds(n) {
            return None;
        }
        let at = self.at;
        self.at = at.add(n);
        Some(at)
    }

    /// An escape-coded number added to `sum`, which stays below `bound`.
    #[inline(always)]
    unsafe fn take_number(&mut self, mut sum: usize, bound: usize) -> Option<usize> {
        loop {
            if !self.holds(2) {
                return None;
            }
            let word = take_word(&mut self.at);
            sum += word;
            if word > WORD_ESCAPE || sum >= bound {
                return None;
            }
            if word < WORD_ESCAPE {
                return Some(sum);
            }
        }
    }
}

/// The lengths of the reads, one after the other.
struct Lengths {
    part: Part,
    fixed: bool,
    same: u8,
    sizes: u8,
    length: usize,
}

impl Lengths {
    #[inline(always)]
    unsafe fn next_group(&mut self) -> Option<()> {
        if !self.fixed {
            let flags = self.part.take(2)?;
            (self.same, self.sizes) = (*flags, *flags.add(1));
        }
        Some(())
    }

    #[inline(always)]
    unsafe fn next(&mut self) -> Option<usize> {
        if self.fixed {
            return Some(self.length);
        }
        if self.same >= 128 {
            if self.sizes >= 128 {
                return None;
            }
        } else if self.sizes >= 128 {
            self.length = *self.part.take(1)? as usize;
        } else {
            self.length = self.part.take_number(0, MAX_READ_LENGTH + 1)?;
        }
        if self.length == 0 {
            return None;
        }
        self.same <<= 1;
        self.sizes <<= 1;
        Some(self.length)
    }

    fn all_taken(&self) -> bool {
        self.part.at == self.part.end && self.same | self.sizes == 0
    }
}

/// Whether the bits after `n` letters of two bits are 0.
#[inline(always)]
unsafe fn padding_is_zero(packed: *const u8, n: usize) -> bool {
    n % 4 == 0 || *packed.add(n / 4) & (0xff >> (2 * (n % 4))) == 0
}

/// Whether the letters of a raw4 record are such, their padding is 0, and they have an N just where
/// they should.
#[inline(always)]
unsafe fn raw4_is_valid(packed: *const u8, length: usize, with_n: bool) -> bool {
    let (mut any, mut bad) = (false, false);
    let bytes = (length + 1) / 2;
    for k in 0..bytes {
        let byte = *packed.add(k);
        any |= byte >> 4 == 4 || byte & 15 == 4;
        bad |= byte >> 4 > 4 || byte & 15 > 4;
    }
    let padded = length % 2 == 0 || *packed.add(bytes - 1) & 15 == 0;
    !bad && padded && any == with_n
}

/// Whether the entries land inside the aligned letters, each past the one before.
#[inline(always)]
unsafe fn entries_fit(entries: *const u8, count: usize, aligned: usize) -> bool {
    let mut place = 0;
    for k in 0..count {
        let offset = (*entries.add(k) >> 2) as usize;
        if offset == 0 && k > 0 {
            return false;
        }
        place += offset;
    }
    place < aligned
}

/// Where an aligned read lies: its strand, its lowest index, how many letters stand before the
/// aligned ones.
struct Place {
    forward: bool,
    leftmost: usize,
    left: usize,
    aligned: usize,
}

/// How many entries change their letter and stand under no N.
#[inline(always)]
unsafe fn differences(
    reference: &[u8],
    place: &Place,
    entries: *const u8,
    count: usize,
    ns: &[usize],
) -> u64 {
    let (mut differences, mut at) = (0, 0);
    for k in 0..count {
        let entry = *entries.add(k);
        at += (entry >> 2) as usize;
        let along = if place.forward { at } else { place.aligned - 1 - at };
        let index = place.leftmost + along;
        let code = *reference.get_unchecked(index / 4) >> (6 - 2 * (index % 4)) & 3;
        let code = if place.forward { code } else { 3 - code };
        if code != entry & 3 && (ns.is_empty() || !ns.contains(&(place.left + at))) {
            differences += 1;
        }
    }
    differences
}

#[inline(always)]
unsafe fn run<const DIFFERENCES: bool>(
    bases: u64,
    reference: &[u8],
    block: &[u8],
) -> Option<Counts> {
    let header = Header::read(block).ok()?;
    let ns = header.section(block, N);
    let mut dna = Part::new(header.section(block, DNA));
    let mut lengths = Lengths {
        part: Part::new(header.section(block, SIZE)),
        fixed: header.same_length(),
        same: 0,
        sizes: 0,
        length: if header.same_length() { header.l_read as usize } else { 0 },
    };
    let reads = header.reads as usize;
    let each_fits = (1..=MAX_READ_LENGTH).contains(&lengths.length);
    if ns.len() != (reads + 7) / 8 || lengths.fixed && reads > 0 && !each_fits {
        return None;
    }
    let mut group = Group::NONE;
    let mut position = 0;
    let (mut letters, mut entry_sum, mut difference_sum, mut top) = (0, 0, 0, 0);
    for read in 0..reads {
        if read % 8 == 0 {
            group = Group::read(dna.take(4)?);
            let any = group.perfect | group.forward | group.with_n | group.step;
            let left = reads - read;
            if left < 8 && any & (0xff >> left) != 0 {
                return None;
            }
            if *ns.get_unchecked(read / 8) != group.with_n {
                return None;
            }
            lengths.next_group()?;
        }
        let length = lengths.next()?;
        let with_n = group.with_n >= 128;
        let (mut kind, mut count) = (4, 0);
        if group.perfect < 128 {
            let flag = *dna.take(1)?;
            (kind, count) = (flag & 7, (flag >> 3) as usize);
            if kind == 4 && count == 0 {
                return None;
            }
        }
        let mut place =
            Place { forward: group.forward >= 128, leftmost: 0, left: 0, aligned: length };
        let mut entries = dna.at;
        if kind & 3 == 0 {
            let width = if group.step >= 128 { 2 } else { 4 };
            let at = dna.take(width + count)?;
            if group.step >= 128 {
                position += (at as *const u16).read_unaligned() as usize;
            } else {
                position = (at as *const u32).read_unaligned() as usize;
            }
            entries = at.add(width);
            place.leftmost = position;
            if kind == 0 {
                let clips = dna.take(2)?;
                place.left = *clips as usize;
                let clipped = place.left + *clips.add(1) as usize;
                let packed = dna.take((clipped + 3) / 4)?;
                if clipped == 0 || clipped >= length || !padding_is_zero(packed, clipped) {
                    return None;
                }
                place.aligned = length - clipped;
                // A reverse local stretch ends at its position.
                if !place.forward {
                    place.leftmost = (position + 1).checked_sub(place.aligned)?;
                }
            }
            let inside = (place.leftmost + place.aligned) as u64 <= bases;
            if !inside || !entries_fit(entries, count, place.aligned) {
                return None;
            }
            entry_sum += count as u64;
            top += (count == MAX_ENTRIES) as u64;
        } else {
            if count != 0 || kind > 2 || (group.forward | group.step) >= 128 {
                return None;
            }
            let bytes = if kind == 2 { (length + 3) / 4 } else { (length + 1) / 2 };
            let packed = dna.take(bytes)?;
            let valid = if kind == 2 {
                padding_is_zero(packed, length)
            } else {
                raw4_is_valid(packed, length, with_n)
            };
            if !valid {
                return None;
            }
        }
        let mut places = [0; 32];
        let mut n = 0;
        if with_n && kind != 1 {
            n = *dna.take(1)? as usize;
            if n == 0 || n > 31 {
                return None;
            }
            let mut before = 0;
            for k in 0..n {
                let at = dna.take_number(before, length)?;
                if k > 0 && at == before {
                    return None;
                }
                places[k] = at;
                before = at;
            }
        }
        if DIFFERENCES && count > 0 {
            difference_sum += differences(reference, &place, entries, count, &places[..n]);
        }
        letters += length as u64;
        group.shift();
    }
    let names = || plain::judge(header.section(block, NAMES), reads);
    let all = dna.at == dna.end
        && lengths.all_taken()
        && letters == header.dna_raw_size
        && (!header.names_stored() || names());
    all.then_some([header.reads, letters, entry_sum, difference_sum, top])
}

/// The counts of a block; None where it is refused.
#[inline(never)]
pub unsafe fn validate(bases: u64, reference: &[u8], block: &[u8]) -> Option<Counts> {
    run::<true>(bases, reference, block)
}

/// The same without the differences, which are 0: who writes the letters can count them.
#[inline(never)]
pub unsafe fn decide(bases: u64, reference: &[u8], block: &[u8]) -> Option<Counts> {
    run::<false>(bases, reference, block)
}
