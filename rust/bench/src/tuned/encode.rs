//! The encoder: letters are checked sixteen at once, then all is written in one pass. Nothing is
//! counted before, so the caller has room for any block. Differences are found by comparing eight
//! letters with two words of a table. Names are written by the plain code.
use super::{Tables, WORD_ESCAPE};
use crate::names::plain;
use ora::Columns;

const HEADER_BYTES: usize = 121;

/// More entries or N positions than a record can have.
const TOO_MANY: usize = 32;

/// The code of A, C, G or T.
#[inline(always)]
fn code(letter: u8) -> u8 {
    let x = letter >> 1 & 3;
    x ^ x >> 1
}

/// The code of a letter, and `n` for N.
#[inline(always)]
fn code_or(letter: u8, n: u8) -> u8 {
    if letter == b'N' {
        n
    } else {
        code(letter)
    }
}

#[inline(always)]
unsafe fn put_u16(at: &mut *mut u8, number: u16) {
    (*at as *mut u16).write_unaligned(number);
    *at = at.add(2);
}

/// An escape-coded number.
#[inline(always)]
unsafe fn put_number(at: &mut *mut u8, mut number: usize) {
    while number >= WORD_ESCAPE {
        put_u16(at, WORD_ESCAPE as u16);
        number -= WORD_ESCAPE;
    }
    put_u16(at, number as u16);
}

/// Letters on one strand of the reference.
struct Stretch<'a, const FORWARD: bool> {
    reference: *const u8,
    leftmost: usize,
    letters: *const u8,
    n: usize,
    tables: &'a Tables,
}

impl<const FORWARD: bool> Stretch<'_, FORWARD> {
    /// The code that the reference gives for letter `p`.
    #[inline(always)]
    unsafe fn given(&self, p: usize) -> u8 {
        let index = if FORWARD { self.leftmost + p } else { self.leftmost + self.n - 1 - p };
        let code = *self.reference.add(index / 4) >> (6 - 2 * (index % 4)) & 3;
        if FORWARD {
            code
        } else {
            3 - code
        }
    }

    /// Whether letter `p` is the first for a byte of the reference.
    #[inline(always)]
    fn starts_byte(&self, p: usize) -> bool {
        let edge = if FORWARD { self.leftmost + p } else { self.leftmost + self.n - p };
        edge % 4 == 0
    }

    /// The letters that the reference gives for eight from `p` on, which starts a byte.
    #[inline(always)]
    unsafe fn eight(&self, p: usize) -> u64 {
        let (table, first, second) = if FORWARD {
            let byte = self.reference.add((self.leftmost + p) / 4);
            (&self.tables.forward, *byte, *byte.add(1))
        } else {
            let byte = self.reference.add((self.leftmost + self.n - p) / 4);
            (&self.tables.reverse, *byte.sub(1), *byte.sub(2))
        };
        let word = |byte: u8| *table.get_unchecked(byte as usize) as u64;
        word(first) | word(second) << 32
    }

    /// The first difference from `p` on; `n` where there is none.
    #[inline(always)]
    unsafe fn next_difference(&self, mut p: usize) -> usize {
        while p < self.n {
            if self.starts_byte(p) {
                while p + 8 <= self.n {
                    let have = (self.letters.add(p) as *const u64).read_unaligned();
                    let differing = self.eight(p) ^ have;
                    if differing != 0 {
                        let k = differing.trailing_zeros() as usize / 8;
                        if *self.letters.add(p + k) != b'N' {
                            return p + k;
                        }
                        p += k + 1;
                        break;
                    }
                    p += 8;
                }
                if !self.starts_byte(p) {
                    continue;
                }
            }
            if p < self.n {
                let letter = *self.letters.add(p);
                if letter != b'N' && code(letter) != self.given(p) {
                    return p;
                }
                p += 1;
            }
        }
        self.n
    }

    /// The entries, fillers included: how many, or TOO_MANY.
    unsafe fn entries(&self, list: &mut [u8; TOO_MANY]) -> usize {
        let (mut count, mut before, mut p) = (0, 0, 0);
        loop {
            p = self.next_difference(p);
            if p >= self.n {
                return count;
            }
            while p - before > 63 {
                before += 63;
                if count == TOO_MANY - 1 {
                    return TOO_MANY;
                }
                list[count] = 63 << 2 | self.given(before);
                count += 1;
            }
            if count == TOO_MANY - 1 {
                return TOO_MANY;
            }
            list[count] = ((p - before) as u8) << 2 | code(*self.letters.add(p));
            count += 1;
            before = p;
            p += 1;
        }
    }
}

/// The letters of a raw4 record.
#[inline(always)]
unsafe fn put_raw4(at: &mut *mut u8, read: &[u8]) {
    for pair in read.chunks_exact(2) {
        **at = code_or(pair[0], 4) << 4 | code_or(pair[1], 4);
        *at = at.add(1);
    }
    if read.len() % 2 != 0 {
        **at = code_or(read[read.len() - 1], 4) << 4;
        *at = at.add(1);
    }
}

/// Letters of two bits each.
#[inline(always)]
unsafe fn put_packed(at: &mut *mut u8, letters: impl ExactSizeIterator<Item = u8>) {
    let bytes = (letters.len() + 3) / 4;
    for (k, letter) in letters.enumerate() {
        if k % 4 == 0 {
            *at.add(k / 4) = 0;
        }
        *at.add(k / 4) |= code_or(letter, 0) << (6 - 2 * (k % 4));
    }
    *at = at.add(bytes);
}

/// The letters of a raw record, four at once.
#[inline(always)]
unsafe fn put_raw(at: &mut *mut u8, read: &[u8], with_n: bool) {
    let full = read.len() / 4;
    for k in 0..full {
        let mut four = (read.as_ptr().add(4 * k) as *const u32).read_unaligned();
        if with_n {
            let known = |letter: u8| if letter == b'N' { b'A' } else { letter };
            four = u32::from_le_bytes(four.to_le_bytes().map(known));
        }
        let x = four >> 1 & 0x0303_0303;
        *at.add(k) = ((x ^ x >> 1 & 0x0101_0101).wrapping_mul(0x4010_0401) >> 24) as u8;
    }
    *at = at.add(full);
    put_packed(at, read[4 * full..].iter().copied());
}

/// The N list of a read.
#[inline(always)]
unsafe fn put_n_list(at: &mut *mut u8, read: &[u8], ns: usize) {
    **at = ns as u8;
    *at = at.add(1);
    let mut before = 0;
    for (k, &letter) in read.iter().enumerate() {
        if letter == b'N' {
            put_number(at, k - before);
            before = k;
        }
    }
}

/// The size section of reads of unequal lengths.
unsafe fn put_sizes(at: &mut *mut u8, ends: &[u32]) {
    let (mut before, mut previous) = (0, 0);
    for group in ends.chunks(8) {
        let flags = *at;
        let (mut same, mut sizes) = (0, 0);
        *at = at.add(2);
        for (k, &end) in group.iter().enumerate() {
            let length = end - before;
            if length == previous {
                same |= 128 >> k;
            } else if length < 256 {
                sizes |= 128 >> k;
                **at = length as u8;
                *at = at.add(1);
            } else {
                put_number(at, length as usize);
            }
            (before, previous) = (end, length);
        }
        *flags = same;
        *flags.add(1) = sizes;
    }
}

/// The header: the lengths of the four sections, and the length of each read where all are equal,
/// else 0.
unsafe fn put_header(
    out: *mut u8,
    sections: [usize; 4],
    each: u32,
    columns: &Columns,
    b_id: u64,
    c_time: u64,
) {
    let put_u32 = |at: usize, number: u32| (out.add(at) as *mut u32).write_unaligned(number);
    std::ptr::write_bytes(out, 0, HEADER_BYTES);
    (out as *mut [u8; 2]).write([0x49, 0x7C]);
    put_u32(2, HEADER_BYTES as u32);
    for (at, length) in [6, 10, 22, 26].into_iter().zip(sections) {
        put_u32(at, length as u32);
    }
    put_u32(42, 8 | (each > 0) as u32);
    put_u32(46, each);
    put_u32(50, columns.ends.len() as u32);
    (out.add(54) as *mut u16).write_unaligned(20505);
    (out.add(56) as *mut u64).write_unaligned(b_id);
    *out.add(64) = 40;
    put_u32(73, columns.letters.len() as u32);
    (out.add(89) as *mut u64).write_unaligned(c_time);
}

/// Whether the letters are such, and the ends rise as they must.
#[inline(always)]
fn is_valid(columns: &Columns) -> bool {
    let mut bad = 0;
    for &c in columns.letters {
        bad |= !(c == b'A' || c == b'C' || c == b'G' || c == b'T' || c == b'N') as u8;
    }
    let mut before = 0;
    for &end in columns.ends {
        bad |= (end.wrapping_sub(before).wrapping_sub(1) >= 100_000) as u8;
        before = end;
    }
    bad == 0 && before as usize == columns.letters.len()
}

/// The length of each read where all have the same, else 0.
fn common_length(ends: &[u32]) -> u32 {
    let each = ends.first().map_or(0, |&end| end);
    let equal = ends.windows(2).all(|pair| pair[1] - pair[0] == each);
    each * equal as u32
}

/// Writes the block of these reads, and answers its length; 0 where letters, ends or names are
/// refused.
#[inline(never)]
pub unsafe fn encode(
    bases: u64,
    reference: &[u8],
    columns: &Columns,
    b_id: u64,
    c_time: u64,
    tables: &Tables,
    out: *mut u8,
) -> usize {
    let mut names: Vec<u8> = Vec::with_capacity(4 * columns.names.len());
    if !is_valid(columns) || plain::write(columns.names, columns.name_ends, &mut names).is_none() {
        return 0;
    }
    let reads = columns.ends.len();
    let mut n_section: Vec<u8> = Vec::with_capacity(reads / 8 + 1);
    let mut list = [0; TOO_MANY];
    let dna = out.add(HEADER_BYTES);
    let mut at = dna;
    let mut group = at;
    let mut bytes = [0u8; 4];
    let (mut from, mut previous) = (0, 0u32);
    for i in 0..reads {
        if i % 8 == 0 {
            group = at;
            at = at.add(4);
            bytes = [0; 4];
        }
        let bit = 0x80 >> (i % 8);
        let to = *columns.ends.get_unchecked(i) as usize;
        let read = columns.letters.get_unchecked(from..to);
        let any = read.iter().fold(0, |any, &c| any | (c == b'N') as u8);
        let ns = if any == 0 { 0 } else { read.iter().filter(|&&c| c == b'N').count() };
        if ns > 0 {
            bytes[2] |= bit;
        }
        let position = *columns.positions.get_unchecked(i);
        let strand = *columns.strands.get_unchecked(i);
        let left = *columns.lefts.get_unchecked(i) as usize;
        let right = *columns.rights.get_unchecked(i) as usize;
        let clipped = left + right;
        let mut count = TOO_MANY;
        if ns < TOO_MANY && (strand == 1 || strand == 2) && clipped < read.len() {
            let (leftmost, n) = (position as usize, read.len() - clipped);
            let (reference, letters) = (reference.as_ptr(), read.as_ptr().add(left));
            if (leftmost + n) as u64 <= bases {
                count = if strand == 1 {
                    Stretch::<true> { reference, leftmost, letters, n, tables }.entries(&mut list)
                } else {
                    Stretch::<false> { reference, leftmost, letters, n, tables }.entries(&mut list)
                };
            }
        }
        if ns >= TOO_MANY {
            *at = 1;
            at = at.add(1);
            put_raw4(&mut at, read);
        } else if count >= TOO_MANY {
            *at = 2;
            at = at.add(1);
            put_raw(&mut at, read, ns > 0);
        } else {
            if strand == 1 {
                bytes[1] |= bit;
            }
            if count + clipped == 0 {
                bytes[0] |= bit;
            } else {
                *at = (count as u8) << 3 | if clipped == 0 { 4 } else { 0 };
                at = at.add(1);
            }
            // A reverse local stretch ends at its position.
            let runs_down = strand == 2 && clipped > 0;
            let above = if runs_down { read.len() - clipped - 1 } else { 0 };
            let position = position + above as u32;
            let step = position.wrapping_sub(previous);
            if position >= previous && step <= 65535 {
                bytes[3] |= bit;
                put_u16(&mut at, step as u16);
            } else {
                (at as *mut u32).write_unaligned(position);
                at = at.add(4);
            }
            previous = position;
            std::ptr::copy_nonoverlapping(list.as_ptr(), at, TOO_MANY);
            at = at.add(count);
            if clipped > 0 {
                put_u16(&mut at, u16::from_le_bytes([left as u8, right as u8]));
                let place = |k: usize| if k < left { k } else { read.len() - clipped + k };
                put_packed(&mut at, (0..clipped).map(|k| *read.get_unchecked(place(k))));
            }
        }
        if ns > 0 && ns < TOO_MANY {
            put_n_list(&mut at, read, ns);
        }
        (group as *mut u32).write_unaligned(u32::from_le_bytes(bytes));
        if i % 8 == 7 || i + 1 == reads {
            n_section.push(bytes[2]);
        }
        from = to;
    }
    let names_at = at;
    std::ptr::copy_nonoverlapping(names.as_ptr(), at, names.len());
    at = at.add(names.len());
    let sizes = at;
    let each = common_length(columns.ends);
    if each == 0 {
        put_sizes(&mut at, columns.ends);
    }
    let dna_length = names_at.offset_from(dna) as usize;
    let lengths = [dna_length, names.len(), at.offset_from(sizes) as usize, n_section.len()];
    std::ptr::copy_nonoverlapping(n_section.as_ptr(), at, n_section.len());
    put_header(out, lengths, each, columns, b_id, c_time);
    at.offset_from(out) as usize + n_section.len()
}
