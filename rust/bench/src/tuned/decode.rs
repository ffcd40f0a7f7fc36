//! The decoder that trusts its block: one pass and no check. It counts differences by looking at a
//! letter before it is replaced. Names are not read.
use super::{take_word, Counts, Group, Tables, MAX_ENTRIES, WORD_ESCAPE};
use second::header::{Header, DNA, SIZE};

/// A, C, G, T as the bytes of one number.
const LETTERS: u32 = u32::from_le_bytes(*b"ACGT");

/// The lengths of the reads, one after the other.
struct Lengths {
    at: *const u8,
    fixed: bool,
    same: u8,
    sizes: u8,
    length: usize,
}

impl Lengths {
    #[inline(always)]
    unsafe fn next_group(&mut self) {
        if !self.fixed {
            self.same = *self.at;
            self.sizes = *self.at.add(1);
            self.at = self.at.add(2);
        }
    }

    #[inline(always)]
    unsafe fn next(&mut self) -> usize {
        if self.fixed {
            return self.length;
        }
        if self.same < 128 {
            if self.sizes >= 128 {
                self.length = *self.at as usize;
                self.at = self.at.add(1);
            } else {
                self.length = take_number(&mut self.at);
            }
        }
        self.same <<= 1;
        self.sizes <<= 1;
        self.length
    }
}

/// An escape-coded number.
#[inline(always)]
unsafe fn take_number(at: &mut *const u8) -> usize {
    let mut sum = 0;
    loop {
        let word = take_word(at);
        sum += word;
        if word < WORD_ESCAPE {
            return sum;
        }
    }
}

/// Eight letters for two bytes of bases.
#[inline(always)]
unsafe fn put_eight(table: &[u32; 256], first: u8, second: u8, to: *mut u8) {
    let word = |byte: u8| *table.get_unchecked(byte as usize) as u64;
    (to as *mut u64).write_unaligned(word(first) | word(second) << 32);
}

/// The letters of `n` bases from `leftmost` on, and up to 12 letters more.
#[inline(always)]
unsafe fn put_forward(from: *const u8, leftmost: usize, n: usize, table: &[u32; 256], to: *mut u8) {
    let byte = from.add(leftmost / 4);
    let both = (*byte as usize) << 8 | *byte.add(1) as usize;
    let first = both >> (8 - 2 * (leftmost % 4)) & 255;
    (to as *mut u32).write_unaligned(*table.get_unchecked(first));
    let head = 4 - leftmost % 4;
    let (byte, to) = (byte.add(1), to.add(head));
    for k in 0..(n + 7 - head) / 8 {
        put_eight(table, *byte.add(2 * k), *byte.add(2 * k + 1), to.add(8 * k));
    }
}

/// The same bases from the other end, complemented.
#[inline(always)]
unsafe fn put_reverse(from: *const u8, leftmost: usize, n: usize, table: &[u32; 256], to: *mut u8) {
    let last = leftmost + n;
    let head = last % 4;
    let byte = from.add(last / 4);
    if head > 0 {
        let first = (*byte as usize) >> (8 - 2 * head);
        (to as *mut u32).write_unaligned(*table.get_unchecked(first));
    }
    let to = to.add(head);
    for k in 0..(n + 7 - head) / 8 {
        put_eight(table, *byte.sub(2 * k + 1), *byte.sub(2 * k + 2), to.add(8 * k));
    }
}

#[inline(always)]
unsafe fn put_stretch(
    forward: bool,
    from: *const u8,
    leftmost: usize,
    n: usize,
    tables: &Tables,
    to: *mut u8,
) {
    if forward {
        put_forward(from, leftmost, n, &tables.forward, to);
    } else {
        put_reverse(from, leftmost, n, &tables.reverse, to);
    }
}

/// The entries onto the letters from `to` on: how many are differences.
#[inline(always)]
unsafe fn put_entries(entries: *const u8, count: usize, mut to: *mut u8) -> u64 {
    let mut differences = 0;
    for k in 0..count {
        let entry = *entries.add(k);
        to = to.add((entry >> 2) as usize);
        let letter = (LETTERS >> (8 * (entry & 3))) as u8;
        if *to != b'N' {
            differences += (*to != letter) as u64;
            *to = letter;
        }
    }
    differences
}

/// The N list at `at` onto a read's letters.
#[inline(always)]
unsafe fn put_ns(at: &mut *const u8, mut to: *mut u8) {
    let n = **at;
    *at = at.add(1);
    for _ in 0..n {
        to = to.add(take_number(at));
        *to = b'N';
    }
}

/// Decodes a well-formed block. Around the reference, past the letters and past the block there are
/// bytes to spare.
#[inline(never)]
pub unsafe fn decode(
    reference: *const u8,
    block: &[u8],
    tables: &Tables,
    letters: *mut u8,
    ends: *mut u32,
) -> Counts {
    let header = Header::read(block).ok().unwrap();
    let mut lengths = Lengths {
        at: header.section(block, SIZE).as_ptr(),
        fixed: header.same_length(),
        same: 0,
        sizes: 0,
        length: header.l_read as usize,
    };
    let mut at = header.section(block, DNA).as_ptr();
    let mut to = letters;
    let mut group = Group::NONE;
    let mut position = 0;
    let (mut entry_sum, mut differences, mut top) = (0, 0, 0);
    for read in 0..header.reads as usize {
        if read % 8 == 0 {
            group = Group::read(at);
            at = at.add(4);
            lengths.next_group();
        }
        let length = lengths.next();
        let forward = group.forward >= 128;
        let (mut kind, mut count, mut left) = (4, 0, 0);
        if group.perfect < 128 {
            (kind, count) = (*at & 7, (*at >> 3) as usize);
            at = at.add(1);
        }
        let mut entries = at;
        if kind & 3 == 0 {
            if group.step >= 128 {
                position += take_word(&mut at);
            } else {
                position = (at as *const u32).read_unaligned() as usize;
                at = at.add(4);
            }
            entries = at;
            at = at.add(count);
            if kind == 4 {
                put_stretch(forward, reference, position, length, tables, to);
            } else {
                left = *at as usize;
                let right = *at.add(1) as usize;
                let aligned = length - left - right;
                // A reverse local stretch ends at its position.
                let leftmost = if forward { position } else { position + 1 - aligned };
                let packed = at.add(2);
                put_forward(packed, 0, left, &tables.forward, to);
                put_stretch(forward, reference, leftmost, aligned, tables, to.add(left));
                put_forward(packed, left, right, &tables.forward, to.add(left + aligned));
                at = packed.add((left + right + 3) / 4);
            }
        } else if kind == 2 {
            put_forward(at, 0, length, &tables.forward, to);
            at = at.add((length + 3) / 4);
        } else {
            for k in 0..(length + 1) / 2 {
                let pair = *tables.pairs.get_unchecked(*at.add(k) as usize);
                (to.add(2 * k) as *mut u16).write_unaligned(pair);
            }
            at = at.add((length + 1) / 2);
        }
        if group.with_n >= 128 && kind != 1 {
            put_ns(&mut at, to);
        }
        if count > 0 {
            entry_sum += count as u64;
            top += (count == MAX_ENTRIES) as u64;
            differences += put_entries(entries, count, to.add(left));
        }
        to = to.add(length);
        *ends.add(read) = to.offset_from(letters) as u32;
        group.shift();
    }
    [header.reads, to.offset_from(letters) as u64, entry_sum, differences, top]
}
