//! The writers that are compared. Each writes the letters of a stretch to the start of `out`, which is exactly
//! as long as the stretch; the stretch lies inside the reference.

/// The letters of the base codes 0 to 3.
const LETTERS: [u8; 4] = *b"ACGT";

/// The words of the 256 bytes on one strand, four letters each, in the lower half of a number.
pub type Table = [u64; 256];

/// Which stretch of the reference: its lowest index.
pub type Writer = fn(reference: &[u8], leftmost: usize, table: &Table, out: &mut [u8]);

mod proved {
    extern "C" {
        pub fn bench_fill_words(forward: bool, table: *mut u64, length: usize);
        pub fn bench_put_stretch_forward(
            reference: *const u8,
            reference_length: usize,
            leftmost: usize,
            bases: usize,
            table: *const u64,
            out: *mut u8,
            out_length: usize,
            at: usize,
        );
        pub fn bench_put_stretch_reverse(
            reference: *const u8,
            reference_length: usize,
            leftmost: usize,
            bases: usize,
            table: *const u64,
            out: *mut u8,
            out_length: usize,
            at: usize,
        );
    }
}

/// The table of a strand, made by the proved code.
pub fn proved_table(forward: bool) -> Table {
    let mut table = [0; 256];
    // SAFETY: the pointer and the length are those of one array.
    unsafe { proved::bench_fill_words(forward, table.as_mut_ptr(), table.len()) };
    table
}

/// The table of a strand, made by plain Rust.
pub fn plain_table(forward: bool) -> Table {
    let mut table = [0; 256];
    for (byte, word) in table.iter_mut().enumerate() {
        let mut letters = [0; 4];
        if forward {
            plain_forward(&[byte as u8], 0, &mut letters);
        } else {
            plain_reverse(&[byte as u8], 0, &mut letters);
        }
        *word = u32::from_le_bytes(letters) as u64;
    }
    table
}

fn code(reference: &[u8], index: usize) -> u8 {
    reference[index / 4] >> (6 - 2 * (index % 4)) & 3
}

/// A letter a turn.
pub fn plain_forward(reference: &[u8], leftmost: usize, out: &mut [u8]) {
    for (k, letter) in out.iter_mut().enumerate() {
        *letter = LETTERS[code(reference, leftmost + k) as usize];
    }
}

/// A letter a turn, from the stretch's other end, each complemented.
pub fn plain_reverse(reference: &[u8], leftmost: usize, out: &mut [u8]) {
    let last = leftmost + out.len();
    for (k, letter) in out.iter_mut().enumerate() {
        *letter = LETTERS[3 - code(reference, last - 1 - k) as usize];
    }
}

#[inline(never)]
pub fn call_plain_forward(reference: &[u8], leftmost: usize, _: &Table, out: &mut [u8]) {
    plain_forward(reference, leftmost, out);
}

#[inline(never)]
pub fn call_plain_reverse(reference: &[u8], leftmost: usize, _: &Table, out: &mut [u8]) {
    plain_reverse(reference, leftmost, out);
}

pub fn call_proved_forward(reference: &[u8], leftmost: usize, table: &Table, out: &mut [u8]) {
    // SAFETY: pointers and lengths are those of the slices; the stretch is inside the reference, and the table is
    // the forward strand's.
    unsafe {
        proved::bench_put_stretch_forward(
            reference.as_ptr(),
            reference.len(),
            leftmost,
            out.len(),
            table.as_ptr(),
            out.as_mut_ptr(),
            out.len(),
            0,
        );
    }
}

pub fn call_proved_reverse(reference: &[u8], leftmost: usize, table: &Table, out: &mut [u8]) {
    // SAFETY: as above, with the reverse strand's table.
    unsafe {
        proved::bench_put_stretch_reverse(
            reference.as_ptr(),
            reference.len(),
            leftmost,
            out.len(),
            table.as_ptr(),
            out.as_mut_ptr(),
            out.len(),
            0,
        );
    }
}

/// The two bytes of the eight bases from an index on, at any alignment.
#[inline(always)]
unsafe fn eight(reference: *const u8, index: usize) -> (usize, usize) {
    let byte = |i: usize| *reference.add(i) as usize;
    let three = byte(index / 4) << 16 | byte(index / 4 + 1) << 8 | byte((index + 7) / 4);
    let two = three >> (8 - 2 * (index % 4));
    (two >> 8 & 255, two & 255)
}

/// Eight letters in one write.
#[inline(always)]
unsafe fn write(table: &Table, first: usize, second: usize, out: *mut u8) {
    let word = *table.get_unchecked(first) | *table.get_unchecked(second) << 32;
    (out as *mut u64).write_unaligned(word.to_le());
}

/// Writes of eight letters, the ends overlapped, with no checks.
#[inline(never)]
pub fn best_forward(reference: &[u8], leftmost: usize, table: &Table, out: &mut [u8]) {
    let bases = out.len();
    if bases < 8 {
        plain_forward(reference, leftmost, out);
        return;
    }
    // SAFETY: the stretch is inside the reference, and each write inside `out`.
    unsafe {
        let (from, to) = (reference.as_ptr(), out.as_mut_ptr());
        let (a, b) = eight(from, leftmost);
        write(table, a, b, to);
        let head = 4 - leftmost % 4;
        let byte = from.add(leftmost / 4 + 1);
        for k in 0..(bases - head) / 8 {
            let (a, b) = (*byte.add(2 * k) as usize, *byte.add(2 * k + 1) as usize);
            write(table, a, b, to.add(head + 8 * k));
        }
        let (a, b) = eight(from, leftmost + bases - 8);
        write(table, a, b, to.add(bases - 8));
    }
}

/// The same on the reverse strand.
#[inline(never)]
pub fn best_reverse(reference: &[u8], leftmost: usize, table: &Table, out: &mut [u8]) {
    let bases = out.len();
    if bases < 8 {
        plain_reverse(reference, leftmost, out);
        return;
    }
    // SAFETY: the stretch is inside the reference, and each write inside `out`.
    unsafe {
        let (from, to) = (reference.as_ptr(), out.as_mut_ptr());
        let last = leftmost + bases;
        let (a, b) = eight(from, last - 8);
        write(table, b, a, to);
        let head = last % 4;
        let byte = from.add(last / 4);
        for k in 0..(bases - head) / 8 {
            let (a, b) = (*byte.sub(2 * k + 1) as usize, *byte.sub(2 * k + 2) as usize);
            write(table, a, b, to.add(head + 8 * k));
        }
        let (a, b) = eight(from, leftmost);
        write(table, b, a, to.add(bases - 8));
    }
}
