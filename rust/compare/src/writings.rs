//! The families of cases that are written: random calls and faults of the second implementation's
//! proposals, and reads made here for the edges of the fixed rule.

pub mod names;
pub mod saturated;

use crate::case::{Work, Writing};
use crate::stock::Stock;
use second::generator::{generate_reference, ReferencePlan};
use second::name_plans::{draw_rows, joined};
use second::prng::Prng;
use second::proposals::{random_call, spoil_call, stepping_call, EncodeCall, Proposal};
use second::reference::{Reference, Strand, MAX_BASES};

/// The length of the block that a call makes, or 0.
fn block_length(call: &EncodeCall) -> usize {
    call.run(&mut vec![0; call.enough()]).length as usize
}

/// Room for the block: just enough, more, or one byte too little.
fn lend(rng: &mut Prng, call: &mut EncodeCall) {
    let length = block_length(call);
    call.capacity = rng.pick(&[length, length, length + 1, length + 40, length.saturating_sub(1)]);
}

fn small_call(rng: &mut Prng) -> EncodeCall {
    let bases = rng.pick(&[0, 1, 2, 12, 63, 64, 65, 200, 300, 700, 1500]);
    let reference = generate_reference(rng, bases);
    let max_length = rng.pick(&[1, 5, 40, 40, 150, 300, 800]);
    let max_reads = if max_length > 150 { 3 } else { rng.range(1, 20) };
    random_call(rng, &reference, max_reads, max_length)
}

pub fn random(rng: &mut Prng, _: &Stock) -> Work {
    let mut call = small_call(rng);
    lend(rng, &mut call);
    Work::Writing(Writing::of_call(call))
}

/// Each of 1, 31 to 34 and 41 as often.
pub fn one_fault(rng: &mut Prng, _: &Stock) -> Work {
    let number = rng.pick(&[1, 31, 32, 33, 34, 41]);
    Work::Writing(Writing::of_call(spoiled(rng, &[number])))
}

/// Names are spoiled once.
pub fn two_faults(rng: &mut Prng, _: &Stock) -> Work {
    let first = rng.pick(&[1, 31, 32, 33, 41]);
    let second: &[u32] = if first == 41 { &[31, 32, 33, 34] } else { &[31, 32, 33, 34, 41, 41] };
    let numbers = [first, rng.pick(second)];
    Work::Writing(Writing::of_call(spoiled(rng, &numbers)))
}

fn spoiled(rng: &mut Prng, numbers: &[u32]) -> EncodeCall {
    loop {
        let mut call = small_call(rng);
        let length = block_length(&call);
        call.capacity = length + 5;
        if numbers.iter().all(|&number| spoil_call(&mut call, number, length, rng)) {
            return call;
        }
    }
}

/// 30, also where the candidates, the ends, the names or the reference would be refused.
pub fn too_many_reads(rng: &mut Prng, _: &Stock) -> Work {
    let mut call = small_call(rng);
    let reads = rng.pick(&[50_001, 50_001, 50_001, 50_000, 65_536, 65_537]);
    call.ends.resize(reads, 0);
    if rng.coin() {
        call.ends = (1..=reads as u32).collect();
    }
    if rng.once_in(8) {
        call.reference.push(0);
    }
    call.capacity = 200;
    Work::Writing(Writing::of_call(call))
}

fn letters_of(codes: &[u8]) -> Vec<u8> {
    codes.iter().map(|&code| b"ACGT"[code as usize]).collect()
}

fn other_letter(rng: &mut Prng, letter: u8) -> u8 {
    let others: Vec<u8> = b"ACGT".iter().copied().filter(|&other| other != letter).collect();
    rng.pick(&others)
}

/// A read with these clips whose aligned letters are what the reference gives.
fn cut_read(
    rng: &mut Prng,
    reference: &Reference,
    position: u64,
    span: u64,
    clips: (u8, u8),
) -> Proposal {
    let (strand, byte) = rng.pick(&[(Strand::Forward, 1), (Strand::Reverse, 2)]);
    let mut letters: Vec<u8> = (0..clips.0).map(|_| rng.pick(b"ACGT")).collect();
    letters.extend(letters_of(&reference.stretch(position, span, strand)));
    letters.extend((0..clips.1).map(|_| rng.pick(b"ACGT")));
    let (left, right) = clips;
    Proposal { letters, position: position as u32, strand: byte, left, right }
}

/// Reads with differences at chosen gaps: around 63 and its multiples, 30 to 33 of them, a lone one
/// around 1953; N on differences and on fillers; clips of 255.
pub fn gaps(rng: &mut Prng, stock: &Stock) -> Work {
    let reference = Reference::new(stock.long.bases, &stock.long_bytes).unwrap();
    let mut proposals = Vec::new();
    for _ in 0..rng.pick(&[1, 1, 2]) {
        let span = rng.pick(&[66, 130, 300, 700, 2100, 2100]);
        let clips = rng.pick(&[(0, 0), (0, 0), (1, 0), (0, 3), (255, 0), (0, 255), (255, 255)]);
        let position = rng.below(stock.long.bases - span);
        let mut read = cut_read(rng, &reference, position, span, clips);
        let aligned = &mut read.letters[clips.0 as usize..][..span as usize];
        let wide = rng.coin();
        let mut place = match rng.below(4) {
            0 => rng.range(1951, 1955),
            1 => 0,
            _ => gap(rng, wide),
        };
        for _ in 0..rng.pick(&[1, 2, 3, 30, 31, 32, 33]) {
            let Some(letter) = aligned.get_mut(place as usize) else { break };
            *letter = other_letter(rng, *letter);
            place += gap(rng, wide);
        }
        put_n(rng, &mut read.letters, clips.0 as usize);
        proposals.push(read);
    }
    let mut call = EncodeCall::new(&stock.long, &proposals, rng.next_u64(), rng.next_u64());
    lend(rng, &mut call);
    of_long(stock, call)
}

fn gap(rng: &mut Prng, wide: bool) -> u64 {
    if wide {
        rng.pick(&[62, 63, 64, 65, 125, 126, 127, 128, 189, 190, 252, 253, 1000])
    } else {
        rng.pick(&[1, 1, 1, 2, 3, 62, 63, 64, 126, 127])
    }
}

/// None, or up to 33 N: anywhere, or 63 letters apart from the first aligned one on, where fillers
/// are.
fn put_n(rng: &mut Prng, letters: &mut [u8], first: usize) {
    let count = rng.pick(&[0, 0, 0, 1, 2, 30, 31, 32, 33]);
    let (apart, by_steps) = (rng.pick(&[1, 63]), rng.coin());
    for index in 0..count {
        let any = rng.below(letters.len() as u64) as usize;
        let place = if by_steps { first + apart * (index + 1) } else { any };
        if let Some(letter) = letters.get_mut(place) {
            *letter = b'N';
        }
    }
}

/// A call under the long reference, which is shared.
fn of_long(stock: &Stock, call: EncodeCall) -> Work {
    let call = EncodeCall { reference: Vec::new(), ..call };
    let writing = Writing::of_call(call);
    Work::Writing(Writing { reference: stock.long_bytes.clone(), ..writing })
}

/// Steps of 65,535 and 65,536 and back, from a first position around 65,535, over reads without a
/// place. A reverse read with clips has its position 9 above its place.
pub fn steps(rng: &mut Prng, stock: &Stock) -> Work {
    let reference = Reference::new(stock.long.bases, &stock.long_bytes).unwrap();
    let any = rng.below(stock.long.bases - 10);
    let mut at = rng.pick(&[0, 1, 65_534, 65_535, 65_535, 65_536, 65_536, any]);
    let mut proposals = Vec::new();
    for _ in 0..rng.pick(&[1, 2, 4, 9, 18]) {
        let clips = rng.pick(&[(0, 0), (0, 0), (2, 1)]);
        let mut read = cut_read(rng, &reference, at, 10, clips);
        let runs_down = read.strand == 2 && clips != (0, 0);
        let position = if runs_down { at + 9 } else { at };
        if rng.once_in(4) {
            read.strand = 0;
        }
        if rng.once_in(4) {
            read.letters[3] = other_letter(rng, read.letters[3]);
        }
        proposals.push(read);
        let any = rng.below(stock.long.bases - 10);
        let apart = [0, 1, 65_526, 65_527, 65_534, 65_535, 65_535, 65_536, 65_536, 70_000];
        let on = position + rng.pick(&apart);
        at = if on + 10 > stock.long.bases || rng.once_in(6) { any } else { on };
    }
    let mut call = EncodeCall::new(&stock.long, &proposals, 1, 2);
    lend(rng, &mut call);
    of_long(stock, call)
}

/// Reads that are mostly reverse and clipped, near each other or about 65,535 bases apart.
pub fn clipped_steps(rng: &mut Prng, stock: &Stock) -> Work {
    let reads = rng.pick(&[2, 4, 9, 20]);
    let mut call = stepping_call(rng, &stock.long, reads);
    lend(rng, &mut call);
    of_long(stock, call)
}

/// Reads around the last base that a reference can have, and in its middle.
pub fn on_the_largest(rng: &mut Prng, stock: &Stock) -> Work {
    let reference = Reference::new(MAX_BASES, &stock.largest).unwrap();
    let mut proposals = Vec::new();
    for _ in 0..rng.pick(&[1, 2, 9]) {
        let span = rng.range(1, 30);
        let last = MAX_BASES - span;
        let near = last - rng.below(8_000);
        let position = rng.pick(&[last, last, near, near, last - 65_535, 0, (1 << 31) - 3]);
        let clips = rng.pick(&[(0, 0), (0, 0), (2, 1)]);
        let mut read = cut_read(rng, &reference, position, span, clips);
        if rng.once_in(3) {
            let place = rng.below(read.letters.len() as u64) as usize;
            read.letters[place] = other_letter(rng, read.letters[place]);
        }
        if rng.once_in(5) {
            let past = rng.range(last + 1, MAX_BASES) as u32;
            read.position = rng.pick(&[past, u32::MAX]);
        }
        proposals.push(read);
    }
    // The call would own its reference; the largest is shared.
    let none = ReferencePlan { bases: 0, letters: Vec::new(), bytes: Vec::new() };
    let call = EncodeCall::new(&none, &proposals, 3, 4);
    let writing = Writing::of_call(call);
    let (bases, reference) = (MAX_BASES, stock.largest.clone());
    Work::Writing(Writing { bases, reference, ..writing })
}

/// A call of the corpus, as it is or with one thing changed.
pub fn corpus(rng: &mut Prng, stock: &Stock) -> Work {
    let mut case = rng.pick(&stock.writings);
    let reads = case.ends.len() as u64;
    let read = rng.below(reads.max(1)) as usize;
    let byte = rng.byte();
    let any = rng.next_u64() as u32;
    let some = rng.pick(&[0, 1, 2, 3, 128, 255, byte]);
    match rng.below(11) {
        0 => {}
        1 => put(&mut case.strands, read, some),
        2 => put(&mut case.lefts, read, some),
        3 => put(&mut case.rights, read, some),
        4 => put(&mut case.positions, read, rng.pick(&[0, 1, 8, 9, 12, 65_535, u32::MAX, any])),
        5 => {
            let end = case.ends.get(read).copied().unwrap_or(0);
            put(&mut case.ends, read, rng.pick(&[end + 1, end.wrapping_sub(1), any]));
        }
        6 => {
            let place = rng.below(case.letters.len().max(1) as u64) as usize;
            put(&mut case.letters, place, rng.pick(b"ACGTNacgtn@Z"));
        }
        7 => case.lent = case.lent.saturating_sub(rng.range(1, 8) as usize),
        8 => {
            let end = case.name_ends.get(read).copied().unwrap_or(0);
            let ends = [end.wrapping_add(1), end.wrapping_sub(1), end.wrapping_add(256), any];
            put(&mut case.name_ends, read, rng.pick(&ends));
        }
        9 => {
            let place = rng.below(case.names.len().max(1) as u64) as usize;
            put(&mut case.names, place, rng.pick(&[byte, b'0', b'9', b'a', 32, 126, 127, 31]));
        }
        _ => case.bases = case.bases.wrapping_add(rng.pick(&[1, 4, u64::MAX])),
    }
    Work::Writing(case)
}

fn put<T>(column: &mut [T], place: usize, value: T) {
    if let Some(element) = column.get_mut(place) {
        *element = value;
    }
}

/// Reads of up to 100,000 letters, and seldom one more: placed with few differences, raw with an N
/// list in words, raw4.
pub fn long_reads(rng: &mut Prng, stock: &Stock) -> Work {
    let reference = Reference::new(stock.long.bases, &stock.long_bytes).unwrap();
    let marks = [32_767, 32_768, 32_769, 50_000, 65_535, 65_536, 65_537, 99_999, 100_000, 100_001];
    let mut proposals = Vec::new();
    for _ in 0..rng.pick(&[1, 1, 2]) {
        let length = rng.pick(&marks);
        let position = rng.below(stock.long.bases - length);
        let mut read = cut_read(rng, &reference, position, length, (0, 0));
        if rng.once_in(3) {
            let place = rng.pick(&[0, 63, 64, 1953, 1954, length as usize - 1]);
            read.letters[place] = other_letter(rng, read.letters[place]);
        }
        for index in 0..rng.pick(&[0, 1, 2, 3, 31, 32, 40]) {
            let any = rng.below(length) as usize;
            let last = length as usize - 1;
            read.letters[if index < 2 { rng.pick(&[any, 0, last]) } else { any }] = b'N';
        }
        if rng.once_in(4) {
            read.strand = 0;
        }
        proposals.push(read);
        proposals.extend((0..rng.below(2)).map(|_| cut_read(rng, &reference, 7, 9, (1, 0))));
    }
    let mut call = EncodeCall::new(&stock.long, &proposals, 5, 6);
    lend(rng, &mut call);
    of_long(stock, call)
}

/// 50,000 reads, or nearly.
pub fn many_reads(rng: &mut Prng, _: &Stock) -> Work {
    let reference = generate_reference(rng, 200);
    let packed = Reference::new(reference.bases, &reference.bytes).unwrap();
    let count = rng.pick(&[1_000, 8_000, 49_999, 50_000, 50_000, 50_000]);
    let equal = rng.coin().then(|| rng.range(1, 6));
    let mut proposals = Vec::new();
    for _ in 0..count {
        let span = equal.unwrap_or_else(|| rng.range(1, 6));
        let position = rng.below(reference.bases - span);
        let mut read = cut_read(rng, &packed, position, span, (0, 0));
        if rng.once_in(5) {
            read.letters[0] = rng.pick(b"ACGTN");
        }
        proposals.push(read);
    }
    let mut call = EncodeCall::new(&reference, &proposals, 7, 8);
    if rng.coin() {
        let max_name = rng.pick(&[8, 16, 40]);
        (call.names, call.name_ends) = joined(&draw_rows(rng, count, max_name));
    }
    lend(rng, &mut call);
    Work::Writing(Writing::of_call(call))
}
