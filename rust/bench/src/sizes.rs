//! Measures the proved encoder of a size section, which counts the bytes and then writes them, against plain safe Rust.
//! All ways are compared before anything is timed.
use crate::lengths::{Kind, COLUMNS, HEAD, PASSES, READS};
use crate::{row, timed, Random};
use std::hint::black_box;
use std::time::Duration;

const WORD_ESCAPE: u32 = 32768;

/// How many bytes the section of the reads that end at these places takes.
type Count = fn(ends: &[u32]) -> usize;

/// Writes the section from `at` on, and answers the place after it.
type Write = fn(ends: &[u32], out: &mut [u8], at: usize) -> usize;

mod proved {
    extern "C" {
        pub fn bench_sizes_length(ends: *const u32, ends_length: usize) -> usize;
        pub fn bench_put_sizes(
            ends: *const u32,
            ends_length: usize,
            out: *mut u8,
            out_length: usize,
            at: usize,
        ) -> usize;
    }
}

fn proved_count(ends: &[u32]) -> usize {
    // SAFETY: the pointer and the length are those of the slice, of at most 50,000 reads.
    unsafe { proved::bench_sizes_length(ends.as_ptr(), ends.len()) }
}

fn proved_write(ends: &[u32], out: &mut [u8], at: usize) -> usize {
    // SAFETY: pointers and lengths are those of the slices, of at most 50,000 reads; the callers have counted the
    // bytes and made room for them.
    unsafe { proved::bench_put_sizes(ends.as_ptr(), ends.len(), out.as_mut_ptr(), out.len(), at) }
}

#[inline(never)]
fn plain_count(ends: &[u32]) -> usize {
    let mut bytes = ends.len().div_ceil(8) * 2;
    let (mut before, mut previous) = (0, None);
    for &end in ends {
        let length = end.saturating_sub(before);
        if previous != Some(length) {
            bytes += if length < 256 { 1 } else { (length / WORD_ESCAPE) as usize * 2 + 2 };
        }
        (before, previous) = (end, Some(length));
    }
    bytes
}

#[inline(never)]
fn plain_write(ends: &[u32], out: &mut [u8], mut at: usize) -> usize {
    let (mut before, mut previous) = (0, None);
    for group in ends.chunks(8) {
        let flags = at;
        let (mut same, mut sizes) = (0u8, 0u8);
        at += 2;
        for (k, &end) in group.iter().enumerate() {
            let length = end.saturating_sub(before);
            if previous == Some(length) {
                same |= 128 >> k;
            } else if length < 256 {
                sizes |= 128 >> k;
                out[at] = length as u8;
                at += 1;
            } else {
                let mut left = length;
                while left >= WORD_ESCAPE {
                    out[at..at + 2].copy_from_slice(&(WORD_ESCAPE as u16).to_le_bytes());
                    at += 2;
                    left -= WORD_ESCAPE;
                }
                out[at..at + 2].copy_from_slice(&(left as u16).to_le_bytes());
                at += 2;
            }
            (before, previous) = (end, Some(length));
        }
        out[flags] = same;
        out[flags + 1] = sizes;
    }
    at
}

/// In one pass, with nothing counted before, onto the end of a vector.
#[inline(never)]
fn plain_push(ends: &[u32], section: &mut Vec<u8>) {
    let (mut before, mut previous) = (0, None);
    for group in ends.chunks(8) {
        let flags = section.len();
        section.extend([0, 0]);
        for (k, &end) in group.iter().enumerate() {
            let length = end.saturating_sub(before);
            if previous == Some(length) {
                section[flags] |= 128 >> k;
            } else if length < 256 {
                section[flags + 1] |= 128 >> k;
                section.push(length as u8);
            } else {
                for _ in 0..length / WORD_ESCAPE {
                    section.extend((WORD_ESCAPE as u16).to_le_bytes());
                }
                section.extend(((length % WORD_ESCAPE) as u16).to_le_bytes());
            }
            (before, previous) = (end, Some(length));
        }
    }
}

/// Where reads of these lengths end.
fn ends_of(lengths: &[u32]) -> Vec<u32> {
    let mut sum = 0;
    lengths
        .iter()
        .map(|length| {
            sum += length;
            sum
        })
        .collect()
}

/// The section by the proved code: all ways agree on its bytes, and leave those around it as they were.
fn compare(ends: &[u32]) -> Vec<u8> {
    assert!(ends.len() <= READS);
    let mut pushed = Vec::new();
    plain_push(ends, &mut pushed);
    let mut framed = vec![b'.'; 8];
    framed.extend(&pushed);
    framed.extend([b'.'; 8]);
    for (count, write) in
        [(proved_count as Count, proved_write as Write), (plain_count, plain_write)]
    {
        let bytes = count(ends);
        assert!(bytes == pushed.len(), "{} reads: counts differ", ends.len());
        let mut out = vec![b'.'; bytes + 16];
        let next = write(ends, &mut out, 8);
        assert!(next == 8 + bytes && out == framed, "{} reads: sections differ", ends.len());
    }
    pushed
}

/// The section of reads of these lengths.
pub fn section(lengths: &[u32]) -> Vec<u8> {
    compare(&ends_of(lengths))
}

/// Few reads at each edge of a form, and ends that do not rise.
fn compare_small(random: &mut Random) {
    let steps = [0, 1, 255, 256, 32_767, 32_768, 65_535, 65_536, 98_303, 98_304, 100_000, 1 << 20];
    for reads in 0..=20 {
        for _ in 0..500 {
            let lengths: Vec<u32> = (0..reads).map(|_| steps[random.below(steps.len())]).collect();
            section(&lengths);
            compare(&lengths);
        }
    }
}

/// The reads of one section: where they end, and how many bytes it takes.
struct Reads {
    ends: Vec<u32>,
    bytes: usize,
}

/// The ways that are timed, in the order of their times.
const PROVED_COUNT: usize = 0;
const PROVED_WRITE: usize = 1;
const PLAIN_COUNT: usize = 2;
const PLAIN_WRITE: usize = 3;
const PLAIN_PUSH: usize = 4;
const WAYS: usize = 5;

/// One way over all sections of a column. The room is there before, for the vector too.
fn run(way: usize, sections: &[Reads], out: &mut [u8], pushed: &mut Vec<u8>) -> Duration {
    let count = |count: Count| {
        let count = black_box(count);
        timed(|| {
            for reads in sections {
                black_box(count(black_box(&reads.ends)));
            }
        })
    };
    let mut write = |write: Write| {
        let write = black_box(write);
        timed(|| {
            for reads in sections {
                black_box(write(black_box(&reads.ends), black_box(&mut *out), 0));
            }
        })
    };
    match way {
        PROVED_COUNT => count(proved_count),
        PLAIN_COUNT => count(plain_count),
        PROVED_WRITE => write(proved_write),
        PLAIN_WRITE => write(plain_write),
        _ => timed(|| {
            for reads in sections {
                pushed.clear();
                plain_push(black_box(&reads.ends), black_box(pushed));
            }
        }),
    }
}

/// The best time of each way over all passes, column by column.
fn measure(columns: &[Vec<Reads>]) -> Vec<[f64; WAYS]> {
    let most = columns.iter().flatten().map(|reads| reads.bytes).max().unwrap_or(0);
    let (mut out, mut pushed) = (vec![0; most], Vec::with_capacity(most));
    let mut best = vec![[Duration::MAX; WAYS]; columns.len()];
    for _ in 0..PASSES {
        for (sections, best) in columns.iter().zip(&mut best) {
            for (way, best) in best.iter_mut().enumerate() {
                *best = (*best).min(run(way, sections, &mut out, &mut pushed));
            }
        }
    }
    best.into_iter().map(|times| times.map(|time| time.as_secs_f64())).collect()
}

pub fn print_table(kinds: &[Kind], random: &mut Random) {
    compare_small(random);
    let columns: Vec<Vec<Reads>> = kinds
        .iter()
        .flat_map(|kind| COLUMNS.map(|reads| kind.lengths.chunks(reads)))
        .map(|sections| {
            sections
                .map(|lengths| Reads { ends: ends_of(lengths), bytes: section(lengths).len() })
                .collect()
        })
        .collect();
    let times = measure(&columns);
    println!("{HEAD}");
    for (kind, (columns, times)) in
        kinds.iter().zip(columns.chunks(COLUMNS.len()).zip(times.chunks(COLUMNS.len())))
    {
        let both = |times: &[f64; WAYS]| times[PROVED_COUNT] + times[PROVED_WRITE];
        let each: Vec<f64> = columns
            .iter()
            .zip(times)
            .map(|(sections, times)| {
                both(times) / kind.units(sections.iter().map(|reads| reads.bytes).sum())
            })
            .collect();
        let title = kind.title;
        row(
            &format!("{title}, time of a {}, proved, both", kind.unit()),
            each.iter().map(|time| time / each[0]),
        );
        row(
            &format!("{title}, speed, counting, proved to plain"),
            times.iter().map(|times| times[PLAIN_COUNT] / times[PROVED_COUNT]),
        );
        row(
            &format!("{title}, speed, writing, proved to plain"),
            times.iter().map(|times| times[PLAIN_WRITE] / times[PROVED_WRITE]),
        );
        row(
            &format!("{title}, speed, both, proved to plain in one pass"),
            times.iter().map(|times| times[PLAIN_PUSH] / both(times)),
        );
    }
}
