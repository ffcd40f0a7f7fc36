//! Measures the proved walk over the lengths of a block's reads against a plain loop over the same bytes. Both are
//! compared before anything is timed.
use crate::sizes::section;
use crate::{row, timed, Random};
use std::hint::black_box;
use std::time::Duration;

/// More than for the letters, since a pass is shorter.
pub const PASSES: usize = 1001;

/// The reads of one section in each column. All columns have the same reads, cut into sections of that many.
pub const COLUMNS: [usize; 4] = [6_250, 12_500, 25_000, 50_000];
pub const READS: usize = 50_000;

/// The head of a table with these columns.
pub const HEAD: &str =
    "| | 6,250 reads | 12,500 reads | 25,000 reads | 50,000 reads |\n|---|---|---|---|---|";
const MAX_READ_LENGTH: u32 = 100_000;
const WORD_ESCAPE: u32 = 32768;

/// 9 or 10, or 0 where neither fits: a size section, how many reads it is of, the raw DNA size.
type Walk = fn(section: &[u8], reads: u32, raw: u32) -> u32;

mod proved {
    extern "C" {
        pub fn bench_lengths_fault(
            section: *const u8,
            section_length: usize,
            fixed: bool,
            each: i32,
            reads: u32,
            raw: u32,
        ) -> u32;
    }
}

fn proved_walk(section: &[u8], reads: u32, raw: u32) -> u32 {
    // SAFETY: the pointer and the length are those of the slice.
    unsafe { proved::bench_lengths_fault(section.as_ptr(), section.len(), false, 0, reads, raw) }
}

/// A read a turn.
#[inline(never)]
fn plain_walk(section: &[u8], reads: u32, raw: u32) -> u32 {
    let (mut at, mut same, mut sizes) = (0, 0u8, 0u8);
    let mut previous = 0;
    let mut sum = 0;
    for i in 0..reads {
        if i % 8 == 0 {
            let Some(&[first, second]) = section.get(at..at + 2) else {
                return 9;
            };
            (same, sizes) = (first, second);
            at += 2;
        }
        let length = match (same & 128 != 0, sizes & 128 != 0) {
            (true, true) => return 9,
            (true, false) => previous,
            (false, true) => {
                let Some(&byte) = section.get(at) else {
                    return 9;
                };
                at += 1;
                byte as u32
            }
            (false, false) => {
                let mut length = 0;
                loop {
                    let Some(&[low, high]) = section.get(at..at + 2) else {
                        return 9;
                    };
                    let word = u16::from_le_bytes([low, high]) as u32;
                    at += 2;
                    length += word;
                    if word > WORD_ESCAPE || length > MAX_READ_LENGTH {
                        return 9;
                    }
                    if word < WORD_ESCAPE {
                        break length;
                    }
                }
            }
        };
        if length == 0 || length > MAX_READ_LENGTH {
            return 9;
        }
        previous = length;
        sum += length as u64;
        same <<= 1;
        sizes <<= 1;
    }
    if at < section.len() || same != 0 || sizes != 0 {
        return 9;
    }
    if sum == raw as u64 {
        0
    } else {
        10
    }
}

/// Reads of one kind, by their lengths.
pub struct Kind {
    pub title: &'static str,
    /// Where next to nothing is stored, time is by the read.
    by_byte: bool,
    pub lengths: Vec<u32>,
}

impl Kind {
    pub fn all(random: &mut Random) -> [Kind; 3] {
        let any = (0..READS).map(|_| 1 + random.below(MAX_READ_LENGTH as usize) as u32).collect();
        [
            ("5 and 300 in turn", true, (0..READS).map(|i| [5, 300][i % 2]).collect()),
            ("random, 1 to 100,000", true, any),
            ("all as the first", false, vec![150; READS]),
        ]
        .map(|(title, by_byte, lengths)| Kind { title, by_byte, lengths })
    }

    pub fn unit(&self) -> &'static str {
        if self.by_byte {
            "byte"
        } else {
            "read"
        }
    }

    /// By how many the time of a column is divided, whose sections take so many bytes.
    pub fn units(&self, bytes: usize) -> f64 {
        (if self.by_byte { bytes } else { READS }) as f64
    }
}

/// Small sections, each with every byte changed to every value, and cut at every place: both walks agree.
fn compare_small(random: &mut Random) {
    let sizes = [5, 255, 256, 32_767, 32_768, 65_536, 100_000];
    for reads in 0..=20 {
        let lengths: Vec<u32> = (0..reads).map(|_| sizes[random.below(sizes.len())]).collect();
        let section = section(&lengths);
        let raw = lengths.iter().sum();
        let same = |bytes: &[u8]| {
            let numbers =
                [proved_walk, plain_walk].map(|walk: Walk| walk(bytes, reads as u32, raw));
            assert!(numbers[0] == numbers[1], "{reads} reads, {bytes:?}: numbers differ");
        };
        for at in 0..section.len() {
            same(&section[..at]);
            let mut changed = section.clone();
            for byte in 0..=255 {
                changed[at] = byte;
                same(&changed);
            }
        }
    }
}

/// A size section, how many reads it is of, their sum.
struct Section {
    bytes: Vec<u8>,
    reads: u32,
    raw: u32,
}

/// The section of some reads: both walks agree with what it holds.
fn compare(title: &str, lengths: &[u32]) -> Section {
    let bytes = section(lengths);
    let (reads, raw) = (lengths.len() as u32, lengths.iter().sum());
    for walk in [proved_walk, plain_walk] as [Walk; 2] {
        assert!(walk(&bytes, reads, raw) == 0, "{title}: not accepted");
        assert!(walk(&bytes, reads, raw - 1) == 10, "{title}: a sum too small is not refused");
        assert!(walk(&bytes, reads, raw + 1) == 10, "{title}: a sum too large is not refused");
        assert!(
            walk(&bytes, reads + 8, raw) == 9,
            "{title}: reads past the section are not refused"
        );
    }
    Section { bytes, reads, raw }
}

/// The best time of each way over all passes, column by column: the proved walk, then the plain loop.
fn measure(columns: &[Vec<Section>]) -> Vec<[f64; 2]> {
    let mut best = vec![[Duration::MAX; 2]; columns.len()];
    for _ in 0..PASSES {
        for (sections, best) in columns.iter().zip(&mut best) {
            for (way, walk) in ([proved_walk, plain_walk] as [Walk; 2]).into_iter().enumerate() {
                let walk = black_box(walk);
                let time = timed(|| {
                    for section in sections {
                        black_box(walk(black_box(&section.bytes), section.reads, section.raw));
                    }
                });
                best[way] = best[way].min(time);
            }
        }
    }
    best.into_iter().map(|times| times.map(|time| time.as_secs_f64())).collect()
}

pub fn print_table(kinds: &[Kind], random: &mut Random) {
    compare_small(random);
    let columns: Vec<Vec<Section>> = kinds
        .iter()
        .flat_map(|kind| COLUMNS.map(|reads| (kind.title, kind.lengths.chunks(reads))))
        .map(|(title, sections)| sections.map(|lengths| compare(title, lengths)).collect())
        .collect();
    let times = measure(&columns);
    let of_kind = |kind: usize| kind * COLUMNS.len()..(kind + 1) * COLUMNS.len();
    println!("{HEAD}");
    for (number, kind) in kinds.iter().enumerate() {
        for (way, name) in ["proved", "plain loop"].iter().enumerate() {
            let each = |column: usize| {
                let bytes = columns[column].iter().map(|section| section.bytes.len()).sum();
                times[column][way] / kind.units(bytes)
            };
            let first = each(of_kind(number).start);
            row(
                &format!("{}, time of a {}, {name}", kind.title, kind.unit()),
                of_kind(number).map(|column| each(column) / first),
            );
        }
        row(
            &format!("{}, speed, proved to plain loop", kind.title),
            of_kind(number).map(|column| times[column][1] / times[column][0]),
        );
    }
    for number in [0, 1] {
        row(
            &format!("{}, time of a read, proved, to one as the first", kinds[number].title),
            of_kind(number).zip(of_kind(2)).map(|(column, same)| times[column][0] / times[same][0]),
        );
    }
}
