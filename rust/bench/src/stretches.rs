//! Measures the proved writers of a stretch against a plain loop, the best unsafe Rust that we can
//! write and a memory copy of the same letters. All are compared for equality before anything is
//! timed. The table is of speeds, as ratios: the plain loop is 1.
use crate::writers::*;
use crate::{row, timed, title_row, Random};
use std::hint::black_box;
use std::time::Duration;

const PASSES: usize = 201;

/// Stretches of one reference, written one after the other.
struct Work {
    title: &'static str,
    reference: Vec<u8>,
    stretches: Vec<(usize, usize)>,
}

impl Work {
    fn new(
        title: &'static str,
        bytes: usize,
        bases: usize,
        count: usize,
        random: &mut Random,
    ) -> Work {
        let reference: Vec<u8> = (0..bytes).map(|_| random.next() as u8).collect();
        let stretches = (0..count).map(|_| (random.below(4 * bytes - bases + 1), bases)).collect();
        Work { title, reference, stretches }
    }

    fn letters(&self) -> usize {
        self.stretches.iter().map(|stretch| stretch.1).sum()
    }

    fn run(&self, writer: Writer, table: &Table, out: &mut [u8]) {
        let mut at = 0;
        for &(leftmost, bases) in &self.stretches {
            writer(&self.reference, leftmost, table, &mut out[at..at + bases]);
            at += bases;
        }
    }

    fn copy(&self, letters: &[u8], out: &mut [u8]) {
        let mut at = 0;
        for &(_, bases) in &self.stretches {
            out[at..at + bases].copy_from_slice(black_box(&letters[at..at + bases]));
            at += bases;
        }
    }
}

/// One strand's writers: the plain loop, the proved one, the best unsafe one.
struct Strand {
    title: &'static str,
    table: Table,
    writers: [Writer; 3],
}

/// Every stretch of up to 40 bases at every alignment, with the bytes around it held to what they
/// were.
fn compare_small(strand: &Strand, random: &mut Random) {
    let reference: Vec<u8> = (0..16).map(|_| random.next() as u8).collect();
    for bases in 0..=40 {
        for leftmost in 0..=4 * reference.len() - bases {
            let [plain, others @ ..] = strand.writers;
            let mut expected = vec![b'.'; bases + 16];
            plain(&reference, leftmost, &strand.table, &mut expected[8..8 + bases]);
            for writer in others {
                let mut out = vec![b'.'; bases + 16];
                writer(&reference, leftmost, &strand.table, &mut out[8..8 + bases]);
                assert!(
                    out == expected,
                    "{}: {bases} bases from {leftmost}: letters differ",
                    strand.title
                );
            }
        }
    }
}

/// The letters of the work, on which all writers agree.
fn compare(work: &Work, strand: &Strand) -> Vec<u8> {
    let [plain, others @ ..] = strand.writers;
    let mut expected = vec![0; work.letters()];
    work.run(plain, &strand.table, &mut expected);
    for writer in others {
        let mut out = vec![b'.'; expected.len()];
        work.run(writer, &strand.table, &mut out);
        assert!(out == expected, "{}, {}: letters differ", work.title, strand.title);
    }
    expected
}

/// The best time of each way over all passes: the three writers, then the copy.
fn measure(work: &Work, strand: &Strand) -> [f64; 4] {
    let letters = compare(work, strand);
    let mut out = vec![0; letters.len()];
    let mut best = [Duration::MAX; 4];
    for _ in 0..PASSES {
        for (way, writer) in strand.writers.into_iter().enumerate() {
            let time = timed(|| work.run(black_box(writer), &strand.table, black_box(&mut out)));
            best[way] = best[way].min(time);
        }
        best[3] = best[3].min(timed(|| work.copy(&letters, black_box(&mut out))));
    }
    best.map(|time| time.as_secs_f64())
}

pub fn print_table(random: &mut Random) {
    let works = [
        Work::new("150 letters, reference of 64 KB", 64 << 10, 150, 10_000, random),
        Work::new("150 letters, reference of 4 MB", 4 << 20, 150, 10_000, random),
        Work::new("10,000 letters, reference of 4 MB", 4 << 20, 10_000, 150, random),
        Work::new("one stretch of 1,500,001 letters", 4 << 20, 1_500_001, 1, random),
    ];
    let strands = [
        Strand {
            title: "forward",
            table: proved_table(true),
            writers: [call_plain_forward, call_proved_forward, best_forward],
        },
        Strand {
            title: "reverse",
            table: proved_table(false),
            writers: [call_plain_reverse, call_proved_reverse, best_reverse],
        },
    ];
    assert!(strands[0].table == plain_table(true), "the forward table differs");
    assert!(strands[1].table == plain_table(false), "the reverse table differs");
    title_row(works.iter().map(|work| work.title));
    for strand in &strands {
        compare_small(strand, random);
        let times: Vec<[f64; 4]> = works.iter().map(|work| measure(work, strand)).collect();
        for (way, title) in
            ["plain loop", "proved", "best unsafe Rust", "memory copy"].iter().enumerate()
        {
            row(
                &format!("{}, {title}", strand.title),
                times.iter().map(|time| time[0] / time[way]),
            );
        }
        row(
            &format!("{}, proved to best unsafe", strand.title),
            times.iter().map(|time| time[2] / time[1]),
        );
    }
}
