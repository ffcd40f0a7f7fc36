//! Measures the library on whole blocks against the second implementation, hand-tuned unsafe Rust
//! and a copy of the same letters (ways.rs). All are compared before anything is timed.
use crate::tuned::{self, Counts, Tables, SLACK};
use crate::ways::*;
use crate::works::{reference, Shape, Work};
use crate::{timed, title_row};
use ora::Reference;
use second::generator::{generate_reference, generate_saturated, generate_under, Shape as Small};
use second::mutators::damage;
use second::prng::Prng;
use std::hint::black_box;
use std::time::Duration;

const PASSES: usize = 121;

/// The second implementation is slow: it is timed once in so many passes.
const SECOND_EVERY: usize = 6;

/// The small blocks on which the hand-tuned validator and decoder are compared.
const DAMAGED: usize = 20_000;

/// The bytes of the reference: one that stays in the cache, and one that does not.
pub const SMALL: usize = 64 << 10;
pub const LARGE: usize = 4 << 20;

const fn equal(title: &'static str, reads: usize, length: usize, bytes: usize) -> Shape {
    Shape { title, reads, length, equal: true, bytes }
}

const COLUMNS: [Shape; 7] = [
    equal("100, reference of 64 KB", 50_000, 100, SMALL),
    equal("100, 4 MB", 50_000, 100, LARGE),
    equal("150, 64 KB", 50_000, 150, SMALL),
    equal("150, 4 MB", 50_000, 150, LARGE),
    Shape { title: "100 to 150, 4 MB", reads: 50_000, length: 150, equal: false, bytes: LARGE },
    equal("1,000, 4 MB", 7_500, 1_000, LARGE),
    equal("100,000, 4 MB", 75, 100_000, LARGE),
];

/// The first is what times are relative to.
const WAYS: [Way; 11] = [
    way("copy, read by read", copy),
    way("validate, proved", proved_validate),
    way("validate, hand-tuned", tuned_validate),
    way("validate, second", second_validate),
    way("decode, proved", proved_decode),
    way("decode, hand-tuned, validated first", tuned_decode),
    way("decode, hand-tuned, no check", trusting_decode),
    way("decode, second", second_decode),
    way("encode, proved", proved_encode),
    way("encode, hand-tuned", tuned_encode),
    way("encode, second", second_encode),
];

/// On small blocks, damaged and not, the hand-tuned validator accepts what the library accepts,
/// with the same counts, and the hand-tuned decoder gives the same. In some most records have 30 or
/// 31 entries.
fn compare_damaged(random: &mut Prng, tables: &Tables) {
    let (mut accepted, mut with_top) = (0, 0);
    for round in 0..DAMAGED {
        let shape = Small {
            bases: random.pick(&[12, 100, 300, 70_000]),
            max_reads: random.pick(&[1, 3, 20, 40]),
            max_length: random.pick(&[4, 40, 300]),
            max_carried: 2,
            max_name: random.pick(&[4, 40]),
        };
        let reference = generate_reference(random, shape.bases);
        let plan = if shape.max_length > 31 && random.once_in(3) {
            generate_saturated(random, shape, &reference)
        } else {
            generate_under(random, shape, &reference)
        };
        let mut block = plan.block();
        if round % 4 != 0 {
            damage(&mut block, random);
        }
        let reference = Reference::new(plan.reference.bases, &plan.reference.bytes);
        let reference = reference.expect("the reference fits");
        let library = ora::validate_block(&reference, &block).ok().map(counts_of);
        // SAFETY: the validator reads nothing outside its slices.
        let tuned =
            unsafe { tuned::validate::validate(reference.bases(), reference.bytes(), &block) };
        assert!(tuned == library, "block {round}: {tuned:?}, not {library:?}");
        let Some(counts) = library else { continue };
        accepted += 1;
        let [.., top] = counts;
        with_top += (top > 0) as usize;
        let decoded = ora::decode(&reference, &block).expect("the block is accepted");
        let (tuned, letters, ends) = trusting(&reference, &block, counts, tables);
        assert!(tuned == counts, "block {round}: {tuned:?}, not {counts:?}");
        assert!(letters == decoded.letters() && ends == decoded.ends(), "block {round}");
    }
    assert!(DAMAGED / 5 < accepted && accepted < DAMAGED / 2, "{accepted} blocks are accepted");
    assert!(with_top > DAMAGED / 100, "{with_top} blocks have a record of 31 entries");
}

/// What the decoder that trusts its block makes of one with these counts.
fn trusting(
    reference: &Reference,
    block: &[u8],
    [reads, letters, ..]: Counts,
    tables: &Tables,
) -> (Counts, Vec<u8>, Vec<u32>) {
    let spare = [0; SLACK];
    let padded = [&spare, reference.bytes(), &spare].concat();
    let longer = [block, &spare].concat();
    let block = &longer[..block.len()];
    let mut to = vec![0; letters as usize + SLACK];
    let mut ends = vec![0; reads as usize];
    // SAFETY: the block is well-formed, and it, its reference and the letters have SLACK bytes to
    // spare.
    let counts = unsafe {
        let bases = padded.as_ptr().add(SLACK);
        tuned::decode::decode(bases, block, tables, to.as_mut_ptr(), ends.as_mut_ptr())
    };
    to.truncate(letters as usize);
    (counts, to, ends)
}

/// The best time of each way over all passes.
fn measure(work: &Work, tables: &Tables) -> Vec<f64> {
    let mut to = Buffers::new(work);
    let mut best = [Duration::MAX; WAYS.len()];
    for pass in 0..PASSES {
        for (way, best) in WAYS.iter().zip(&mut best) {
            if way.title.ends_with("second") && pass % SECOND_EVERY != 0 {
                continue;
            }
            touch(work);
            to.fill(work);
            let run = black_box(way.run);
            *best = timed(|| {
                black_box(run(black_box(work), tables, black_box(&mut to)));
            })
            .min(*best);
        }
    }
    best.iter().map(Duration::as_secs_f64).collect()
}

/// A row of what is aimed at: of two ways the ratio of times, in each column at most or at least so
/// much.
struct Aim {
    title: &'static str,
    times_of: [usize; 2],
    at_least: bool,
    aims: [Option<f64>; COLUMNS.len()],
}

/// The ways of a task by their index: proved, hand-tuned, second.
const VALIDATE: [usize; 3] = [1, 2, 3];
const DECODE: [usize; 3] = [4, 5, 7];
const ENCODE: [usize; 3] = [8, 9, 10];

/// A column without an aim.
const ANY: Option<f64> = None;

const AIMS: [Aim; 6] = [
    Aim {
        title: "validate, time, proved to hand-tuned",
        times_of: [VALIDATE[0], VALIDATE[1]],
        at_least: false,
        aims: [ANY, ANY, Some(1.1), Some(1.0), ANY, Some(0.9), ANY],
    },
    Aim {
        title: "decode, time, proved to hand-tuned",
        times_of: [DECODE[0], DECODE[1]],
        at_least: false,
        aims: [ANY, ANY, Some(1.4), Some(1.25), ANY, Some(1.15), Some(1.1)],
    },
    Aim {
        title: "encode, time, proved to hand-tuned",
        times_of: [ENCODE[0], ENCODE[1]],
        at_least: false,
        aims: [ANY, ANY, Some(2.1), Some(2.1), ANY, Some(1.8), Some(1.6)],
    },
    Aim {
        title: "validate, speed, proved to second",
        times_of: [VALIDATE[2], VALIDATE[0]],
        at_least: true,
        aims: [ANY; COLUMNS.len()],
    },
    Aim {
        title: "decode, speed, proved to second",
        times_of: [DECODE[2], DECODE[0]],
        at_least: true,
        aims: [ANY, ANY, Some(5.0), Some(5.0), ANY, Some(11.0), Some(11.0)],
    },
    Aim {
        title: "encode, speed, proved to second",
        times_of: [ENCODE[2], ENCODE[0]],
        at_least: true,
        aims: [ANY, ANY, Some(8.0), Some(8.0), ANY, Some(20.0), Some(20.0)],
    },
];

/// The ratio, with the aim beside it; bold where what is printed falls short.
fn aim_cell(ratio: f64, at_least: bool, aim: Option<f64>) -> String {
    let (digits, scale) = if at_least { (1, 10.0) } else { (2, 100.0) };
    let Some(aim) = aim else {
        return format!("{ratio:.digits$}");
    };
    let printed = (ratio * scale).round() / scale;
    let short = if at_least { printed < aim } else { printed > aim };
    let text = format!("{ratio:.digits$} ({aim:.digits$})");
    if short {
        format!("**{text}**")
    } else {
        text
    }
}

pub fn print_tables() {
    let random = &mut Prng::new(5);
    let tables = Tables::new();
    compare_damaged(random, &tables);
    let padded = reference(LARGE, random);
    let mut times = Vec::new();
    for shape in &COLUMNS {
        let work = Work::new(shape, &padded, random);
        for way in &WAYS {
            compare(shape.title, way, &work, &tables);
        }
        times.push(measure(&work, &tables));
    }
    title_row(COLUMNS.iter().map(|shape| shape.title));
    for (number, way) in WAYS.iter().enumerate() {
        let cells = times.iter().map(|times| format!(" {:.2} |", times[number] / times[0]));
        println!("| {} |{}", way.title, cells.collect::<String>());
    }
    println!();
    title_row(COLUMNS.iter().map(|shape| shape.title));
    for aim in &AIMS {
        let [upper, lower] = aim.times_of;
        let cells = times.iter().zip(aim.aims).map(|(times, most)| {
            format!(" {} |", aim_cell(times[upper] / times[lower], aim.at_least, most))
        });
        println!("| {} |{}", aim.title, cells.collect::<String>());
    }
}
