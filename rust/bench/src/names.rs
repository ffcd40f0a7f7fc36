//! Measures names: how many a second the library judges, reads and writes, against plain Rust and
//! the second implementation. All are compared before anything is timed.
//!
//! The library and the second implementation take whole blocks, through the calls that every
//! caller has. Their reads are of one letter each and without a place, so that names take most of
//! the time; the last rows, of the same reads without names or with the name 0, tell how much they
//! do not. The plain Rust (names/plain.rs) has the names section alone.
pub mod plain;

use crate::works::{B_ID, C_TIME};
use crate::{row, timed, title_row};
use ora::{decode_into, encode_into, validate_block, without_names, Buffers, Columns, Reference};
use second::generator::{generate, Shape};
use second::header::{Header, NAMES};
use second::mutators::spoil;
use second::prng::Prng;
use second::proposals::{random_call, spoil_call};
use std::fmt::Write;
use std::hint::black_box;
use std::time::Duration;

const PASSES: usize = 121;

/// The second implementation is slow: it is timed once in so many passes.
const SECOND_EVERY: usize = 6;

const READS: usize = 50_000;

/// The small names sections, and the names given to the encoder, on which plain Rust is compared.
const SMALL: usize = 20_000;

/// How the last field of a name goes on from one read to the next.
#[derive(Clone, Copy)]
struct Style {
    title: &'static str,
    last_rises: bool,
}

const COLUMNS: [Style; 2] = [
    Style { title: "both last fields rising", last_rises: true },
    Style { title: "the last field in any order", last_rises: false },
];

fn no_bases() -> Reference<'static> {
    Reference::new(0, &[]).expect("the reference fits")
}

/// Reads of one letter, their names, and the blocks of these.
struct Work {
    letters: Vec<u8>,
    ends: Vec<u32>,
    names: Vec<u8>,
    name_ends: Vec<u32>,
    /// One name for all.
    zeros: Vec<u8>,
    /// The columns of places: none is proposed.
    positions: Vec<u32>,
    bytes: Vec<u8>,
    block: Vec<u8>,
    unnamed: Vec<u8>,
}

impl Work {
    /// Names of seven fields, as a sequencer prints them: machine, run, flow cell, lane, tile and
    /// two places. The first five are the same in all.
    fn new(style: Style, random: &mut Prng) -> Work {
        let (mut names, mut name_ends) = (String::new(), Vec::new());
        let (mut x, mut y) = (1_000, 2_000);
        for _ in 0..READS {
            // Writing to a string cannot fail.
            let _ = write!(names, "A00684:261:HNJK2DRX2:1:2101:{x}:{y}");
            name_ends.push(names.len() as u32);
            x += random.below(2);
            y = if style.last_rises { y + random.below(2) } else { random.range(1_000, 37_000) };
        }
        let mut work = Work {
            letters: vec![b'A'; READS],
            ends: (1..=READS as u32).collect(),
            names: names.into_bytes(),
            name_ends,
            zeros: vec![b'0'; READS],
            positions: vec![0; READS],
            bytes: vec![0; READS],
            block: Vec::new(),
            unnamed: Vec::new(),
        };
        let columns = work.columns();
        let mut block = vec![0; columns.room()];
        let length = second_length(&columns, &mut block);
        block.truncate(length.expect("the second implementation takes the names"));
        work.unnamed = without_names(&block);
        work.block = block;
        work
    }

    fn columns(&self) -> Columns<'_> {
        Columns {
            letters: &self.letters,
            ends: &self.ends,
            names: &self.names,
            name_ends: &self.name_ends,
            positions: &self.positions,
            strands: &self.bytes,
            lefts: &self.bytes,
            rights: &self.bytes,
        }
    }

    /// The names section of the block.
    fn section(&self) -> &[u8] {
        ora::section(&self.block, ora::Section::Names)
    }
}

fn second_length(columns: &Columns, out: &mut [u8]) -> Option<usize> {
    let outcome = second::encode(
        0,
        &[],
        columns.letters,
        columns.ends,
        columns.names,
        columns.name_ends,
        columns.positions,
        columns.strands,
        columns.lefts,
        columns.rights,
        B_ID,
        C_TIME,
        out,
    );
    (outcome.number == 0).then_some(outcome.length as usize)
}

/// What the ways write to. Vectors have their room before, so that no pass allocates.
struct Outputs {
    letters: Vec<u8>,
    ends: Vec<u32>,
    names: Vec<u8>,
    name_ends: Vec<u32>,
    block: Vec<u8>,
    section: Vec<u8>,
}

impl Outputs {
    /// Filled with what no way writes.
    fn new(work: &Work) -> Outputs {
        let room = work.columns().room();
        Outputs {
            letters: vec![b'.'; READS],
            ends: vec![u32::MAX; READS],
            names: vec![0; work.names.len()],
            name_ends: vec![u32::MAX; READS],
            block: vec![b'.'; room],
            section: Vec::with_capacity(room),
        }
    }
}

/// What a way has done, by which it is compared.
#[derive(Clone, Copy, Debug, PartialEq, Eq)]
enum Done {
    Judged,
    /// Names, as they are read.
    Read,
    /// The block, of so many bytes.
    Written(usize),
    /// The names section alone.
    Section,
    /// Something without these names.
    Without,
    Refused,
}

struct Way {
    title: &'static str,
    run: fn(&Work, &mut Outputs) -> Done,
}

/// Proved, plain and second of each task, and then what it costs without names.
const WAYS: [Way; 12] = [
    Way { title: "validate, proved", run: proved_validate },
    Way { title: "validate, plain Rust", run: plain_validate },
    Way { title: "validate, second", run: second_validate },
    Way { title: "decode, proved", run: proved_decode },
    Way { title: "decode, plain Rust", run: plain_decode },
    Way { title: "decode, second", run: second_decode },
    Way { title: "encode, proved", run: proved_encode },
    Way { title: "encode, plain Rust", run: plain_encode },
    Way { title: "encode, second", run: second_encode },
    Way { title: "validate, proved, without names", run: unnamed_validate },
    Way { title: "decode, proved, without names", run: unnamed_decode },
    Way { title: "encode, proved, the name 0 for all", run: zeros_encode },
];

fn done(accepted: bool, done: Done) -> Done {
    if accepted {
        done
    } else {
        Done::Refused
    }
}

fn proved_validate(work: &Work, _: &mut Outputs) -> Done {
    done(validate_block(&no_bases(), &work.block).is_ok(), Done::Judged)
}

fn plain_validate(work: &Work, _: &mut Outputs) -> Done {
    done(plain::judge(work.section(), READS), Done::Judged)
}

fn second_validate(work: &Work, _: &mut Outputs) -> Done {
    done(second::validate_block(0, &[], &work.block).number == 0, Done::Judged)
}

fn proved_decode(work: &Work, to: &mut Outputs) -> Done {
    let Outputs { letters, ends, names, name_ends, .. } = to;
    let buffers = Buffers { letters, ends, names, name_ends };
    done(decode_into(&no_bases(), &work.block, buffers).is_ok(), Done::Read)
}

fn plain_decode(work: &Work, to: &mut Outputs) -> Done {
    done(plain::read(work.section(), READS, &mut to.names, &mut to.name_ends), Done::Read)
}

fn second_decode(work: &Work, to: &mut Outputs) -> Done {
    let Outputs { letters, ends, names, name_ends, .. } = to;
    let outcome = second::decode(0, &[], &work.block, letters, ends, names, name_ends);
    done(outcome.number == 0, Done::Read)
}

fn proved_encode(work: &Work, to: &mut Outputs) -> Done {
    let answer = encode_into(&no_bases(), &work.columns(), B_ID, C_TIME, &mut to.block);
    answer.map_or(Done::Refused, Done::Written)
}

fn plain_encode(work: &Work, to: &mut Outputs) -> Done {
    to.section.clear();
    done(plain::write(&work.names, &work.name_ends, &mut to.section).is_some(), Done::Section)
}

fn second_encode(work: &Work, to: &mut Outputs) -> Done {
    second_length(&work.columns(), &mut to.block).map_or(Done::Refused, Done::Written)
}

fn unnamed_validate(work: &Work, _: &mut Outputs) -> Done {
    done(validate_block(&no_bases(), &work.unnamed).is_ok(), Done::Without)
}

fn unnamed_decode(work: &Work, to: &mut Outputs) -> Done {
    let (letters, ends) = (&mut to.letters[..], &mut to.ends[..]);
    let buffers = Buffers { letters, ends, ..Buffers::default() };
    done(decode_into(&no_bases(), &work.unnamed, buffers).is_ok(), Done::Without)
}

fn zeros_encode(work: &Work, to: &mut Outputs) -> Done {
    let columns = Columns { names: &work.zeros, name_ends: &work.ends, ..work.columns() };
    let answer = encode_into(&no_bases(), &columns, B_ID, C_TIME, &mut to.block);
    done(answer.is_ok(), Done::Without)
}

/// A way that gives other names, or another block, is not timed.
fn compare(title: &str, way: &Way, work: &Work) {
    let mut to = Outputs::new(work);
    let outcome = (way.run)(work, &mut to);
    let agrees = match outcome {
        Done::Judged | Done::Without => true,
        Done::Read => to.names == work.names && to.name_ends == work.name_ends,
        Done::Written(length) => to.block[..length] == work.block,
        Done::Section => to.section == work.section(),
        Done::Refused => false,
    };
    assert!(agrees, "{title}: {}: {outcome:?} differs, or what is written", way.title);
}

/// On small sections, sound, with a fault or with a byte changed, plain Rust accepts what the
/// library accepts, and reads the same names.
fn compare_sections(random: &mut Prng) {
    let (mut accepted, mut names, mut ends) = (0, Vec::new(), Vec::new());
    for round in 0..SMALL {
        let max_name = random.pick(&[1, 8, 40, 255]);
        let shape = Shape { bases: 12, max_reads: 9, max_length: 4, max_carried: 2, max_name };
        let mut plan = generate(random, shape);
        if round % 4 == 1 {
            spoil(&mut plan, second::NAMES_SECTION_INVALID, random);
        }
        let mut block = plan.block();
        let header = Header::read(&block).expect("the header is sound");
        let (offset, length) = header.span(NAMES);
        let span = offset as usize..(offset + length) as usize;
        if round % 4 == 2 && !span.is_empty() {
            let place = random.range(offset, offset + length - 1) as usize;
            block[place] = random.byte();
        }
        if !header.names_stored() {
            continue;
        }
        let reference = Reference::new(plan.reference.bases, &plan.reference.bytes);
        let reference = reference.expect("the reference fits");
        let decoded = ora::decode(&reference, &block).ok();
        let reads = header.reads as usize;
        let judged = plain::judge(&block[span.clone()], reads);
        let read = plain::read(&block[span], reads, &mut names, &mut ends);
        assert!(
            judged == decoded.is_some() && read == judged,
            "section {round} is accepted by some and refused by others"
        );
        if let Some(stored) = decoded.as_ref().and_then(|decoded| decoded.names()) {
            assert!(stored.bytes() == names && stored.ends() == ends, "section {round}: names");
            accepted += 1;
        }
    }
    assert!(SMALL / 4 < accepted && accepted < 3 * SMALL / 4, "{accepted} sections are accepted");
}

/// Of few names, good and bad, plain Rust makes the section that the library makes.
fn compare_given(random: &mut Prng) {
    let none = second::generator::generate_reference(random, 0);
    let mut written = 0;
    for round in 0..SMALL {
        let mut call = random_call(random, &none, 9, 4);
        if round % 3 == 0 {
            spoil_call(&mut call, second::NAMES_INVALID, 0, random);
        }
        let columns = Columns {
            letters: &call.letters,
            ends: &call.ends,
            names: &call.names,
            name_ends: &call.name_ends,
            positions: &call.positions,
            strands: &call.strands,
            lefts: &call.lefts,
            rights: &call.rights,
        };
        let mut block = vec![0; columns.room()];
        let answer = encode_into(&no_bases(), &columns, B_ID, C_TIME, &mut block);
        let mut section = Vec::new();
        let plain = plain::write(&call.names, &call.name_ends, &mut section);
        let plain = plain.filter(|_| call.name_ends.len() == call.ends.len());
        assert!(plain.is_some() == answer.is_ok(), "names {round}: one takes them");
        if plain.is_some() {
            let stored = ora::section(&block, ora::Section::Names);
            assert!(section == stored, "names {round}: sections differ");
            written += 1;
        }
    }
    assert!(SMALL / 2 < written && written < 3 * SMALL / 4, "{written} names are taken");
}

/// The best time of each way over all passes.
fn measure(work: &Work) -> [f64; WAYS.len()] {
    let mut to = Outputs::new(work);
    let mut best = [Duration::MAX; WAYS.len()];
    for pass in 0..PASSES {
        for (way, best) in WAYS.iter().zip(&mut best) {
            if way.title.ends_with("second") && pass % SECOND_EVERY != 0 {
                continue;
            }
            // Every way finds the same caches, whichever ran before it.
            for bytes in [&work.block, &work.names] {
                black_box(bytes.iter().fold(0, |sum, byte| sum ^ byte));
            }
            let run = black_box(way.run);
            let time = timed(|| {
                black_box(run(black_box(work), black_box(&mut to)));
            });
            *best = time.min(*best);
        }
    }
    best.map(|time| time.as_secs_f64())
}

pub fn print_tables() {
    let random = &mut Prng::new(7);
    compare_sections(random);
    compare_given(random);
    let works = COLUMNS.map(|style| Work::new(style, random));
    for (style, work) in COLUMNS.iter().zip(&works) {
        WAYS.iter().for_each(|way| compare(style.title, way, work));
    }
    let times = works.each_ref().map(measure);
    let per_name = |bytes: usize| bytes as f64 / READS as f64;

    title_row(COLUMNS.iter().map(|style| style.title));
    row("bytes of a name", works.iter().map(|work| per_name(work.names.len())));
    row("bytes of the section, a name", works.iter().map(|work| per_name(work.section().len())));
    for (number, way) in WAYS.iter().enumerate() {
        let speeds = times.iter().map(|times| READS as f64 / times[number] / 1e6);
        row(&format!("{}, million names a second", way.title), speeds);
    }
    println!();
    title_row(COLUMNS.iter().map(|style| style.title));
    let tasks = [
        ("validate", "without names"),
        ("decode", "without names"),
        ("encode", "with the name 0 for all"),
    ];
    for (task, (title, without)) in tasks.into_iter().enumerate() {
        let [proved, plain, second, other] = [3 * task, 3 * task + 1, 3 * task + 2, 9 + task];
        row(
            &format!("{title}, speed, proved to plain Rust"),
            times.iter().map(|times| times[plain] / times[proved]),
        );
        row(
            &format!("{title}, speed, proved, the time {without} taken off, to plain Rust"),
            times.iter().map(|times| times[plain] / (times[proved] - times[other])),
        );
        row(
            &format!("{title}, speed, proved to second"),
            times.iter().map(|times| times[second] / times[proved]),
        );
        row(
            &format!("{title}, time, proved, {without} to these names"),
            times.iter().map(|times| times[other] / times[proved]),
        );
    }
}
