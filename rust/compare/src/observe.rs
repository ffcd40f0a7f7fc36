//! Sees which paths a case takes. A block that is accepted is looked at record by record, as the
//! second implementation reads it.

mod names;
mod reverse;
mod saturated;
mod walk;

use crate::case::{Reading, Sizes, Writing, ENDS, NAMES, NAME_ENDS};
use crate::paths::Path;
use crate::tally::Tally;
use ora::raw::Answer;
use second::blocks::read_block;
use second::header::Header;
use second::records::{Kind, Placement, Record};
use second::reference::{Reference, Strand};

const LAST_GROUP: [Path; 8] = [
    Path::Group1,
    Path::Group2,
    Path::Group3,
    Path::Group4,
    Path::Group5,
    Path::Group6,
    Path::Group7,
    Path::Group8,
];

fn i32_at(input: &[u8], at: usize) -> i32 {
    i32::from_le_bytes(input[at..at + 4].try_into().unwrap())
}

const SHORT: [Path; 4] =
    [Path::LettersShort, Path::EndsShort, Path::NamesShort, Path::NameEndsShort];

/// What is met in an input, given what its block needs of each buffer, and what its block, its
/// blocks as a file, and decoding it answered.
pub fn of_reading(
    reading: &Reading,
    needed: Sizes,
    judged: &Answer,
    file: &Answer,
    decoded: &Answer,
    tally: &mut Tally,
) {
    let input = &reading.input;
    tally.path_if(Path::FileEmpty, file[0] == 0 && input.is_empty());
    tally.path_if(Path::FileJoined, file[0] == 0 && file[3] >= 2);
    tally.path_if(Path::FileLaterBlock, file[0] != 0 && file[1] > 0);
    tally.path_if(Path::RefusedAfter100, judged[2] >= 100);
    saturated::of_answers(judged, file, decoded, tally);
    saturated::of_refused(reading, judged, tally);
    match judged[0] {
        5 => tally.path_if(Path::NegativeHeader, i32_at(input, 2) < 0),
        7 => tally.path_if(Path::NegativeReads, i32_at(input, 50) < 0),
        8 => tally.path_if(Path::SumAbove32Bits, told_length(input) > u32::MAX as u64),
        9 => tally.path_if(Path::NegativeLength, input[42] & 1 == 1 && i32_at(input, 46) < 0),
        10 => tally.path_if(Path::LettersAbove32Bits, told_letters(input) > u32::MAX as u64),
        15 => reverse::of_refused(reading, judged[2], tally),
        40 => names::of_refused(input, tally),
        _ => {}
    }
    if judged[0] != 0 {
        return;
    }
    let lent = reading.room.lent(needed);
    let fits = decoded[0] == 0;
    tally.path_if(Path::JustFits, fits && lent[ENDS] > 0 && lent == needed);
    let short: Vec<usize> = (0..4).filter(|&buffer| lent[buffer] < needed[buffer]).collect();
    if let [buffer] = short[..] {
        tally.path_if(SHORT[buffer], !fits);
    }
    tally.path_if(Path::BytesAfter, input.len() as u64 > judged[3]);
    tally.path_if(Path::NoBases, reading.bases == 0);
    let Ok(reference) = Reference::new(reading.bases, &reading.reference) else { return };
    if let (Ok(header), Ok(block)) = (Header::read(input), read_block(&reference, input)) {
        of_header(&header, tally);
        of_records(&reference, &block.records, tally);
        reverse::of_accepted(&reference, input, &block.records, tally);
        names::of_accepted(&header, input, &block.names, tally);
        let unread = !header.names_stored() && fits && lent[ENDS] > 0;
        tally.path_if(Path::NamesNoRoom, unread && lent[NAMES] + lent[NAME_ENDS] == 0);
    }
}

/// Header and sections, as the header tells them.
fn told_length(input: &[u8]) -> u64 {
    (0..10).map(|field| i32_at(input, 2 + 4 * field) as u32 as u64).sum()
}

/// The sum of lengths, where all are equal.
fn told_letters(input: &[u8]) -> u64 {
    (input[42] & 1) as u64 * i32_at(input, 46) as u64 * i32_at(input, 50) as u64
}

fn of_header(header: &Header, tally: &mut Tally) {
    tally.path_if(Path::LongHeader, header.header_length > 121);
    let opaque = [2, 3, 6, 7, 8].map(|number| header.section_lengths[number]);
    tally.path_if(Path::OpaqueSections, opaque.iter().any(|&length| length > 0));
    match header.reads {
        0 => tally.path(Path::NoReads),
        reads => {
            tally.path(LAST_GROUP[(reads as usize - 1) % 8]);
            let path = if header.same_length() { Path::LengthsEqual } else { Path::SizeSection };
            tally.path(path);
            tally.path_if(Path::Reads1000, reads >= 1000);
        }
    }
}

fn of_records(reference: &Reference, records: &[Record], tally: &mut Tally) {
    // The aligned read before, with its index.
    let mut before: Option<(usize, u64)> = None;
    for (index, record) in records.iter().enumerate() {
        of_record(reference, record, tally);
        let Some(place) = record.placement() else { continue };
        match before {
            None => {
                tally.path_if(Path::First65535, place.position == 65_535);
                tally.path_if(Path::First65536, place.position == 65_536);
            }
            Some((earlier, position)) => {
                tally.path_if(Path::Step65535, place.position == position + 65_535);
                tally.path_if(Path::Step65536, place.position == position + 65_536);
                tally.path_if(Path::StepBack, place.position < position);
                tally.path_if(Path::StepOverRaw, earlier + 1 < index);
                tally.path_if(Path::StepOverGroups, earlier / 8 < index / 8);
            }
        }
        before = Some((index, place.position));
    }
}

fn of_record(reference: &Reference, record: &Record, tally: &mut Tally) {
    let length = record.length;
    tally.path_if(Path::Letters1, length == 1);
    tally.path_if(Path::Letters256, length == 256);
    tally.path_if(Path::Letters32768, length == 32_768);
    tally.path_if(Path::LettersAbove32768, length > 32_768);
    tally.path_if(Path::LettersAbove65535, length > 65_535);
    tally.path_if(Path::Letters100000, length == 100_000);
    let full = record.n_positions.len() == 31;
    tally.path_if(Path::List31, full);
    tally.path_if(Path::NOnLast, full && record.n_positions.last() == Some(&(length - 1)));
    let mut position = 0;
    for &n_position in &record.n_positions {
        tally.path_if(Path::OffsetWords2, (32_768..65_536).contains(&(n_position - position)));
        tally.path_if(Path::OffsetWords3, n_position - position >= 65_536);
        position = n_position;
    }
    match &record.kind {
        Kind::Raw(_) => {
            tally.path(Path::Raw);
            tally.path_if(Path::RawWithList, !record.n_positions.is_empty());
        }
        Kind::Raw4(codes) => {
            let ambiguous = codes.iter().filter(|&&code| code == 4).count();
            tally.path(Path::Raw4);
            tally.path_if(Path::Raw4NoN, ambiguous == 0);
            tally.path_if(Path::Raw4Full, ambiguous >= 32);
            tally.path_if(Path::Raw4Odd, length % 2 == 1);
            tally.path_if(Path::Raw4Above65535, length > 65_535);
        }
        Kind::Perfect(place) | Kind::Global(place, _) | Kind::Local(place, _, _) => {
            of_placed(reference, record, place, tally);
        }
    }
}

fn of_placed(reference: &Reference, record: &Record, place: &Placement, tally: &mut Tally) {
    let Some((lowest, span)) = record.stretch() else { return };
    let forward = place.strand == Strand::Forward;
    tally.path(match (&record.kind, forward) {
        (Kind::Perfect(_), true) => Path::PerfectForward,
        (Kind::Perfect(_), false) => Path::PerfectReverse,
        (Kind::Global(..), true) => Path::GlobalForward,
        (Kind::Global(..), false) => Path::GlobalReverse,
        (_, true) => Path::LocalForward,
        (_, false) => Path::LocalReverse,
    });
    tally.path_if(Path::PositionAbove31Bits, place.position > i32::MAX as u64);
    tally.path_if(Path::LastBase, !reference.holds(lowest, span + 1));
    tally.path_if(Path::Clip255Left, place.left == 255);
    tally.path_if(Path::Clip255Right, place.right == 255);
    tally.path_if(Path::Clips510, place.left + place.right == 510);
    let aligned = place.left..place.left + span;
    let on_clip = record.n_positions.iter().any(|n_position| !aligned.contains(n_position));
    tally.path_if(Path::NUnderClip, on_clip);

    let entries = record.entries();
    let full = entries.len() == 31;
    tally.path_if(Path::Global31, full && matches!(record.kind, Kind::Global(..)));
    tally.path_if(Path::Local31, full && matches!(record.kind, Kind::Local(..)));
    let on_last = entries.last().is_some_and(|entry| entry.place == span - 1);
    tally.path_if(Path::EntryOnLast, full && on_last);
    let under_n = |place_of: u64| record.n_positions.contains(&(place.left + place_of));
    tally.path_if(Path::EntryUnderN, entries.iter().any(|entry| under_n(entry.place)));
    saturated::of_placed(reference, record, tally);
    let far = entries.windows(2).any(|pair| pair[1].place == pair[0].place + 63);
    tally.path_if(Path::Offset63, far);
    let alone = !entries.is_empty() && record.n_positions.is_empty();
    tally.path_if(Path::FillersAlone, alone && record.differences(reference) == 0);
}

/// What is met in a block that was written.
pub fn of_writing(writing: &Writing, block: &[u8], tally: &mut Tally) {
    tally.path_if(Path::WrittenJustFits, block.len() == writing.lent);
    tally.path_if(Path::WrittenReads50000, writing.ends.len() == 50_000);
    let Ok(reference) = Reference::new(writing.bases, &writing.reference) else { return };
    let (Ok(header), Ok(read)) = (Header::read(block), read_block(&reference, block)) else {
        return;
    };
    tally.path_if(Path::WrittenEqual, header.same_length());
    names::of_written(header.section(block, second::header::NAMES), tally);
    reverse::of_written(&read.records, tally);
    for (index, record) in read.records.iter().enumerate() {
        tally.path_if(Path::WrittenN31, record.n_positions.len() == 31);
        tally.path(match &record.kind {
            Kind::Perfect(_) => Path::WrittenPerfect,
            Kind::Global(..) => Path::WrittenGlobal,
            Kind::Local(..) => Path::WrittenLocal,
            Kind::Raw(_) => Path::WrittenRaw,
            Kind::Raw4(_) => Path::WrittenRaw4,
        });
        match &record.kind {
            Kind::Raw(_) => {
                let reason = why_raw(writing, index, record.length);
                tally.path(reason);
                if reason == Path::TooManyEntries {
                    saturated::of_too_many(&reference, writing, index, tally);
                }
            }
            Kind::Raw4(codes) => {
                let ambiguous = codes.iter().filter(|&&code| code == 4).count();
                tally.path_if(Path::WrittenN32, ambiguous == 32);
                tally.path_if(Path::WrittenN33, ambiguous == 33);
            }
            _ => of_entries(&reference, record, tally),
        }
    }
}

/// What is met in a call that is refused.
pub fn of_refused_writing(writing: &Writing, answer: &Answer, tally: &mut Tally) {
    if answer[0] == 41 {
        names::of_refused_names(writing, tally);
    }
}

/// The first reason for which a place is not used.
fn why_raw(writing: &Writing, index: usize, length: u64) -> Path {
    let clipped = writing.lefts[index] as u64 + writing.rights[index] as u64;
    if !(1..=2).contains(&writing.strands[index]) {
        Path::NoStrand
    } else if clipped >= length {
        Path::ClipsTooLong
    } else if writing.positions[index] as u64 + length - clipped > writing.bases {
        Path::SpanOutside
    } else {
        Path::TooManyEntries
    }
}

/// The gaps between differences of a written record, and its fillers.
fn of_entries(reference: &Reference, record: &Record, tally: &mut Tally) {
    let (Some(place), Some((lowest, span))) = (record.placement(), record.stretch()) else {
        return;
    };
    saturated::of_written(reference, record, tally);
    if record.entries().is_empty() {
        return;
    }
    let given = reference.stretch(lowest, span, place.strand);
    let mut before = 0;
    for entry in record.entries() {
        if given[entry.place as usize] == entry.code {
            let under_n = record.n_positions.contains(&(place.left + entry.place));
            tally.path_if(Path::FillerUnderN, under_n);
            continue;
        }
        match entry.place - before {
            63 => tally.path(Path::Gap63),
            64 => tally.path(Path::Gap64),
            126 => tally.path(Path::Gap126),
            127 => tally.path(Path::Gap127),
            _ => {}
        }
        before = entry.place;
    }
}
