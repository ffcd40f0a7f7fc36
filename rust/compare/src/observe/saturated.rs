//! Sees what is met in records of 30 and 31 entries, in the counts that tell of them, and in reads
//! whose place would take more.

use super::walk::Walk;
use crate::case::{Reading, Writing};
use crate::paths::Path;
use crate::tally::Tally;
use ora::raw::Answer;
use second::lengths::lengths;
use second::records::{Kind, Record};
use second::reference::{Reference, Strand};

/// The slot of top.
const TOP: usize = 8;

/// What is met in the answers to judging a block, judging its input as a file, and decoding it.
pub fn of_answers(judged: &Answer, file: &Answer, decoded: &Answer, tally: &mut Tally) {
    let first = judged[TOP];
    tally.path_if(Path::Top, first > 0);
    tally.path_if(Path::TopAbove1, first > 1);
    tally.path_if(Path::NoRoomForTop, first > 0 && decoded[0] == 22);
    tally.path_if(Path::FileTop, file[TOP] > 0);
    tally.path_if(Path::FileTopTwice, first > 0 && file[TOP] > first);
    tally.path_if(Path::FileTopRefused, first > 0 && file[0] != 0);
}

/// What is met before the record, or the end, at which a block is refused.
pub fn of_refused(reading: &Reading, judged: &Answer, tally: &mut Tally) {
    let sound = match judged[0] {
        11..=20 => judged[2] as usize,
        21 | 40 => usize::MAX,
        _ => return,
    };
    let Ok(reference) = Reference::new(reading.bases, &reading.reference) else { return };
    let Ok(lengths) = lengths(&reading.input) else { return };
    let mut walk = Walk::new(&reference, &reading.input);
    let mut records = lengths.iter().take(sound).map_while(|&length| walk.record(length as u64));
    tally.path_if(Path::RefusedAfter31, records.any(|(_, record)| record.is_saturated()));
}

/// How many entries of a placed record are fillers, under an N and elsewhere, and how many of the
/// others stand under an N.
struct Entries {
    fillers: usize,
    fillers_under_n: usize,
    others_under_n: usize,
}

impl Entries {
    fn of(reference: &Reference, record: &Record) -> Option<Entries> {
        let (place, (lowest, span)) = (record.placement()?, record.stretch()?);
        let given = reference.stretch(lowest, span, place.strand);
        let mut found = Entries { fillers: 0, fillers_under_n: 0, others_under_n: 0 };
        for entry in record.entries() {
            let is_filler = given[entry.place as usize] == entry.code;
            let under_n = record.n_positions.contains(&(place.left + entry.place));
            found.fillers += is_filler as usize;
            found.fillers_under_n += (is_filler && under_n) as usize;
            found.others_under_n += (!is_filler && under_n) as usize;
        }
        Some(found)
    }
}

fn is_local(record: &Record) -> bool {
    matches!(record.kind, Kind::Local(..))
}

fn is_reverse(record: &Record) -> bool {
    record.placement().is_some_and(|place| place.strand == Strand::Reverse)
}

/// What is met in a placed record.
pub fn of_placed(reference: &Reference, record: &Record, tally: &mut Tally) {
    tally.path_if(Path::Entries30, record.entries().len() == 30);
    if !record.is_saturated() {
        return;
    }
    tally.path_if(Path::Reverse31, is_reverse(record));
    tally.path_if(Path::ReverseLocal31, is_reverse(record) && is_local(record));
    let Some(found) = Entries::of(reference, record) else { return };
    tally.path_if(Path::Filler31, found.fillers > 0);
    tally.path_if(Path::Fillers31, found.fillers == record.entries().len());
    tally.path_if(Path::FillerUnderN31, found.fillers_under_n > 0);
    tally.path_if(Path::OtherUnderN31, found.others_under_n > 0);
}

/// What is met in a placed record that was written.
pub fn of_written(reference: &Reference, record: &Record, tally: &mut Tally) {
    tally.path_if(Path::Written30, record.entries().len() == 30);
    if !record.is_saturated() {
        return;
    }
    tally.path(Path::Written31);
    tally.path_if(Path::Written31Local, is_local(record));
    tally.path_if(Path::Written31Reverse, is_reverse(record));
    let fillers = Entries::of(reference, record).map_or(0, |found| found.fillers);
    tally.path_if(Path::Written31Filler, fillers > 0);
}

/// What is met in a read that was written raw, as its place takes too many entries.
pub fn of_too_many(reference: &Reference, writing: &Writing, read: usize, tally: &mut Tally) {
    let start = if read == 0 { 0 } else { writing.ends[read - 1] };
    let (left, right) = (writing.lefts[read] as u32, writing.rights[read] as u32);
    let aligned = (start + left) as usize..(writing.ends[read] - right) as usize;
    let strand = if writing.strands[read] == 1 { Strand::Forward } else { Strand::Reverse };
    let position = writing.positions[read] as u64;
    let given = reference.stretch(position, aligned.len() as u64, strand);
    let letters = (0..).zip(&writing.letters[aligned]).zip(given);
    let (mut entries, mut before) = (0, 0u64);
    for ((place, &letter), code) in letters {
        if letter != b'N' && letter != b"ACGT"[code as usize] {
            // The fillers of the gap and the entry itself, which alone stands where the gap is 0.
            entries += (place - before).div_ceil(63).max(1);
            before = place;
        }
    }
    tally.path_if(Path::TooManyBy1, entries == 32);
}
