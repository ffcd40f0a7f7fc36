//! Sees what is met in reverse local records, whose stretch ends at the stored position and runs
//! down: where it lies, which steps lead from it and to it, and how it leaves the reference.

use super::walk::Walk;
use crate::case::Reading;
use crate::paths::Path;
use crate::tally::Tally;
use second::lengths::lengths;
use second::records::{Kind, Record};
use second::reference::{Reference, Strand};

/// Whether a record is local and on the reverse strand.
fn is_reverse_local(record: &Record) -> bool {
    matches!(record.kind, Kind::Local(place, ..) if place.strand == Strand::Reverse)
}

/// Whether it is so, and its position not the lowest index: it has two aligned letters or more.
fn runs_down(record: &Record) -> bool {
    is_reverse_local(record) && record.stretch().is_some_and(|(_, span)| span > 1)
}

/// What is met in an accepted block of these records.
pub fn of_accepted(reference: &Reference, input: &[u8], records: &[Record], tally: &mut Tally) {
    if !records.iter().any(is_reverse_local) {
        return;
    }
    let mut walk = Walk::new(reference, input);
    // Whether the aligned read before runs down.
    let mut before = None;
    for length in records.iter().map(|record| record.length) {
        let Some((bits, record)) = walk.record(length) else { return };
        let Some((lowest, span)) = record.stretch() else { continue };
        let down = runs_down(&record);
        if let Some(before) = before {
            tally.path_if(Path::StepFromReverseLocal, bits.pos_t && before);
            tally.path_if(Path::StepToReverseLocal, bits.pos_t && down);
        }
        before = Some(down);
        tally.path_if(Path::ReverseLocalFirst, down && lowest == 0);
        tally.path_if(Path::ReverseLocalLast, down && !reference.holds(lowest, span + 1));
        tally.path_if(Path::ReverseLocalAbove31Bits, down && lowest > i32::MAX as u64);
        tally.path_if(Path::ReverseLocal1, is_reverse_local(&record) && span == 1);
    }
}

/// How a reverse local stretch leaves the reference, in a block that is refused with 15 at a read.
pub fn of_refused(reading: &Reading, read: u64, tally: &mut Tally) {
    let Ok(reference) = Reference::new(reading.bases, &reading.reference) else { return };
    let Ok(lengths) = lengths(&reading.input) else { return };
    let mut walk = Walk::new(&reference, &reading.input);
    for &length in &lengths[..read as usize] {
        walk.record(length as u64);
    }
    let Some((position, span)) = walk.refused_reverse_local(lengths[read as usize] as u64) else {
        return;
    };
    let below = position < reading.bases && position + 1 < span;
    tally.path_if(Path::ReverseLocalBelow0, below);
    tally.path_if(Path::ReverseLocalMinus1, below && position + 2 == span);
    tally.path_if(Path::ReverseLocalPast, position == reading.bases && position + 1 >= span);
}

/// The paths of a step from or to a reverse local read that was written.
const WRITTEN_STEPS: [(Path, i64); 4] = [
    (Path::WrittenBack1, -1),
    (Path::WrittenStep0, 0),
    (Path::WrittenStep65535, 65_535),
    (Path::WrittenStep65536, 65_536),
];

/// What is met in a block that was written.
pub fn of_written(records: &[Record], tally: &mut Tally) {
    // The position of the aligned read before, and whether that runs down.
    let mut before: Option<(i64, bool)> = None;
    for record in records {
        let Some(place) = record.placement() else { continue };
        let (position, down) = (place.position as i64, runs_down(record));
        tally.path_if(Path::WrittenReverseLocal, down);
        // Between lowest indices it would be another step.
        if let Some((from, _)) = before.filter(|&(_, down_before)| down_before != down) {
            for (path, step) in WRITTEN_STEPS {
                tally.path_if(path, position - from == step);
            }
        }
        before = Some((position, down));
    }
}
