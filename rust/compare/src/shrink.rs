//! Makes a case on which two sides differ smaller, as long as they differ: an input loses what
//! follows the block, its opaque sections, its names and its other bytes to zeros, a call of the
//! encoder its names and reads.

use crate::case::{Reading, Room, Work, Writing};
use crate::check::differs;
use crate::library::Library;
use second::header::{Header, SECTIONS};
use std::time::{Duration, Instant};

/// How long shrinking may take.
const MOST: Duration = Duration::from_secs(5);

pub fn shrink(library: &dyn Library, work: &Work, margins: bool) -> Work {
    let deadline = Instant::now() + MOST;
    let still = |work: Work| Instant::now() < deadline && differs(library, work, margins);
    match work {
        Work::Reading(reading) => Work::Reading(shrink_reading(reading.clone(), still)),
        Work::Writing(writing) => Work::Writing(shrink_writing(writing.clone(), still)),
    }
}

fn shrink_reading(mut reading: Reading, still: impl Fn(Work) -> bool) -> Reading {
    let take = |reading: &mut Reading, smaller: Reading| {
        if still(Work::Reading(smaller.clone())) {
            *reading = smaller;
        }
    };
    let smaller = Reading { room: Room::More([0; 4]), section: 9, ..reading.clone() };
    take(&mut reading, smaller);
    if let Ok(header) = Header::read(&reading.input) {
        let block = reading.input[..header.block_length() as usize].into();
        let smaller = Reading { input: block, ..reading.clone() };
        take(&mut reading, smaller);
    }
    // First with the names, where they are read, and then without.
    for kept in [&[0, 1, 4, 5][..], &[0, 4, 5]] {
        let Ok(header) = Header::read(&reading.input) else { break };
        let input = with_sections(&header, &reading.input, kept);
        let smaller = Reading { input, ..reading.clone() };
        take(&mut reading, smaller);
    }
    let mut half = reading.input.len() / 2;
    while half > 0 {
        let kept = reading.input.len().saturating_sub(half);
        let smaller = Reading { input: reading.input[..kept].into(), ..reading.clone() };
        take(&mut reading, smaller);
        half /= 2;
    }
    for place in (0..reading.input.len()).rev() {
        if reading.input[place] != 0 {
            let mut smaller = reading.clone();
            smaller.input[place] = 0;
            take(&mut reading, smaller);
        }
    }
    reading
}

/// The block with a header of 121 bytes and these sections alone. Without the names section their
/// flag is not set either; names that stay unread are never kept.
fn with_sections(header: &Header, input: &[u8], kept: &[usize]) -> Box<[u8]> {
    let named = header.names_stored() && kept.contains(&1);
    let mut block = input[..121].to_vec();
    block[2..6].copy_from_slice(&121u32.to_le_bytes());
    if !named {
        block[42] &= !8;
    }
    for number in 0..SECTIONS {
        if !kept.contains(&number) || number == 1 && !named {
            block[6 + 4 * number..10 + 4 * number].fill(0);
        } else {
            block.extend(header.section(input, number as u64));
        }
    }
    block.into()
}

fn shrink_writing(mut writing: Writing, still: impl Fn(Work) -> bool) -> Writing {
    let take = |writing: &mut Writing, smaller: Writing| {
        let taken = still(Work::Writing(smaller.clone()));
        if taken {
            *writing = smaller;
        }
        taken
    };
    let smaller = Writing { b_id: 0, c_time: 0, ..writing.clone() };
    take(&mut writing, smaller);
    let reads = writing.ends.len();
    let (names, name_ends) = (vec![b'0'; reads].into(), (1..=reads as u32).collect());
    let smaller = Writing { names, name_ends, ..writing.clone() };
    take(&mut writing, smaller);
    let mut part = writing.ends.len().div_ceil(2);
    while part > 0 {
        let mut first = 0;
        while first < writing.ends.len() {
            let dropped = without_reads(&writing, first, part);
            if !dropped.is_some_and(|smaller| take(&mut writing, smaller)) {
                first += part;
            }
        }
        part /= 2;
    }
    writing
}

/// The call without some of its reads; None where its columns are not one per read.
fn without_reads(writing: &Writing, first: usize, count: usize) -> Option<Writing> {
    let reads = writing.ends.len();
    let columns = [&writing.strands, &writing.lefts, &writing.rights];
    let one_each = columns.iter().all(|column| column.len() == reads);
    if !one_each || writing.positions.len() != reads || writing.name_ends.len() != reads {
        return None;
    }
    let last = (first + count).min(reads);
    let (letters, ends) = without_parts(&writing.letters, &writing.ends, first, last)?;
    let (names, name_ends) = without_parts(&writing.names, &writing.name_ends, first, last)?;
    Some(Writing {
        letters,
        ends,
        names,
        name_ends,
        positions: dropped(&writing.positions, first, last),
        strands: dropped(&writing.strands, first, last),
        lefts: dropped(&writing.lefts, first, last),
        rights: dropped(&writing.rights, first, last),
        ..writing.clone()
    })
}

fn dropped<T: Copy>(column: &[T], from: usize, to: usize) -> Box<[T]> {
    [&column[..from], &column[to..]].concat().into()
}

/// Parts one after the other, and the end of each.
type Parts = (Box<[u8]>, Box<[u32]>);

/// The parts but those from `first` up to `last`; None where their ends fall, or pass the bytes.
fn without_parts(bytes: &[u8], ends: &[u32], first: usize, last: usize) -> Option<Parts> {
    let start = if first == 0 { 0 } else { ends[first - 1] };
    let end = ends[last - 1];
    if start > end || end as usize > bytes.len() {
        return None;
    }
    let mut left = dropped(ends, first, last);
    for later in &mut left[first..] {
        *later = later.wrapping_sub(end - start);
    }
    Some((dropped(bytes, start as usize, end as usize), left))
}
