//! Property: a block built forward from fields decodes to the letters, ends,
//! names and counts computed from those fields. Catches: a wrong turn of
//! reverse reads, a position restarted at a group or by a raw read, fillers
//! counted as differences, N laid under entries, records of 31 entries
//! miscounted, a column of names read in another width, unread names read, and
//! any misread field.

use second::corpus::Lent;
use second::generator::*;
use second::prng::Prng;
use second::*;

fn check(plan: &Plan) {
    let block = plan.block();
    let expected = &plan.expected;
    let (letters, ends) = (expected.letters.len(), expected.ends.len());
    let (names, name_ends) = (expected.names.len(), expected.name_ends.len());
    let mut lent = Lent::new(letters + 3, ends + 3, names + 3, name_ends + 3);
    let reference = &plan.reference;
    let outcome = lent.decode(reference.bases, &reference.bytes, &block);
    let wanted = Outcome {
        length: block.len() as u64,
        reads: expected.ends.len() as u64,
        letters: expected.letters.len() as u64,
        entries: expected.entries,
        differences: expected.differences,
        top: expected.top,
        ..Outcome::default()
    };
    assert_eq!(outcome, wanted);
    let ends_of = |ends: &[u32]| [ends, &[0xEEEE_EEEE; 3]].concat();
    assert!(lent.letters == [&expected.letters[..], &[0xEE; 3]].concat());
    assert!(lent.ends == ends_of(&expected.ends));
    assert!(lent.names == [&expected.names[..], &[0xEE; 3]].concat());
    assert!(lent.name_ends == ends_of(&expected.name_ends));
    assert_eq!(validate_block(reference.bases, &reference.bytes, &block), wanted);

    let read_lengths: Vec<u64> =
        lengths(&block).unwrap().into_iter().map(|length| length as u64).collect();
    assert_eq!(read_lengths, plan.lengths);
    for (number, section_bytes) in plan.sections().iter().enumerate() {
        assert_eq!(section(&block, number as u64), section_bytes);
    }
    assert_eq!(block_id(&block), plan.b_id);
}

#[test]
fn small_blocks() {
    let mut rng = Prng::new(1);
    for round in 0..3000 {
        let shape = Shape {
            bases: rng.pick(&[0, 1, 3, 4, 5, 12, 63, 64, 65, 200, 700]),
            max_reads: rng.pick(&[1, 2, 8, 9, 24]),
            max_length: rng.pick(&[1, 3, 40, 300]),
            max_carried: round % 10,
            max_name: rng.pick(&[1, 2, 12, 40, 60, 255]),
        };
        check(&generate(&mut rng, shape));
    }
}

#[test]
fn long_reads_and_large_references() {
    let mut rng = Prng::new(2);
    for _ in 0..60 {
        let shape = Shape {
            bases: rng.pick(&[40_000, 70_000, 150_000, 200_001]),
            max_reads: 10,
            max_length: 100_000,
            max_carried: 0,
            max_name: 40,
        };
        check(&generate(&mut rng, shape));
    }
}

/// Records of 30 and of 31 entries, as global and as local ones, on both
/// strands; with fillers, and with an N list.
#[test]
fn saturated_blocks() {
    let mut rng = Prng::new(5);
    // For each number of entries: forward and reverse global, forward and
    // reverse local.
    let mut met = [[0; 4]; 2];
    let (mut fillers, mut with_n) = (0, 0);
    for _ in 0..1000 {
        let bases = rng.pick(&[31, 90, 300]);
        let shape = Shape { bases, max_reads: 12, max_length: 90, max_carried: 0, max_name: 9 };
        let reference = generate_reference(&mut rng, bases);
        let plan = generate_saturated(&mut rng, shape, &reference);
        check(&plan);
        fillers += plan.expected.entries - plan.expected.differences;
        for (read, record) in plan.groups.iter().flat_map(|group| &group.records).enumerate() {
            let Some(number) = [30, 31].iter().position(|&count| record.entries.len() == count)
            else {
                continue;
            };
            let reverse = plan.groups[read / 8].bytes[1] & (0x80 >> (read % 8)) == 0;
            let is_local = record.kind == RecordKind::Local;
            met[number][2 * is_local as usize + reverse as usize] += 1;
            with_n += !record.n_list.is_empty() as u32;
        }
    }
    assert!(met.concat().iter().all(|&count| count > 50), "{met:?}");
    assert!(fillers > 1000 && with_n > 200, "{fillers} {with_n}");
}

#[test]
fn every_kind_coding_and_strand_is_met() {
    let mut rng = Prng::new(3);
    let shape = Shape { bases: 700, max_reads: 17, max_length: 600, max_carried: 0, max_name: 1 };
    let (mut kinds, mut short_positions, mut long_positions) = ([0; 5], 0, 0);
    let (mut same, mut bytes, mut fillers, mut without_reads) = (0, 0, 0, 0);
    for _ in 0..300 {
        let plan = generate(&mut rng, shape);
        without_reads += plan.lengths.is_empty() as u32;
        fillers += plan.expected.entries - plan.expected.differences;
        for group in &plan.size_groups {
            same += group.same.count_ones();
            bytes += group.byte_size.count_ones();
        }
        for record in plan.groups.iter().flat_map(|group| &group.records) {
            let kind = RECORD_KINDS.iter().position(|&kind| kind == record.kind).unwrap();
            kinds[kind] += 1;
            short_positions += (record.position.len() == 2) as u32;
            long_positions += (record.position.len() == 4) as u32;
        }
    }
    assert!(kinds.iter().all(|&count| count > 50), "{kinds:?}");
    assert!(short_positions > 50 && long_positions > 50);
    assert!(same > 50 && bytes > 50 && fillers > 50 && without_reads > 5);
}

/// The read index and the stored position of each placed record, worked out
/// from the fields.
fn stored_positions(plan: &Plan) -> Vec<(usize, u64)> {
    let mut stored: Vec<(usize, u64)> = Vec::new();
    let records = plan.groups.iter().flat_map(|group| &group.records);
    for (read, record) in records.enumerate() {
        let field = record.position.iter().rev().fold(0, |sum, &byte| 256 * sum + byte as u64);
        let before = stored.last().map_or(0, |&(_, position)| position);
        match record.position.len() {
            0 => {}
            2 => stored.push((read, before + field)),
            _ => stored.push((read, field)),
        }
    }
    stored
}

/// Of more bases than one, at the first base and at the last, and by steps from
/// and to them.
#[test]
fn reverse_local_records_are_met() {
    let mut rng = Prng::new(4);
    let (mut records, mut met) = (0, 0);
    let (mut first, mut last, mut inside) = (0, 0, 0);
    let (mut stepped_to, mut stepped_from) = (0, 0);
    for _ in 0..600 {
        let shape = Shape {
            bases: rng.pick(&[12, 65, 300]),
            max_reads: 18,
            max_length: rng.pick(&[4, 40, 150]),
            max_carried: 0,
            max_name: 1,
        };
        let plan = generate(&mut rng, shape);
        records += plan.lengths.len();
        let stored = stored_positions(&plan);
        let record = |read: usize| &plan.groups[read / 8].records[read % 8];
        for (index, &(read, position)) in stored.iter().enumerate() {
            if !plan.is_reverse_local(read) || record(read).span < 2 {
                continue;
            }
            met += 1;
            let lowest = position as i64 - record(read).span as i64 + 1;
            assert!(lowest >= 0 && position < plan.reference.bases);
            first += (lowest == 0) as u32;
            last += (position + 1 == plan.reference.bases) as u32;
            inside += (lowest > 0 && position + 1 < plan.reference.bases) as u32;
            stepped_to += (record(read).position.len() == 2) as u32;
            let next = stored.get(index + 1).map(|&(read, _)| record(read).position.len());
            stepped_from += (next == Some(2)) as u32;
        }
    }
    assert!(met * 20 > records, "{met} of {records}");
    assert!([first, last, inside, stepped_to, stepped_from].iter().all(|&count| count > 80));
}
