//! Cases of the corpus that read: by hand, generated, with single and double
//! faults, damaged and truncated.

use crate::cases_blocks::*;
use crate::cases_by_hand::*;
use crate::cases_dna::{dna_by_hand, n_word_leaves};
use crate::cases_names::*;
use crate::cases_reverse::*;
use crate::cases_top::{top_by_hand, top_files_by_hand, top_without_room};
use crate::corpus::*;
use crate::generator::*;
use crate::mutators::*;
use crate::name_faults::SECTION_FAULTS;
use crate::prng::Prng;

/// Two faults in one record, each pair that a record can have.
fn record_pairs(rng: &mut Prng, each: usize) -> Vec<Input> {
    let mut inputs = Vec::new();
    for low in 13..=20 {
        for high in low + 1..=20 {
            // The other pairs have no kind in common.
            let apart = [(13, 15), (13, 16), (13, 17), (15, 18), (16, 18), (17, 18)];
            let mut made = if apart.contains(&(low, high)) { each } else { 0 };
            while made < each {
                let shape = Shape { max_reads: 2, max_name: 3, ..small_shape(rng) };
                let mut plan = generate(rng, shape);
                let Some(read) = plan.lengths.len().checked_sub(1) else { continue };
                let numbers = [high, low];
                if numbers
                    .iter()
                    .all(|&number| spoil_record(&mut plan, read, number, rng).is_some())
                {
                    inputs.push(Input::of_plan(format!("one record, faults {low} {high}"), &plan));
                    made += 1;
                }
            }
        }
    }
    inputs
}

/// Names are short, but for a few of up to 255 bytes in blocks of few reads.
fn small_shape(rng: &mut Prng) -> Shape {
    let max_reads = rng.pick(&[1, 2, 3, 9, 18]);
    let long = max_reads <= 3 && rng.once_in(8);
    Shape {
        bases: rng.pick(&[0, 1, 12, 40, 65, 130, 300, 300]),
        max_reads,
        max_length: rng.pick(&[1, 4, 20, 40, 150]),
        max_carried: 4,
        max_name: if long { 255 } else { rng.pick(&[1, 6, 12, 24, 36]) },
    }
}

fn generated(rng: &mut Prng, count: usize) -> Vec<(Input, Plan)> {
    (0..count)
        .map(|index| {
            let shape = small_shape(rng);
            let plan = generate(rng, shape);
            (Input::of_plan(format!("generated {index}"), &plan), plan)
        })
        .collect()
}

/// Generated blocks with one fault of each number.
fn single_faults(
    rng: &mut Prng,
    numbers: impl IntoIterator<Item = u32>,
    each: usize,
) -> Vec<Input> {
    let mut inputs = Vec::new();
    for number in numbers {
        let mut made = 0;
        while made < each {
            let shape = Shape { max_name: rng.pick(&[1, 3, 9]), ..small_shape(rng) };
            let mut plan = generate(rng, shape);
            if spoil(&mut plan, number, rng).is_some() {
                inputs.push(Input::of_plan(format!("fault {number}"), &plan));
                made += 1;
            }
        }
    }
    inputs
}

/// Generated blocks with each of the faults of a names section.
fn names_faults(rng: &mut Prng) -> Vec<Input> {
    let mut inputs = Vec::new();
    for (label, fault) in SECTION_FAULTS {
        let plan = loop {
            let shape =
                Shape { bases: 4, max_reads: 3, max_length: 4, max_name: 9, ..small_shape(rng) };
            let mut plan = generate(rng, shape);
            let reads = plan.lengths.len();
            let names = plan.names.as_mut().filter(|_| reads > 0);
            if names.is_some_and(|names| fault(names, rng).is_some()) {
                break plan;
            }
        };
        inputs.push(Input::of_plan(format!("fault 40: {label}"), &plan));
    }
    inputs
}

/// Generated blocks with each of the faults of a reverse local stretch.
fn reverse_local_faults(rng: &mut Prng, each: usize) -> Vec<Input> {
    let mut inputs = Vec::new();
    for (label, fault) in REVERSE_LOCAL_FAULTS {
        let mut made = 0;
        while made < each {
            let shape = Shape { max_reads: 9, max_name: 3, ..small_shape(rng) };
            let mut plan = generate(rng, shape);
            let reads = plan.lengths.len();
            if (0..reads).any(|read| spoil_reverse_local(&mut plan, read, *fault, rng).is_some()) {
                inputs.push(Input::of_plan(format!("fault 15: reverse local {label}"), &plan));
                made += 1;
            }
        }
    }
    inputs
}

fn double_faults(rng: &mut Prng, count: usize) -> Vec<Input> {
    let mut inputs = Vec::new();
    while inputs.len() < count {
        let shape = Shape { max_reads: rng.pick(&[1, 1, 2, 9]), max_name: 3, ..small_shape(rng) };
        let mut plan = generate(rng, shape);
        let numbers = [rng.pick(&BLOCK_NUMBERS), rng.pick(&BLOCK_NUMBERS[8..])];
        if numbers[0] != numbers[1] && spoil_all(&mut plan, &numbers, rng).len() == 2 {
            inputs.push(Input::of_plan(format!("faults {} {}", numbers[0], numbers[1]), &plan));
        }
    }
    inputs
}

fn damaged(rng: &mut Prng, count: usize) -> Vec<Input> {
    let mut inputs = Vec::new();
    for (mut input, _) in generated(rng, count) {
        damage(&mut input.bytes, rng);
        input.label = format!("damaged {}", inputs.len());
        inputs.push(input);
    }
    inputs
}

fn truncated(rng: &mut Prng, count: usize) -> Vec<Input> {
    let mut inputs = Vec::new();
    for (mut input, _) in generated(rng, count) {
        let cut = rng.below(input.bytes.len() as u64) as usize;
        input.bytes.truncate(cut);
        input.label = format!("truncated to {cut}");
        inputs.push(input);
    }
    inputs
}

pub fn sections_cases() -> Vec<Case> {
    let rng = &mut stream("sections");
    let mut inputs: Vec<Input> = SUMS.iter().take(2).map(row_input).collect();
    inputs.extend(header_edges());
    for (mut input, _) in generated(rng, 24) {
        if rng.coin() {
            input.bytes.extend([0xAA; 3]);
        }
        inputs.push(input);
    }
    inputs.extend(single_faults(rng, 2..=8, 4));
    inputs.extend(single_faults(rng, (9..=21).chain([40]), 1));
    inputs.extend(truncated(rng, 6));
    inputs.extend(damaged(rng, 6));
    inputs.iter().map(|input| input.case(CaseKind::Sections)).collect()
}

pub fn lengths_cases() -> Vec<Case> {
    let rng = &mut stream("lengths");
    let mut inputs: Vec<Input> =
        length_edges().iter().map(|(label, hand)| Input::by_hand(label, hand)).collect();
    let reference = generate_reference(rng, 0);
    let marks = [1, 2, 100, 255, 256, 257, 300, 32_767, 32_768, 32_769, 65_535, 65_536, 100_000];
    for index in 0..40 {
        let top = rng.range(1, marks.len() as u64) as usize;
        let run = rng.pick(&[1, 2, 4]);
        let mut lengths: Vec<u64> = Vec::new();
        for _ in 0..rng.range(1, 25) {
            let same = !lengths.is_empty() && !rng.once_in(run);
            let length = if same { lengths[lengths.len() - 1] } else { rng.pick(&marks[..top]) };
            lengths.push(length);
        }
        let shape = Shape { bases: 0, max_reads: 0, max_length: 0, max_carried: 2, max_name: 1 };
        let mut plan = generate_with_lengths(rng, shape, &reference, lengths);
        // Lengths need no DNA section.
        plan.groups.clear();
        if index % 4 == 3 {
            let number = rng.pick(&[9, 9, 9, 10]);
            spoil(&mut plan, number, rng);
        }
        inputs.push(Input::of_plan(format!("generated {index}"), &plan));
    }
    inputs.extend(single_faults(rng, 2..=10, 3));
    inputs.extend(single_faults(rng, [9], 12));
    inputs.extend(single_faults(rng, (11..=21).chain([40]), 1));
    inputs.extend(sizes_by_hand().iter().map(|(label, hand)| Input::by_hand(label, hand)));
    // The reference plays no part.
    for input in &mut inputs {
        input.bases = 0;
        input.reference.clear();
    }
    inputs.iter().map(|input| input.case(CaseKind::Lengths)).collect()
}

pub fn decode_cases() -> Vec<Case> {
    let rng = &mut stream("decode");
    let mut inputs: Vec<Input> = SUMS.iter().chain(EDGES).map(row_input).collect();
    inputs.extend(more_by_hand());
    inputs.extend(header_edges());
    inputs.extend(generated(rng, 60).into_iter().map(|(input, _)| input));
    inputs.extend(single_faults(rng, BLOCK_NUMBERS, 3));
    inputs.extend(double_faults(rng, 30));
    inputs.extend(damaged(rng, 30));
    inputs.extend(truncated(rng, 6));
    let mut cases: Vec<Case> = inputs
        .iter()
        .map(|input| {
            let letters = 2048 + rng.below(8) as usize;
            let names = 770 + rng.below(8) as usize;
            input.case(CaseKind::Decode).lending(letters, 24).lending_names(names, 20)
        })
        .collect();
    cases.extend(capacity_cases(rng));
    cases.extend(full_buffer_cases(rng));
    let by_hand = dna_by_hand().into_iter().chain([n_word_leaves()]);
    cases.extend(by_hand.map(|input| input.case(CaseKind::Decode).lending(16, 12)));
    cases.extend(decode_by_hand());
    let reverse = [reverse_by_hand(), reverse_refused_by_hand(), reverse_local_faults(rng, 2)];
    let lend = |input: Input| input.case(CaseKind::Decode).lending(40, 12);
    cases.extend(reverse.concat().into_iter().map(lend));
    let names = [stored_names_by_hand(), refused_names_by_hand()].concat().into_iter();
    let lend = |input: Input| input.case(CaseKind::Decode).lending(12, 12).lending_names(300, 12);
    cases.extend(names.map(lend));
    cases.extend(names_lent_by_hand());
    let lend = |input: Input| input.case(CaseKind::Decode).lending(200, 12);
    cases.extend(top_by_hand().into_iter().map(lend));
    cases.push(top_without_room());
    cases
}

/// Buffers that just fit, and one short in each.
pub fn capacity_cases(rng: &mut Prng) -> Vec<Case> {
    let mut cases = Vec::new();
    for (mut input, plan) in generated(rng, 8) {
        let expected = &plan.expected;
        let (letters, ends) = (expected.letters.len(), expected.ends.len());
        let (names, name_ends) = (expected.names.len(), expected.name_ends.len());
        let mut lend = |label: &str, letters, ends, names, name_ends| {
            input.label = label.to_string();
            let case = input.case(CaseKind::Decode).lending(letters, ends);
            cases.push(case.lending_names(names, name_ends));
        };
        lend("buffers just fit", letters, ends, names, name_ends);
        if ends > 0 {
            lend("letters one short", letters - 1, ends + 1, names + 1, name_ends);
            lend("ends one short", letters + 1, ends - 1, names, name_ends + 1);
        }
        if name_ends > 0 {
            lend("names one short", letters, ends + 1, names - 1, name_ends + 1);
            lend("name ends one short", letters + 1, ends, names + 1, name_ends - 1);
        }
    }
    cases
}

/// A read of 32,768 letters; 4,096 reads, and 4,097 that find no room; 32,768
/// bytes of names, and one more.
pub fn full_buffer_cases(rng: &mut Prng) -> Vec<Case> {
    let reference = generate_reference(rng, 32_768);
    let lend = |label: &str, hand: Hand, letters, ends| {
        Case::reading(CaseKind::Decode, label, reference.bases, &reference.bytes, &hand.bytes())
            .lending(letters, ends)
    };
    let long = [0x80, 0x00, 0x80, 0x80, 0, 0, 2, 0, 0, 0xFF, 0x7F];
    let raws = |reads: usize| -> Vec<u8> {
        let groups = vec![8; reads / 8].into_iter().chain((reads % 8 > 0).then_some(reads % 8));
        groups.flat_map(|count| [vec![0, 0, 0, 0], [2, 0x40].repeat(count)].concat()).collect()
    };
    let mut cases =
        vec![lend("32768 letters, reverse", Hand::same(32_768, 1, &long), MAX_LETTERS, 1)];
    let reference = generate_reference(rng, 4);
    for reads in [4096, 4097] {
        let input = Hand::same(1, reads, &raws(reads as usize)).bytes();
        let label = format!("{reads} reads");
        cases.push(
            Case::reading(CaseKind::Decode, &label, 4, &reference.bytes, &input)
                .lending(MAX_LETTERS, MAX_ENDS)
                .lending_names(MAX_NAME_BYTES, MAX_NAME_ENDS),
        );
    }
    for (label, hand) in full_names() {
        let case = Input::by_hand(label, &hand).case(CaseKind::Decode);
        cases.push(case.lending(256, 256).lending_names(MAX_NAME_BYTES, MAX_NAME_ENDS));
    }
    cases
}

pub fn validate_block_cases() -> Vec<Case> {
    let rng = &mut stream("validate_block");
    let mut inputs = flag_bytes();
    inputs.extend(generated(rng, 66).into_iter().map(|(input, _)| input));
    inputs.extend(single_faults(rng, BLOCK_NUMBERS, 3));
    inputs.extend(names_faults(rng));
    inputs.extend(double_faults(rng, 50));
    inputs.extend(record_pairs(rng, 2));
    inputs.extend(damaged(rng, 40));
    inputs.extend(truncated(rng, 6));
    inputs.extend(long_n_lists(rng));
    inputs.extend(header_by_hand());
    inputs.extend(stored_names_by_hand());
    inputs.extend(reverse_by_hand());
    inputs.extend(reverse_refused_by_hand());
    inputs.extend(reverse_local_faults(rng, 2));
    inputs.extend(top_by_hand());
    inputs.iter().map(|input| input.case(CaseKind::ValidateBlock)).collect()
}

pub fn validate_cases() -> Vec<Case> {
    let rng = &mut stream("validate");
    let mut cases = Vec::new();
    let case = |label: &str, reference: &ReferencePlan, file: &[u8]| {
        Case::reading(CaseKind::Validate, label, reference.bases, &reference.bytes, file)
    };
    let nothing = generate_reference(rng, 0);
    cases.push(case("empty file, empty reference", &nothing, &[]));
    cases.push(case("empty file", &generate_reference(rng, 5), &[]));
    for bases in [1, 4_294_967_296, u64::MAX] {
        let label = format!("empty file, {bases} bases in no bytes");
        cases.push(Case::reading(CaseKind::Validate, &label, bases, &[], &[]));
    }
    for index in 0..30 {
        let (reference, plans) = drawn_file(rng);
        cases.push(case(
            &format!("file {index}, {} blocks", plans.len()),
            &reference,
            &joined(&plans),
        ));
    }
    for index in 0..24 {
        let (reference, plans) = drawn_file(rng);
        let file = joined(&plans);
        let cut = rng.range(0, file.len() as u64) as usize;
        cases.push(case(&format!("file cut {index}"), &reference, &file[..cut]));
    }
    for number in BLOCK_NUMBERS {
        let mut made = 0;
        while made < 2 {
            let (mut reference, mut plans) = drawn_file(rng);
            let Some(last) = (plans.len() as u64).checked_sub(1) else { continue };
            let spoiled = rng.range(0, last) as usize;
            if spoil(&mut plans[spoiled], number, rng).is_none() {
                continue;
            }
            reference = if number == 1 { plans[spoiled].reference.clone() } else { reference };
            cases.push(case(
                &format!("fault {number} in block {spoiled}"),
                &reference,
                &joined(&plans),
            ));
            made += 1;
        }
    }
    for index in 0..24 {
        let (reference, plans) = drawn_file(rng);
        let mut file = joined(&plans);
        damage(&mut file, rng);
        cases.push(case(&format!("file damaged {index}"), &reference, &file));
    }
    let (reference, plans) = drawn_file(rng);
    let trailing = [joined(&plans), vec![0]].concat();
    cases.push(case("one byte after the last block", &reference, &trailing));
    cases.extend(files_by_hand());
    cases.extend(files_with_names());
    cases.extend(reverse_files_by_hand());
    cases.extend(top_files_by_hand());
    cases
}

fn drawn_file(rng: &mut Prng) -> (ReferencePlan, Vec<Plan>) {
    let max_name = rng.pick(&[1, 3, 6, 36]);
    let shape =
        Shape { max_reads: 9, max_length: 20, max_carried: 3, max_name, ..small_shape(rng) };
    let reference = generate_reference(rng, shape.bases);
    let count = rng.pick(&[0, 1, 2, 2, 3, 4]);
    let plans = (0..count).map(|_| generate_under(rng, shape, &reference)).collect();
    (reference, plans)
}

fn joined(plans: &[Plan]) -> Vec<u8> {
    plans.iter().flat_map(|plan| plan.block()).collect()
}

/// A read of 65,537 letters, turned, with entries and N lists in words; one
/// of 40,000 after a short one; a reverse local one on bases 65,535 to 0, by a
/// step from 0.
pub fn decode_large_cases() -> Vec<Case> {
    let rng = &mut stream("decode_large");
    let reference = generate_reference(rng, 65_537);
    let lend = |label: &str, hand: &Hand, letters, ends| {
        Case::reading(CaseKind::Decode, label, reference.bases, &reference.bytes, &hand.bytes())
            .lending(letters, ends)
    };
    let entries = [0x00, 0xFD, 0xFE, 0x07];
    let n_list = [2, 0x00, 0x80, 0x00, 0x00, 0x00, 0x80, 0x00, 0x00];
    let group = [0x00, 0x00, 0x80, 0x80];
    let dna = [&group[..], &[4 << 3 | 4, 0, 0], &entries, &n_list].concat();
    let turned = Hand::same(65_537, 1, &dna);

    let sizes = [0x00, 0x80, 3, 0x00, 0x80, 0x40, 0x1C];
    let dna = [0x40, 0x40, 0x40, 0x40, 2, 0x18, 0xC1, 0x63, 1, 0x00, 0x80, 0x3F, 0x1C];
    let two = Hand { dna: dna.to_vec(), n: vec![0x40], ..Hand::sized(2, 40_003, &sizes) };

    let sizes = [0x00, 0x80, 3, 0x00, 0x80, 0x00, 0x80, 0x01, 0x00];
    let dna = [0x80, 0x80, 0x00, 0xC0, 0, 0, 0, 0xFF, 0xFF, 1, 0, 0x40];
    let local = Hand { dna: dna.to_vec(), n: vec![0], ..Hand::sized(2, 65_540, &sizes) };
    vec![
        lend("65537 letters, reverse, N in words", &turned, 65_540, 2),
        lend("65537 letters, one too few lent", &turned, 65_536, 2),
        lend("3 and 40000 letters", &two, 40_003, 2),
        lend("3 and 65537 letters, reverse local", &local, 65_540, 2),
    ]
}
