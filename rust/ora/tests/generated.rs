//! Property: on generated, spoiled and damaged blocks the wrapper's types hold what the second
//! implementation answers. Catches: a count in another field, a boundary that is not the header's,
//! a grown buffer that is too short.

use ora::*;
use second::generator::{
    generate_reference, generate_saturated, generate_under, Plan, ReferencePlan, Shape,
};
use second::header::Header;
use second::mutators::{damage, spoil};
use second::prng::Prng;
use second::proposals::{random_call, spoil_call, stepping_call, EncodeCall};

const SHAPE: Shape =
    Shape { bases: 150, max_reads: 20, max_length: 60, max_carried: 5, max_name: 60 };

/// A block under a reference; in some most records have 30 or 31 entries.
fn generate(rng: &mut Prng, reference: &ReferencePlan) -> Plan {
    match rng.below(4) {
        0 => generate_saturated(rng, SHAPE, reference),
        _ => generate_under(rng, SHAPE, reference),
    }
}

fn refusal_of(outcome: second::Outcome) -> Refusal {
    Refusal { number: outcome.number as u64, block: outcome.block, read: outcome.read }
}

fn counts_of(counts: Counts) -> [u64; 5] {
    [counts.reads, counts.letters, counts.entries, counts.differences, counts.top]
}

fn counts_in(outcome: second::Outcome) -> [u64; 5] {
    [outcome.reads, outcome.letters, outcome.entries, outcome.differences, outcome.top]
}

/// Sound, spoiled or damaged blocks with bytes after them, and what each is.
fn check_block(decoded: &mut Decoded, reference: &Reference, input: &[u8]) {
    let (bases, bytes) = (reference.bases(), reference.bytes());
    let (mut letters, mut ends) = (vec![0; 4000], vec![0; 40]);
    let (mut names, mut name_ends) = (vec![0; 6000], vec![0; 40]);
    let outcome =
        second::decode(bases, bytes, input, &mut letters, &mut ends, &mut names, &mut name_ends);
    let (mut own_letters, mut own_ends) = (vec![0; 4000], vec![0; 40]);
    let (mut own_names, mut own_name_ends) = (vec![0; 6000], vec![0; 40]);
    let buffers = Buffers {
        letters: &mut own_letters,
        ends: &mut own_ends,
        names: &mut own_names,
        name_ends: &mut own_name_ends,
    };
    let into = decode_into(reference, input, buffers);
    let judged = validate_block(reference, input);
    assert_eq!((&own_letters, &own_ends), (&letters, &ends));
    assert_eq!((&own_names, &own_name_ends), (&names, &name_ends));
    assert_eq!(into, judged);
    if outcome.number != 0 {
        assert_eq!(judged, Err(refusal_of(outcome)));
        assert_eq!(decode(reference, input).unwrap_err(), refusal_of(outcome));
        assert_eq!(decoded.decode(reference, input), Err(refusal_of(outcome)));
        return;
    }
    let summary = judged.unwrap();
    assert_eq!(
        (summary.length as u64, counts_of(summary.counts)),
        (outcome.length, counts_in(outcome))
    );
    assert_eq!(decoded.decode(reference, input), Ok(summary));
    for decoded in [&*decoded, &decode(reference, input).unwrap()] {
        assert_eq!(decoded.summary(), summary);
        assert_eq!(decoded.letters(), &letters[..outcome.letters as usize]);
        assert_eq!(decoded.ends(), &ends[..outcome.reads as usize]);
        let reads: Vec<&[u8]> = decoded.iter().collect();
        assert_eq!(reads.concat(), decoded.letters());
        assert!((0..reads.len()).all(|index| decoded.read(index) == Some(reads[index])));
        assert_eq!(decoded.names().is_some(), has_names(input));
        let Some(stored) = decoded.names() else { continue };
        assert_eq!(stored.ends(), &name_ends[..outcome.reads as usize]);
        assert!(names.starts_with(stored.bytes()) && stored.len() == decoded.len());
        let each: Vec<&[u8]> = stored.iter().collect();
        assert_eq!(each.concat(), stored.bytes());
        assert!((0..each.len()).all(|index| stored.get(index) == Some(each[index])));
    }
    let unnamed = without_names(input);
    assert!(!has_names(&unnamed));
    let without = decode(reference, &unnamed).unwrap();
    assert_eq!(without.summary().length, unnamed.len());
    assert_eq!(without.summary().counts, summary.counts);
    assert_eq!((without.letters(), without.ends()), (decoded.letters(), decoded.ends()));
    assert_eq!(without.names(), None);
}

fn check_boundary(input: &[u8]) {
    match Header::read(input) {
        Ok(header) => {
            assert_eq!(block_length(input), Ok(header.block_length() as usize));
            assert_eq!(block_id(input), header.b_id);
            assert_eq!(has_names(input), header.names_stored());
            for of in Section::ALL {
                assert_eq!(section(input, of), header.section(input, of.number()));
            }
        }
        Err(refusal) => {
            let Refusal { number, block, read } = block_length(input).unwrap_err();
            assert_eq!((number, block, read), (refusal.number as u64, 0, 0));
            assert_eq!(block_id(input), 0);
            assert!(!has_names(input) && without_names(input) == input);
            assert!(Section::ALL.iter().all(|&of| section_span(input, of) == (0..0)));
        }
    }
}

#[test]
fn blocks_one_by_one() {
    let mut rng = Prng::new(1);
    let (mut decoded, mut with_top) = (Decoded::new(), 0);
    for _ in 0..20_000 {
        let packed = generate_reference(&mut rng, SHAPE.bases);
        let mut plan = generate(&mut rng, &packed);
        let number = rng.range(2, 40) as u32;
        spoil(&mut plan, number, &mut rng);
        let mut input = plan.block();
        if rng.once_in(4) {
            damage(&mut input, &mut rng);
        }
        if rng.coin() {
            input.extend([0xAA; 3]);
        }
        let reference = Reference::new(plan.reference.bases, &plan.reference.bytes).unwrap();
        check_block(&mut decoded, &reference, &input);
        check_boundary(&input);
        let judged = validate_block(&reference, &input);
        with_top += judged.is_ok_and(|summary| summary.counts.top > 0) as u32;
    }
    assert!(with_top > 1_000);
}

#[test]
fn files() {
    let (mut rng, mut with_top) = (Prng::new(2), 0);
    for _ in 0..5_000 {
        let packed = generate_reference(&mut rng, SHAPE.bases);
        let reference = Reference::new(packed.bases, &packed.bytes).unwrap();
        let mut file = Vec::new();
        let mut offsets = Vec::new();
        for _ in 0..rng.below(4) {
            offsets.push(file.len());
            file.extend(generate(&mut rng, &packed).block());
        }
        let found: Vec<usize> = blocks(&file).map(|block| block.unwrap().offset).collect();
        assert_eq!(found, offsets);
        if rng.coin() {
            damage(&mut file, &mut rng);
        }
        let outcome = second::validate(packed.bases, &packed.bytes, &file);
        match validate(&reference, &file) {
            Ok(summary) => {
                assert_eq!(summary.blocks, outcome.blocks);
                assert_eq!(counts_of(summary.counts), counts_in(outcome));
                let sum = (blocks(&file))
                    .map(|block| block.unwrap().validate(&reference).unwrap().counts)
                    .fold(Counts::default(), Counts::wrapping_add);
                assert_eq!(sum, summary.counts);
                with_top += (sum.top > 0) as u32;
            }
            Err(refusal) => {
                assert_eq!(refusal, refusal_of(outcome));
                // The walk over headers gets as far as the refused block.
                let walked = blocks(&file).nth(refusal.block as usize).unwrap();
                let judged = walked.and_then(|block| block.validate(&reference));
                assert_eq!(judged, Err(refusal));
            }
        }
    }
    assert!(with_top > 500);
}

/// Both write the same, and it reads back.
fn check_call(call: &EncodeCall) {
    let reference = Reference::new(call.bases, &call.reference).unwrap();
    let columns = Columns {
        letters: &call.letters,
        ends: &call.ends,
        names: &call.names,
        name_ends: &call.name_ends,
        positions: &call.positions,
        strands: &call.strands,
        lefts: &call.lefts,
        rights: &call.rights,
    };
    let (mut out, mut own) = (vec![0xEE; call.enough()], vec![0xEE; call.enough()]);
    let outcome = call.run(&mut out);
    let answer = encode_into(&reference, &columns, call.b_id, call.c_time, &mut own);
    assert_eq!(own, out);
    let length = match answer {
        Ok(length) => length,
        Err(refusal) => return assert_eq!(refusal, refusal_of(outcome)),
    };
    assert_eq!(length as u64, outcome.length);
    assert!(length <= columns.room());
    let decoded = decode(&reference, &own).unwrap();
    assert_eq!((decoded.letters(), decoded.ends()), (&call.letters[..], &call.ends[..]));
    let names = decoded.names().unwrap();
    assert_eq!((names.bytes(), names.ends()), (&call.names[..], &call.name_ends[..]));
}

#[test]
fn written_blocks() {
    let mut rng = Prng::new(3);
    for _ in 0..5_000 {
        let bases = rng.pick(&[0, 1, 64, 300, 2000]);
        let packed = generate_reference(&mut rng, bases);
        let mut call = random_call(&mut rng, &packed, 12, 300);
        if rng.once_in(3) {
            let number = rng.pick(&[31, 32, 33, 41]);
            spoil_call(&mut call, number, 0, &mut rng);
        }
        check_call(&call);
    }
}

/// Most reads are reverse and clipped, and their steps around 0 and 65,535.
#[test]
fn written_steps() {
    let mut rng = Prng::new(4);
    let long = generate_reference(&mut rng, 140_000);
    for _ in 0..1_000 {
        check_call(&stepping_call(&mut rng, &long, 20));
        let bases = rng.pick(&[1, 2, 12, 64]);
        let short = generate_reference(&mut rng, bases);
        check_call(&stepping_call(&mut rng, &short, 20));
    }
}
