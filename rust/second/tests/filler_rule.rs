//! Property: in every record that the encoder writes, as the reader finds it
//! again, each difference comes right after exactly the fillers that 02, Ticket
//! 3, gives its gap, and nothing comes after the last difference. Catches: a
//! filler too many before a difference, fillers at smaller steps than 63, a
//! filler after the last difference or in a record without one, a filler for an
//! N, a filler under an N that is not what the reference gives there, a place
//! used that takes 32 entries.

use second::blocks::read_block;
use second::generator::generate_reference;
use second::letters::{LETTERS, N_CODE};
use second::prng::Prng;
use second::proposals::{random_call, random_proposal, stepping_call, EncodeCall, Proposal};
use second::records::{Kind, Record};
use second::reference::{Reference, Strand};

/// "for a gap of d, at least 1, (d+62)/63 rounded down, less 1", "none where
/// the gap is 0".
fn fillers(gap: u64) -> u64 {
    if gap == 0 {
        0
    } else {
        (gap + 62) / 63 - 1
    }
}

/// A difference that was found: how its read lies, whether it is the record's
/// first, its gap, and whether a filler of that gap stands under an N.
struct Met {
    strand: Strand,
    clipped: bool,
    first: bool,
    gap: u64,
    hidden: bool,
}

/// The records of the block that a call makes.
fn written(call: &EncodeCall, reference: &Reference) -> Vec<Record> {
    let mut out = vec![0; call.capacity];
    let outcome = call.run(&mut out);
    assert_eq!(outcome.number, 0);
    let block = read_block(reference, &out[..outcome.length as usize]).unwrap();
    assert_eq!(block.records.len(), call.ends.len());
    block.records
}

/// Holds a record's entries against the rule; answers its differences.
fn check_record(record: &Record, reference: &Reference) -> Vec<Met> {
    let Some(place) = record.placement() else { return Vec::new() };
    let (lowest, span) = record.stretch().unwrap();
    let given = reference.stretch(lowest, span, place.strand);
    let mut met: Vec<Met> = Vec::new();
    // The difference before, or the first aligned letter; the fillers since.
    let (mut from, mut run, mut hidden) = (0, 0, false);
    for entry in record.entries() {
        let under_n = record.n_positions.contains(&(place.left + entry.place));
        if entry.code == given[entry.place as usize] {
            run += 1;
            hidden |= under_n;
            continue;
        }
        assert!(!under_n, "neither filler nor difference at {}", entry.place);
        let gap = entry.place - from;
        assert_eq!(run, fillers(gap), "fillers of a gap of {gap} before {}", entry.place);
        let clipped = place.left + place.right > 0;
        met.push(Met { strand: place.strand, clipped, first: met.is_empty(), gap, hidden });
        (from, run, hidden) = (entry.place, 0, false);
    }
    assert_eq!(run, 0, "fillers after the last difference");
    assert_eq!(met.len() as u64, record.differences(reference));
    met
}

fn check(call: &EncodeCall) -> Vec<Met> {
    let reference = Reference::new(call.bases, &call.reference).unwrap();
    let records = written(call, &reference);
    records.iter().flat_map(|record| check_record(record, &reference)).collect()
}

/// Every class of gap, from the first aligned letter and from a difference, and
/// fillers under an N, are met on both strands, with and without clipped ends.
#[test]
fn random_calls() {
    let mut rng = Prng::new(101);
    let mut met: Vec<Met> = Vec::new();
    for _ in 0..2000 {
        let bases = rng.pick(&[0, 12, 64, 200, 700, 3000]);
        let reference = generate_reference(&mut rng, bases);
        let max_length = rng.pick(&[5, 40, 300, 2500]);
        met.extend(check(&random_call(&mut rng, &reference, 20, max_length)));
        // Reads that are long enough for several gaps.
        let reference = generate_reference(&mut rng, 3000);
        let lengths: Vec<u64> = (0..20).map(|_| rng.range(100, 1000)).collect();
        let proposal = |&length: &u64| random_proposal(&mut rng, &reference, length);
        let proposals: Vec<Proposal> = lengths.iter().map(proposal).collect();
        met.extend(check(&EncodeCall::new(&reference, &proposals, 1, 2)));
    }
    for strand in [Strand::Forward, Strand::Reverse] {
        for clipped in [false, true] {
            let alike = |met: &&Met| met.strand == strand && met.clipped == clipped;
            let times = |which: &dyn Fn(&Met) -> bool| {
                met.iter().filter(alike).filter(|met| which(met)).count()
            };
            // A later difference has a gap of 1 at least.
            let first = [0..=0, 1..=63, 64..=126, 127..=u64::MAX]
                .map(|class| times(&|met| met.first && class.contains(&met.gap)));
            let later = [1..=63, 64..=126, 127..=u64::MAX]
                .map(|class| times(&|met| !met.first && class.contains(&met.gap)));
            let edges = [63, 64, 126, 127].map(|gap| times(&|met| met.gap == gap));
            let hidden = times(&|met| met.hidden);
            let counts = [&first[..], &later, &edges, &[hidden]].concat();
            assert!(counts.iter().all(|&count| count > 50), "{strand:?} {clipped} {counts:?}");
        }
    }
}

/// Reads as the reference gives them, most of them reverse and clipped, have no
/// entry.
#[test]
fn reads_without_differences() {
    let mut rng = Prng::new(102);
    for _ in 0..100 {
        let bases = rng.pick(&[1, 12, 40, 66_000]);
        let plan = generate_reference(&mut rng, bases);
        let reference = Reference::new(plan.bases, &plan.bytes).unwrap();
        for record in written(&stepping_call(&mut rng, &plan, 30), &reference) {
            assert!(record.placement().is_some() && record.entries().is_empty());
        }
    }
}

/// A lone difference at every place from 0 to 1954 takes the rule's fillers and
/// one entry, also with an N at every step of 63 before it. 01: "A lone
/// difference at 64 takes 2 entries, at 127 three, at 1953 thirty-one; at 1954
/// the read goes raw."
#[test]
fn lone_differences() {
    assert_eq!([64, 127, 1953, 1954].map(|place| fillers(place) + 1), [2, 3, 31, 32]);
    let plan = generate_reference(&mut Prng::new(103), 2500);
    let reference = Reference::new(plan.bases, &plan.bytes).unwrap();
    for strand in [Strand::Forward, Strand::Reverse] {
        for clips in [[0, 0], [5, 0], [0, 70], [90, 1]] {
            for with_n in [false, true] {
                let read = |place| lone_difference(&reference, strand, clips, place, with_n);
                let reads: Vec<Proposal> = (0..=1954).map(read).collect();
                let records = written(&EncodeCall::new(&plan, &reads, 1, 2), &reference);
                for (place, record) in (0..1954).zip(&records) {
                    let entries = record.entries().len() as u64;
                    assert_eq!(entries, fillers(place) + 1, "at {place}");
                    let met = check_record(record, &reference);
                    assert_eq!((met.len(), met[0].gap), (1, place));
                    assert_eq!(met[0].hidden, with_n && place > 63);
                }
                assert!(matches!(records[1954].kind, Kind::Raw(_)));
            }
        }
    }
}

/// A read of 2000 aligned letters with one difference.
fn lone_difference(
    reference: &Reference,
    strand: Strand,
    [left, right]: [u8; 2],
    place: usize,
    with_n: bool,
) -> Proposal {
    let mut aligned = reference.stretch(300, 2000, strand);
    aligned[place] = (aligned[place] + 1) % 4;
    if with_n {
        (63..place).step_by(63).for_each(|step| aligned[step] = N_CODE);
    }
    let codes = [vec![0; left as usize], aligned, vec![0; right as usize]].concat();
    let letters = codes.iter().map(|&code| LETTERS[code as usize]).collect();
    let strand = if strand == Strand::Forward { 1 } else { 2 };
    Proposal { letters, position: 300, strand, left, right }
}
