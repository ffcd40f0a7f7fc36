//! Property: of two faults in a block, the one that 01 puts first is told,
//! with its read index. Catches: checks done in another order, a check left
//! out, a reverse local stretch judged one base off, a read index taken from
//! the group or counted from 1.

use second::generator::{generate, Plan, Shape};
use second::mutators::*;
use second::prng::Prng;
use second::*;

fn told(plan: &Plan) -> (u32, u64) {
    let reference = &plan.reference;
    let outcome = validate_block(reference.bases, &reference.bytes, &plan.block());
    let bare = Outcome { number: outcome.number, read: outcome.read, ..Outcome::default() };
    assert_eq!(outcome, bare, "every count in a refusal is 0");
    (outcome.number, outcome.read)
}

fn shape(rng: &mut Prng) -> Shape {
    Shape {
        bases: rng.pick(&[3, 12, 65, 200, 700]),
        max_reads: rng.pick(&[1, 2, 3, 9, 20]),
        max_length: rng.pick(&[3, 40, 300]),
        max_carried: 3,
        max_name: rng.pick(&[1, 4, 20, 60, 255]),
    }
}

fn check(plan: &Plan, faults: &[Fault], what: &str) {
    let expected = first(faults);
    assert_eq!(told(plan), (expected.number, expected.read), "{what} {faults:?} {plan:?}");
}

#[test]
fn single_faults() {
    let mut rng = Prng::new(11);
    let mut met = [0; 41];
    for _ in 0..6000 {
        let shape = shape(&mut rng);
        let mut plan = generate(&mut rng, shape);
        let number = rng.pick(&BLOCK_NUMBERS);
        if let Some(fault) = spoil(&mut plan, number, &mut rng) {
            check(&plan, &[fault], "single");
            met[number as usize] += 1;
        }
    }
    assert!(BLOCK_NUMBERS.iter().all(|&number| met[number as usize] > 40), "{met:?}");
}

#[test]
fn double_faults() {
    let mut rng = Prng::new(12);
    let mut met = vec![0; 41 * 41];
    for _ in 0..40_000 {
        let shape = shape(&mut rng);
        let mut plan = generate(&mut rng, shape);
        let numbers = [rng.pick(&BLOCK_NUMBERS), rng.pick(&BLOCK_NUMBERS)];
        if numbers[0] == numbers[1] {
            continue;
        }
        let faults = spoil_all(&mut plan, &numbers, &mut rng);
        if faults.len() == 2 {
            check(&plan, &faults, "double");
            met[numbers[0] as usize * 41 + numbers[1] as usize] += 1;
        }
    }
    // 12 and 21 exclude each other; every other pair is met.
    for low in BLOCK_NUMBERS.map(|number| number as usize) {
        for high in BLOCK_NUMBERS.map(|number| number as usize) {
            let count = met[low * 41 + high] + met[high * 41 + low];
            assert!(count > 0 || low >= high || (low, high) == (12, 21), "{low} {high}");
        }
    }
}

/// Two faults in one record: "13, 16, 15, 17, 18, 19; then the list".
#[test]
fn double_faults_in_one_record() {
    let mut rng = Prng::new(13);
    let mut met = std::collections::BTreeSet::new();
    for _ in 0..40_000 {
        let shape = shape(&mut rng);
        let mut plan = generate(&mut rng, shape);
        if plan.lengths.is_empty() {
            continue;
        }
        let read = rng.below(plan.lengths.len() as u64) as usize;
        let numbers = [rng.range(13, 20) as u32, rng.range(13, 20) as u32];
        if numbers[0] == numbers[1] {
            continue;
        }
        let faults: Vec<Fault> = numbers
            .iter()
            .filter_map(|&number| spoil_record(&mut plan, read, number, &mut rng))
            .collect();
        if faults.len() == 2 {
            check(&plan, &faults, "one record");
            met.insert((numbers[0].min(numbers[1]), numbers[0].max(numbers[1])));
        }
    }
    let all = [
        (13, 14),
        (13, 18),
        (13, 19),
        (13, 20),
        (14, 15),
        (14, 16),
        (14, 17),
        (14, 18),
        (14, 19),
        (14, 20),
        (15, 16),
        (15, 17),
        (15, 19),
        (15, 20),
        (16, 17),
        (16, 19),
        (16, 20),
        (17, 19),
        (17, 20),
        (18, 19),
        (18, 20),
        (19, 20),
    ];
    assert_eq!(met.into_iter().collect::<Vec<_>>(), all);
}

#[test]
fn three_faults() {
    let mut rng = Prng::new(14);
    for _ in 0..10_000 {
        let shape = shape(&mut rng);
        let mut plan = generate(&mut rng, shape);
        let mut numbers: Vec<u32> = (0..3).map(|_| rng.pick(&BLOCK_NUMBERS[8..])).collect();
        numbers.sort();
        numbers.dedup();
        let faults = spoil_all(&mut plan, &numbers, &mut rng);
        if !faults.is_empty() {
            check(&plan, &faults, "three");
        }
    }
}

/// A block with a reverse local read, and its index; the last, where it must
/// be.
fn with_reverse_local(rng: &mut Prng, last: bool) -> (Plan, usize) {
    loop {
        let shape = shape(rng);
        let plan = generate(rng, shape);
        let reads = plan.lengths.len() as u64;
        let Some(end) = reads.checked_sub(1) else { continue };
        let read = if last { end } else { rng.below(reads) } as usize;
        if plan.is_reverse_local(read) {
            return (plan, read);
        }
    }
}

/// 02, Ticket 2: each way out of the reference gives 15 at the read, in either
/// width of the position, and after 16, but before 17, 19 and 20.
#[test]
fn faults_of_a_reverse_local_stretch() {
    let mut rng = Prng::new(15);
    for &(label, fault) in REVERSE_LOCAL_FAULTS {
        let mut widths = [0; 5];
        let mut beside = [0; 21];
        for _ in 0..2000 {
            let (mut plan, read) = with_reverse_local(&mut rng, false);
            let Some(outside) = spoil_reverse_local(&mut plan, read, fault, &mut rng) else {
                continue;
            };
            assert_eq!((outside.number, outside.read), (SPAN_OUTSIDE_REFERENCE, read as u64));
            check(&plan, &[outside], label);
            widths[plan.groups[read / 8].records[read % 8].position.len()] += 1;
            let number = rng.pick(&[14, 16, 17, 19, 20]);
            if let Some(other) = spoil_record(&mut plan, read, number, &mut rng) {
                check(&plan, &[outside, other], label);
                beside[number as usize] += 1;
            }
        }
        assert!(widths[2] > 50 && widths[4] > 50, "{label} {widths:?}");
        let all = [14, 16, 17, 19, 20].map(|number| beside[number]);
        assert!(all.iter().all(|&count| count > 20), "{label} {all:?}");
    }
}

/// One base further in, the block is accepted: from the first base up, and
/// from the last base down.
#[test]
fn a_reverse_local_stretch_that_just_fits() {
    let mut rng = Prng::new(16);
    for _ in 0..1000 {
        let (mut plan, read) = with_reverse_local(&mut rng, true);
        let bases = plan.reference.bases;
        let group = &mut plan.groups[read / 8];
        group.bytes[3] &= !(0x80 >> (read % 8));
        let record = &mut group.records[read % 8];
        let positions = [record.span - 1, bases - 1];
        record.position = (rng.pick(&positions) as u32).to_le_bytes().to_vec();
        let outcome = validate_block(bases, &plan.reference.bytes, &plan.block());
        assert_eq!(outcome.number, 0);
    }
}
