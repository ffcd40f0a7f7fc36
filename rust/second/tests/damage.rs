//! Property: whatever the bytes, no call fails otherwise than by a refusal,
//! and the calls agree with each other. Catches: arithmetic that overflows,
//! an index out of bounds, a validator laxer than the decoder.

use second::corpus::Lent;
use second::generator::*;
use second::mutators::damage;
use second::prng::Prng;
use second::*;

fn check(bases: u64, reference: &[u8], input: &[u8]) -> Outcome {
    let mut lent = Lent::new(4000, 64, 800, 64);
    let read = lent.decode(bases, reference, input);
    let Lent { letters, ends, names, name_ends } = lent;
    let judged = validate_block(bases, reference, input);
    if read.number == 22 {
        assert_eq!(judged.number, 0);
    } else {
        assert_eq!(read, judged);
    }
    if read.number == 0 {
        let count = read.letters as usize;
        assert!(letters[..count].iter().all(|letter| b"ACGTN".contains(letter)));
        let starts = std::iter::once(&0).chain(ends.iter());
        let differences: Vec<u32> =
            starts.zip(&ends).map(|(start, end)| end.wrapping_sub(*start)).collect();
        assert_eq!(differences[..read.reads as usize], lengths(input).unwrap());
        assert!(read.differences <= read.entries);
        assert!(read.top <= read.reads && 31 * read.top <= read.entries);
        check_names(input, &names, &name_ends[..read.reads as usize]);
    } else {
        assert!((1..=22).contains(&read.number) || read.number == 40);
        let bare = Outcome { number: read.number, read: read.read, ..Outcome::default() };
        assert_eq!(read, bare);
    }
    // A file of one block and no more.
    let file = validate(bases, reference, &input[..(judged.length as usize).min(input.len())]);
    if judged.number == 0 {
        assert_eq!(file, Outcome { blocks: 1, length: 0, ..judged });
    }
    judged
}

/// Names are printable; unread ones leave their buffers.
fn check_names(input: &[u8], names: &[u8], name_ends: &[u32]) {
    let stored = input[42] & 8 != 0;
    let mut start = 0;
    for &end in name_ends.iter().filter(|_| stored) {
        let name = &names[start as usize..end as usize];
        assert!((1..=255).contains(&name.len()));
        assert!(name.iter().all(|byte| (32..=126).contains(byte)));
        start = end;
    }
    assert!(names[start as usize..].iter().all(|&byte| byte == 0xEE));
    assert!(stored || name_ends.iter().all(|&end| end == 0xEEEE_EEEE));
}

#[test]
fn damaged_blocks() {
    let mut rng = Prng::new(81);
    let mut met = [0; 41];
    for _ in 0..20_000 {
        let shape = Shape {
            bases: rng.pick(&[0, 12, 100, 300]),
            max_reads: rng.pick(&[1, 3, 20]),
            max_length: rng.pick(&[4, 40, 300]),
            max_carried: 2,
            max_name: rng.pick(&[4, 12, 40]),
        };
        let plan = generate(&mut rng, shape);
        let mut block = plan.block();
        damage(&mut block, &mut rng);
        met[check(plan.reference.bases, &plan.reference.bytes, &block).number as usize] += 1;
    }
    assert!(met[0] > 100 && met[8..=20].iter().all(|&count| count > 5), "{met:?}");
    assert!(met[40] > 1000, "{met:?}");
}

#[test]
fn truncated_blocks() {
    let mut rng = Prng::new(82);
    let shape = Shape { bases: 100, max_reads: 9, max_length: 40, max_carried: 2, max_name: 40 };
    for _ in 0..100 {
        let plan = generate(&mut rng, shape);
        let block = plan.block();
        for cut in 0..block.len() {
            let judged = check(plan.reference.bases, &plan.reference.bytes, &block[..cut]);
            assert_eq!(judged.number, if cut < 121 { 2 } else { 8 });
        }
    }
}

/// 50,000 reads: accepted, and the counts are right.
#[test]
fn the_most_reads() {
    let mut rng = Prng::new(83);
    let reference = generate_reference(&mut rng, 100);
    let shape = Shape { bases: 100, max_reads: 1, max_length: 3, max_carried: 0, max_name: 40 };
    let lengths: Vec<u64> = (0..50_000).map(|_| rng.range(1, 3)).collect();
    let plan = generate_with_lengths(&mut rng, shape, &reference, lengths);
    let outcome = validate_block(100, &reference.bytes, &plan.block());
    assert_eq!((outcome.number, outcome.reads), (0, 50_000));
    assert_eq!(outcome.entries, plan.expected.entries);
    assert_eq!(outcome.differences, plan.expected.differences);
    assert_eq!(outcome.top, plan.expected.top);
}
