//! Property: the read lengths come back from every coding that holds them,
//! and damage to the size section earns 9 or 10 or other lengths, never a
//! wrong sum. Catches: length 256 in one byte, a same bit that looks only
//! inside its group, a word of 32768 taken as the last.

mod common;
use common::Hand;
use second::generator::*;
use second::prng::Prng;
use second::*;

#[test]
fn every_coding_gives_the_lengths() {
    let mut rng = Prng::new(71);
    let reference = generate_reference(&mut rng, 0);
    let shape = Shape { bases: 0, max_reads: 1, max_length: 100_000, max_carried: 2, max_name: 9 };
    let marks = [1, 5, 255, 256, 300, 32_767, 32_768, 32_769, 65_535, 65_536, 98_304, 100_000];
    for _ in 0..60 {
        let lengths: Vec<u64> = (0..rng.range(1, 20)).map(|_| rng.pick(&marks)).collect();
        let plan = generate_with_lengths(&mut rng, shape, &reference, lengths.clone());
        let read = second::lengths(&plan.block()).unwrap();
        assert_eq!(read.iter().map(|&length| length as u64).collect::<Vec<_>>(), lengths);
    }
}

#[test]
fn same_reaches_back_over_groups() {
    // Eight reads: 7, then seven the same; the next group begins with same.
    let sizes = [0x7F, 0x80, 7, 0xC0, 0x20, 9];
    let block = Hand::sized(11, 10 * 7 + 9, &sizes).bytes();
    assert_eq!(lengths(&block), Ok([[7; 10].as_slice(), &[9]].concat()));
}

#[test]
fn longer_codings_are_accepted() {
    // 5 stored twice, the second in words: no same bit, no byte-size bit.
    let block = Hand::sized(2, 10, &[0x00, 0x80, 5, 5, 0]).bytes();
    assert_eq!(lengths(&block), Ok(vec![5, 5]));
}

#[test]
fn damage_never_gives_a_wrong_sum() {
    let mut rng = Prng::new(72);
    for _ in 0..20_000 {
        let count = rng.range(0, 12) as usize;
        let mut sizes = rng.bytes(count);
        for byte in &mut sizes {
            if rng.coin() {
                *byte = rng.pick(&[0, 0x80, 0xC0, 0x40, 1, 5]);
            }
        }
        let raw_dna = rng.pick(&[5, 10, 128, 256, 32_768]);
        let block = Hand::sized(rng.range(0, 9) as i32, raw_dna, &sizes).bytes();
        match lengths(&block) {
            Ok(lengths) => {
                assert_eq!(lengths.iter().sum::<u32>(), raw_dna);
                assert!(lengths.iter().all(|&length| (1..=100_000).contains(&length)));
            }
            Err(refusal) => {
                assert!(refusal.number == 9 || refusal.number == 10);
                assert_eq!((refusal.block, refusal.read), (0, 0));
            }
        }
    }
}
