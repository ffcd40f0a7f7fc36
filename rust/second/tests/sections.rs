//! Property: a section is the very part of the block that holds it, and empty
//! on a header refusal. Catches: sections in another order, a longer header
//! not skipped, a section handed out of a refused header.

use second::generator::*;
use second::mutators::{spoil, BLOCK_NUMBERS};
use second::prng::Prng;
use second::*;

const SHAPE: Shape =
    Shape { bases: 60, max_reads: 10, max_length: 30, max_carried: 9, max_name: 20 };

#[test]
fn all_nine_lie_one_after_the_other() {
    let mut rng = Prng::new(61);
    for _ in 0..500 {
        let plan = generate(&mut rng, SHAPE);
        let mut block = plan.block();
        let length = block.len();
        block.extend([0xAA; 5]);
        let mut offset = plan.l_header as u64;
        for (number, bytes) in plan.sections().iter().enumerate() {
            let part = section(&block, number as u64);
            assert_eq!(part, bytes);
            let span = section_span(&block, number as u64);
            if bytes.is_empty() {
                assert_eq!(span, (0, 0));
            } else {
                assert_eq!(span, (offset, bytes.len() as u64));
                // The very part: the same memory, not a copy.
                assert!(std::ptr::eq(part.as_ptr(), block[offset as usize..].as_ptr()));
            }
            offset += bytes.len() as u64;
        }
        assert_eq!(offset as usize, length);
        assert_eq!(block_id(&block), plan.b_id);
        for number in [9, 10, 256, 1 << 32, u64::MAX] {
            assert_eq!(section(&block, number), []);
            assert_eq!(section_span(&block, number), (0, 0));
        }
    }
}

#[test]
fn empty_exactly_on_header_refusals() {
    let mut rng = Prng::new(62);
    for _ in 0..2000 {
        let mut plan = generate(&mut rng, SHAPE);
        let number = rng.pick(&BLOCK_NUMBERS[1..]);
        if spoil(&mut plan, number, &mut rng).is_none() {
            continue;
        }
        let block = plan.block();
        for wanted in 0..10 {
            let part = section(&block, wanted);
            if number <= 8 || wanted == 9 {
                assert_eq!(part, []);
            } else {
                assert_eq!(part, plan.sections()[wanted as usize]);
            }
        }
        assert_eq!(block_id(&block), if number <= 8 { 0 } else { plan.b_id });
    }
}
