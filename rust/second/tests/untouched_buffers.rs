//! Property: a refused call leaves every lent buffer as it was, and an
//! accepted one leaves what lies past its letters, names, ends or bytes.
//! Catches: letters written group by group before a later group is refused, or
//! before the names are.

use second::corpus::Lent;
use second::generator::*;
use second::mutators::{damage, spoil, BLOCK_NUMBERS};
use second::prng::Prng;
use second::proposals::{random_call, spoil_call, told_first, CALL_NUMBERS};
use second::*;

const SHAPE: Shape =
    Shape { bases: 100, max_reads: 20, max_length: 40, max_carried: 2, max_name: 40 };

#[test]
fn refused_decode() {
    let mut rng = Prng::new(51);
    let mut refused = 0;
    for _ in 0..4000 {
        let mut plan = generate(&mut rng, SHAPE);
        let number = rng.pick(&BLOCK_NUMBERS);
        let spoiled = spoil(&mut plan, number, &mut rng).is_some();
        let mut block = plan.block();
        if !spoiled {
            damage(&mut block, &mut rng);
        }
        let mut lent = Lent::new(1000, 30, 1000, 30);
        let before = lent.clone();
        let reference = &plan.reference;
        let outcome = lent.decode(reference.bases, &reference.bytes, &block);
        if outcome.number != 0 {
            refused += 1;
            assert!(lent == before);
        }
    }
    assert!(refused > 2000);
}

#[test]
fn refused_for_capacity() {
    let mut rng = Prng::new(52);
    for _ in 0..500 {
        let plan = generate(&mut rng, SHAPE);
        let expected = &plan.expected;
        let needed = [
            expected.letters.len(),
            expected.ends.len(),
            expected.names.len(),
            expected.name_ends.len(),
        ];
        // Each of the four one short, the others just enough or more.
        for short in 0..4 {
            let mut given = needed.map(|count| count + rng.below(2) as usize);
            let Some(less) = needed[short].checked_sub(1) else { continue };
            given[short] = less;
            let mut lent = Lent::new(given[0], given[1], given[2], given[3]);
            let before = lent.clone();
            let reference = &plan.reference;
            let outcome = lent.decode(reference.bases, &reference.bytes, &plan.block());
            assert_eq!(outcome, Outcome { number: 22, ..Outcome::default() });
            assert!(lent == before);
        }
    }
}

#[test]
fn refused_encode() {
    let mut rng = Prng::new(53);
    for _ in 0..2000 {
        let reference = generate_reference(&mut rng, 100);
        let mut call = random_call(&mut rng, &reference, 10, 60);
        let length = call.run(&mut vec![0; call.capacity]).length as usize;
        let numbers = [rng.pick(&CALL_NUMBERS), rng.pick(&CALL_NUMBERS[2..])];
        // Two of a number may undo each other, or leave no place.
        if numbers[0] == numbers[1] {
            continue;
        }
        let spoiled = numbers.map(|number| spoil_call(&mut call, number, length, &mut rng));
        if spoiled != [true, true] {
            continue;
        }
        let mut out = vec![0xEE; call.capacity];
        let outcome = call.run(&mut out);
        let number = told_first(&numbers);
        assert_eq!(outcome, Outcome { number, ..Outcome::default() }, "{numbers:?}");
        assert!(out.iter().all(|&byte| byte == 0xEE));
    }
}

#[test]
fn accepted_calls_leave_the_rest() {
    let mut rng = Prng::new(54);
    for _ in 0..500 {
        let reference = generate_reference(&mut rng, 100);
        let call = random_call(&mut rng, &reference, 10, 60);
        let length = call.run(&mut vec![0; call.capacity]).length as usize;
        let mut out = vec![0xEE; length + 7];
        assert_eq!(call.run(&mut out).length as usize, length);
        assert_eq!(out[length..], [0xEE; 7]);
        let (letters, ends, names) = (call.letters.len(), call.ends.len(), call.names.len());
        let mut lent = Lent::new(letters + 2, ends + 2, names + 2, ends + 2);
        assert_eq!(lent.decode(call.bases, &call.reference, &out).number, 0);
        assert_eq!(lent.letters[letters..], [0xEE; 2]);
        assert_eq!(lent.ends[ends..], [0xEEEE_EEEE; 2]);
        assert_eq!(lent.names[names..], [0xEE; 2]);
        assert_eq!(lent.name_ends[ends..], [0xEEEE_EEEE; 2]);
    }
}
