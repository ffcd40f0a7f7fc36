//! Property: what the encoder writes decodes to the same letters, names and
//! ends, whatever the candidates. Catches: a count of 32 cut to 31, a filler
//! with a wrong letter, a place used past the reference's end, a place stored
//! otherwise than it is read, N lost or moved, wrong size codings, a leading
//! zero lost, a step cut to its width.

use second::corpus::Lent;
use second::generator::generate_reference;
use second::prng::Prng;
use second::proposals::{random_call, stepping_call, EncodeCall};
use second::*;

fn check(call: &EncodeCall) {
    let mut out = vec![0xEE; call.capacity];
    let written = call.run(&mut out);
    assert_eq!(written.number, 0);
    assert_eq!(written, Outcome { length: written.length, ..Outcome::default() });
    let block = &out[..written.length as usize];
    assert!(out[block.len()..].iter().all(|&byte| byte == 0xEE));

    let (letters, ends) = (call.letters.len(), call.ends.len());
    let mut lent = Lent::new(letters, ends, call.names.len(), ends);
    let read = lent.decode(call.bases, &call.reference, block);
    assert_eq!((read.number, read.length), (0, written.length));
    assert_eq!((read.reads, read.letters), (ends as u64, letters as u64));
    assert_eq!(lent.letters, call.letters);
    assert_eq!(lent.ends, call.ends);
    assert_eq!(lent.names, call.names);
    assert_eq!(lent.name_ends, call.name_ends);
    assert_eq!(block_id(block), call.b_id);
}

#[test]
fn random_and_adversarial_candidates() {
    let mut rng = Prng::new(21);
    for _ in 0..3000 {
        let bases = rng.pick(&[0, 1, 2, 12, 63, 64, 200, 700, 3000]);
        let reference = generate_reference(&mut rng, bases);
        let max_length = rng.pick(&[1, 5, 40, 300, 2500]);
        check(&random_call(&mut rng, &reference, 20, max_length));
    }
}

#[test]
fn long_reads() {
    let mut rng = Prng::new(22);
    let reference = generate_reference(&mut rng, 150_000);
    for _ in 0..40 {
        check(&random_call(&mut rng, &reference, 5, 100_000));
    }
}

/// Most reads are reverse and clipped; steps of about 0 and 65,535.
#[test]
fn reverse_local_reads() {
    let mut rng = Prng::new(24);
    for _ in 0..400 {
        let bases = rng.pick(&[1, 2, 12, 40, 66_000, 140_000]);
        let reference = generate_reference(&mut rng, bases);
        check(&stepping_call(&mut rng, &reference, 30));
    }
}

/// Steps of 65,535 and 65,536, and back.
#[test]
fn position_steps() {
    let mut rng = Prng::new(23);
    let reference = generate_reference(&mut rng, 200_000);
    let positions = [65_536u32, 131_071, 131_071, 196_607, 0, 65_535, 131_071, 131_070, 196_606];
    let read = |position: u32| second::proposals::Proposal {
        letters: reference.letters[position as usize..position as usize + 10].to_vec(),
        position,
        strand: 1,
        left: 0,
        right: 0,
    };
    let proposals: Vec<_> = positions.iter().map(|&position| read(position)).collect();
    let call = EncodeCall::new(&reference, &proposals, 1, 2);
    check(&call);
    let mut out = vec![0; call.capacity];
    call.run(&mut out);
    let dna = section(&out, 0);
    // Steps: 65,536 too far; 65,535; 0; 65,536 too far; back; 65,535; 65,536
    // too far; back. Then group 2: 65,536 too far.
    assert_eq!(dna[..4], [0xFF, 0xFF, 0x00, 0b0110_0100]);
    assert_eq!(dna[4 + 5 * 4 + 3 * 2..][..4], [0x80, 0x80, 0x00, 0x00]);
}
