//! Property: names of any style read back as they were, from any coding that
//! holds them; every fault of names earns its number. Catches: a style or a
//! fault that no generated block has, a coding that loses a token.

mod common;
use common::Hand;
use second::corpus::Lent;
use second::generator::*;
use second::name_faults::{GIVEN_FAULTS, SECTION_FAULTS};
use second::name_plans::{draw_rows, joined, NamesPlan};
use second::names::{is_name, split};
use second::prng::Prng;
use second::proposals::random_call;
use second::*;

fn shape(rng: &mut Prng, max_reads: u64) -> Shape {
    let max_name = rng.pick(&[1, 3, 12, 40, 60, 255]);
    Shape { bases: 12, max_reads, max_length: 4, max_carried: 20, max_name }
}

/// Tokens that joined are the name, none empty, each all digits or all others,
/// neighbours unlike.
#[test]
fn the_split_of_a_name() {
    let text = |name: &str| -> Vec<String> {
        let tokens = split(name.as_bytes());
        tokens.iter().map(|token| String::from_utf8(token.to_vec()).unwrap()).collect()
    };
    assert_eq!(text("A00123:45:HXY"), ["A", "00123", ":", "45", ":HXY"]);
    assert_eq!(text("7"), ["7"]);
    assert_eq!(text("-1"), ["-", "1"]);
    assert_eq!(text("1.5e3"), ["1", ".", "5", "e", "3"]);
    assert_eq!(text("/09:"), ["/", "09", ":"]);
    let mut rng = Prng::new(91);
    for _ in 0..2000 {
        let count = rng.range(1, 12) as usize;
        let name: Vec<u8> = (0..count).map(|_| rng.range(45, 60) as u8).collect();
        let tokens = split(&name);
        assert_eq!(tokens.concat(), name);
        let digits = |token: &[u8]| token.iter().all(|byte| byte.is_ascii_digit());
        let others = |token: &[u8]| !token.iter().any(|byte| byte.is_ascii_digit());
        assert!(tokens.iter().all(|token| !token.is_empty()));
        assert!(tokens.iter().all(|token| digits(token) || others(token)));
        assert!(tokens.windows(2).all(|pair| digits(pair[0]) != digits(pair[1])));
    }
}

/// The rows that the generator draws are the splits of their names.
#[test]
fn drawn_rows_are_splits() {
    let mut rng = Prng::new(92);
    let (mut longest, mut most_tokens, mut turned) = (0, 0, 0);
    for _ in 0..3000 {
        let max_name = rng.pick(&[1, 2, 12, 40, 255]);
        let reads = rng.range(1, 9) as usize;
        let rows = draw_rows(&mut rng, reads, max_name);
        for row in &rows {
            let name = row.concat();
            assert!(is_name(&name) && name.len() as u64 <= max_name);
            assert_eq!(&split(&name), row);
            assert_eq!(row.len(), rows[0].len());
            longest = longest.max(name.len());
            most_tokens = most_tokens.max(row.len());
            turned += (row[0][0].is_ascii_digit() != rows[0][0][0].is_ascii_digit()) as u32;
        }
    }
    assert_eq!((longest, most_tokens), (255, 255));
    assert!(turned > 200, "{turned}");
}

/// Every type, columns wider than need be, digits as strings, and blocks
/// without flag 0x8 are all generated.
#[test]
fn every_coding_is_met() {
    let mut rng = Prng::new(93);
    let (mut types, mut wider, mut digits, mut unread, mut other_flags) = ([0; 6], 0, 0, 0, 0);
    for _ in 0..3000 {
        let shape = shape(&mut rng, 9);
        let plan = generate(&mut rng, shape);
        let Some(names) = &plan.names else {
            unread += 1;
            continue;
        };
        other_flags += (plan.flags & 0x14 == 0x14) as u32;
        for column in &names.columns {
            types[column.kind as usize] += 1;
            let all_digits = column.tokens.iter().all(|token| token[0].is_ascii_digit());
            digits += (column.kind == 0 && all_digits) as u32;
            let steps = &column.set[column.set.len().min(8)..];
            wider += (column.kind == 5 && steps.chunks(4).all(|step| step[1..] == [0; 3])) as u32;
        }
    }
    assert!([0, 3, 4, 5].iter().all(|&kind| types[kind] > 200), "{types:?}");
    assert!(wider > 50 && digits > 200 && unread > 300 && other_flags > 300);
}

/// Raw reads A with drawn names; the rest of the block is plain.
fn named(reads: usize, flags: u32, names: &[u8]) -> Vec<u8> {
    let mut dna = Vec::new();
    for read in 0..reads {
        dna.extend(if read % 8 == 0 { vec![0; 4] } else { vec![] });
        dna.extend([2, 0]);
    }
    let mut hand = Hand::same(1, reads as i32, &dna, &vec![0; (reads + 7) / 8]);
    hand.flags |= flags;
    hand.names = names.to_vec();
    hand.bytes()
}

/// Other codings of the same rows give the same names.
#[test]
fn any_coding_reads_back() {
    let mut rng = Prng::new(94);
    for _ in 0..2000 {
        let reads = rng.range(0, 20) as usize;
        let rows = draw_rows(&mut rng, reads, 60);
        let (names, ends) = joined(&rows);
        for _ in 0..3 {
            let block = named(reads, 8, &NamesPlan::drawn(&mut rng, &rows).section());
            let mut lent = Lent::new(reads, reads, names.len(), reads);
            assert_eq!(lent.decode(12, &[0; 3], &block).number, 0);
            assert_eq!((&lent.names, &lent.name_ends), (&names, &ends));
        }
    }
}

/// 50,000 names of 255 bytes have room in numbers of 32 bits.
#[test]
fn the_most_names() {
    let reads = 50_000;
    let sets = [[vec![b'x'; 254], vec![0]].concat().repeat(reads), b"7\0".repeat(reads)].concat();
    let sizes = [255 * reads as u64, 2 * reads as u64].map(|size| size.to_le_bytes()).concat();
    let section = [&[2, 0, 0, 0, 0, 0][..], &sizes, &sets].concat();
    let mut lent = Lent::new(reads, reads, 255 * reads, reads);
    assert_eq!(lent.decode(12, &[0; 3], &named(reads, 8, &section)).number, 0);
    assert_eq!(lent.name_ends[reads - 1], 12_750_000);
    assert_eq!(lent.names[255 * reads - 2..], *b"x7");
    let mut lent = Lent::new(reads, reads, 255 * reads - 1, reads);
    assert_eq!(lent.decode(12, &[0; 3], &named(reads, 8, &section)).number, 22);
}

/// Each way to spoil a names section is met, and earns 40.
#[test]
fn every_fault_of_a_section() {
    let mut rng = Prng::new(95);
    for (label, fault) in SECTION_FAULTS {
        let mut met = 0;
        for _ in 0..4000 {
            let shape = shape(&mut rng, 5);
            let mut plan = generate(&mut rng, shape);
            let reads = plan.lengths.len();
            let Some(names) = plan.names.as_mut().filter(|_| reads > 0) else { continue };
            if fault(names, &mut rng).is_none() {
                continue;
            }
            let reference = &plan.reference;
            let judged = validate_block(reference.bases, &reference.bytes, &plan.block());
            assert_eq!(judged, Outcome { number: 40, ..Outcome::default() }, "{label} {plan:?}");
            met += 1;
            if met == 100 {
                break;
            }
        }
        assert_eq!(met, 100, "{label}");
    }
}

/// Each way to spoil the names given is met, and earns 41.
#[test]
fn every_fault_of_given_names() {
    let mut rng = Prng::new(96);
    for (label, fault) in GIVEN_FAULTS {
        let mut met = 0;
        for _ in 0..1000 {
            let reference = generate_reference(&mut rng, 12);
            let mut call = random_call(&mut rng, &reference, 5, 4);
            if fault(&mut call, &mut rng).is_none() {
                continue;
            }
            let outcome = call.run(&mut vec![0; call.enough()]);
            assert_eq!(outcome, Outcome { number: 41, ..Outcome::default() }, "{label} {call:?}");
            met += 1;
        }
        assert!(met > 100, "{label} {met}");
    }
}

/// Without 0x8 the section is not judged: whatever it holds, nothing is given.
#[test]
fn unread_names_are_not_judged() {
    let mut rng = Prng::new(97);
    for _ in 0..2000 {
        let reads = rng.range(0, 9) as usize;
        let names = match rng.below(3) {
            0 => rng.bytes(30),
            1 => Vec::new(),
            _ => {
                let rows = draw_rows(&mut rng, reads, 40);
                NamesPlan::drawn(&mut rng, &rows).section()
            }
        };
        let flags = rng.pick(&[0, 0x4, 0x10, 0x14]);
        let mut lent = Lent::new(reads, reads, 0, 0);
        assert_eq!(lent.decode(12, &[0; 3], &named(reads, flags, &names)).number, 0);
        let mut lent = Lent::new(reads, reads, 50, 50);
        let before = lent.clone();
        assert_eq!(lent.decode(12, &[0; 3], &named(reads, flags, &names)).number, 0);
        assert_eq!((lent.names, lent.name_ends), (before.names, before.name_ends));
    }
}

/// Bytes of a names section changed at random: 40, or other names that are the
/// rows of the section's columns.
#[test]
fn damaged_sections() {
    let mut rng = Prng::new(98);
    let mut met = [0; 2];
    for _ in 0..20_000 {
        let reads = rng.range(1, 4) as usize;
        let rows = draw_rows(&mut rng, reads, 12);
        let mut section = NamesPlan::drawn(&mut rng, &rows).section();
        let place = rng.below(section.len() as u64) as usize;
        section[place] = rng.pick(&[0, 1, 4, 5, b'0', b'7', b'a', 0x7F, section[place] ^ 1]);
        let mut lent = Lent::new(reads, reads, 1000, reads);
        let outcome = lent.decode(12, &[0; 3], &named(reads, 8, &section));
        assert!([0, 40].contains(&outcome.number));
        met[(outcome.number == 0) as usize] += 1;
        let mut start = 0;
        for &end in lent.name_ends.iter().filter(|_| outcome.number == 0) {
            assert!(is_name(&lent.names[start as usize..end as usize]));
            start = end;
        }
    }
    assert!(met.iter().all(|&count| count > 1000), "{met:?}");
}
