//! Property: names survive a block, at the edges of what a column can hold, and a block without
//! them is the same block but for them. Catches: an end one off, room that is too small for names,
//! a section that is cut at another place, a flag that is left.

use ora::*;
use second::generator::{generate, Shape};
use second::header::Header;
use second::prng::Prng;

fn reference() -> Reference<'static> {
    Reference::new(0, &[]).unwrap()
}

fn block_of(names: &[&str]) -> Result<Vec<u8>, Refusal> {
    let mut reads = Reads::new();
    names.iter().for_each(|name| reads.push(name.as_bytes(), b"A", Candidate::NONE));
    encode(&reference(), &reads, 7, 0)
}

/// The types of the columns that a block stores its names in.
fn types(block: &[u8]) -> Vec<u8> {
    let section = section(block, Section::Names);
    let count = u32::from_le_bytes(section[..4].try_into().unwrap()) as usize;
    section[4..4 + count].to_vec()
}

const STRINGS: u8 = 0;
const STEPS_16: u8 = 3;
const STEPS_8: u8 = 4;
const STEPS_32: u8 = 5;

#[test]
fn columns_at_their_edges() {
    for (names, kinds) in [
        (&["0"][..], &[STEPS_8][..]),
        (&["~"], &[STRINGS]),
        (&["7", "7", "7"], &[STEPS_8]),
        (&["1", "256"], &[STEPS_8]),
        (&["1", "257"], &[STEPS_16]),
        (&["1", "65536"], &[STEPS_16]),
        (&["1", "65537"], &[STEPS_32]),
        (&["1", "4294967296"], &[STEPS_32]),
        (&["1", "4294967297"], &[STRINGS]),
        (&["2", "1"], &[STRINGS]),
        (&["007", "008"], &[STRINGS]),
        (&["0", "00"], &[STRINGS]),
        (&["999999999999999998", "999999999999999999"], &[STEPS_8]),
        (&["999999999999999999", "1000000000000000000"], &[STRINGS]),
        (&["a", "1"], &[STRINGS]),
        (&["a1", "2b"], &[STRINGS, STRINGS]),
        (&["a 1:2", "a 1:9"], &[STRINGS, STEPS_8, STRINGS, STEPS_8]),
    ] {
        let block = block_of(names).unwrap();
        assert_eq!(types(&block), kinds, "{names:?}");
        let decoded = decode(&reference(), &block).unwrap();
        let read: Vec<&[u8]> = decoded.names().unwrap().iter().collect();
        assert_eq!(read, names.iter().map(|name| name.as_bytes()).collect::<Vec<_>>());
    }
}

#[test]
fn names_that_are_refused() {
    let long = "x".repeat(MAX_NAME_LENGTH);
    assert!(block_of(&[&long]).is_ok());
    for names in [
        &[""][..],
        &["a", ""],
        &["a\t"],
        &["\x1F"],
        &["\x7F"],
        &["é"],
        &["a", "a1"],
        &["a1b", "a1"],
        &[&(long.clone() + "x")],
    ] {
        assert_eq!(block_of(names).unwrap_err().kind(), Some(RefusalKind::LentNamesInvalid));
    }
}

/// Names whose section is as long as it can be: 255 tokens in each, steps of 32 bits that one step
/// alone asks for, strings of one byte.
#[test]
fn room_is_enough_for_any_names() {
    let many_tokens = |read: usize| "a7".repeat(127) + ["a", "b"][read % 2];
    let far = |reads: usize, read: usize| if read + 1 < reads { 0 } else { 65_536 };
    for reads in [1, 2, 3, 100, 1_000] {
        let styles: [&dyn Fn(usize) -> String; 5] = [
            &|_| "0".to_string(),
            &|_| "a".to_string(),
            &|read| far(reads, read).to_string(),
            &|read| format!("{0}a{0}b{0}c{0}", far(reads, read)),
            &many_tokens,
        ];
        for style in styles {
            let mut all = Reads::new();
            let names: Vec<String> = (0..reads).map(style).collect();
            names.iter().for_each(|name| all.push(name.as_bytes(), b"A", Candidate::NONE));
            let block = encode(&reference(), &all, 0, 0).unwrap();
            // What the bound has for names alone.
            let room = 4 + 13 * 255 + 4 * all.columns().names.len();
            assert!(section(&block, Section::Names).len() <= room);
            let decoded = decode(&reference(), &block).unwrap();
            let read = decoded.names().unwrap();
            assert!(read.iter().eq(names.iter().map(|name| name.as_bytes())));
        }
    }
}

/// What is used again has names where its block has them, and grows where it must.
#[test]
fn decoded_again() {
    let (few, many) = (block_of(&["a1"]).unwrap(), block_of(&["run 7:1", "run 7:200"]).unwrap());
    let unnamed = without_names(&many);
    let mut decoded = Decoded::new();
    assert_eq!(decoded.names(), None);
    for _ in 0..2 {
        for (block, names) in
            [(&unnamed, None), (&few, Some(&b"a1"[..])), (&many, Some(b"run 7:1"))]
        {
            decoded.decode(&reference(), block).unwrap();
            assert_eq!(decoded.names().and_then(|names| names.get(0)), names);
        }
        let mut wrong = few.clone();
        *wrong.last_mut().unwrap() = 1;
        assert!(decoded.decode(&reference(), &wrong).is_err());
        assert_eq!(decoded.names().unwrap().bytes(), b"run 7:1run 7:200");
    }
}

/// Names that are not read are left where they are and ask for no room.
#[test]
fn names_without_the_flag() {
    let mut block = block_of(&["a1", "a2"]).unwrap();
    block[42] &= !0x8;
    assert!(!has_names(&block));
    let (mut letters, mut ends) = ([0; 2], [0; 2]);
    let buffers = Buffers { letters: &mut letters, ends: &mut ends, ..Buffers::default() };
    decode_into(&reference(), &block, buffers).unwrap();
    assert_eq!((&letters, ends), (b"AA", [1, 2]));
    assert_eq!(decode(&reference(), &block).unwrap().names(), None);
    assert_eq!(without_names(&block), without_names(&block_of(&["a1", "a2"]).unwrap()));
}

/// Only flags 0x4 and 0x8, l_names and the names section differ, whatever stands around them.
#[test]
fn blocks_without_names() {
    let shape = Shape { bases: 40, max_reads: 20, max_length: 20, max_carried: 9, max_name: 40 };
    let mut rng = Prng::new(4);
    let mut with_more = 0;
    for _ in 0..2_000 {
        let plan = generate(&mut rng, shape);
        let block = plan.block();
        let unnamed = without_names(&[&block[..], &[0xAA; 3]].concat());
        let (header, other) = (Header::read(&block).ok().unwrap(), Header::read(&unnamed));
        let other = other.ok().unwrap();
        assert_eq!(unnamed.len() as u64, other.block_length());
        let mut expected = block[..header.header_length as usize].to_vec();
        expected[10..14].fill(0);
        expected[42] = expected[42] & !0x8 | 0x4;
        for of in Section::ALL.into_iter().filter(|&of| of != Section::Names) {
            expected.extend(section(&block, of));
        }
        assert!(unnamed == expected);
        with_more += (!section(&block, Section::Names).is_empty()
            && !section(&block, Section::Qual).is_empty()) as u32;

        let reference = Reference::new(plan.reference.bases, &plan.reference.bytes).unwrap();
        let (named, plain) = (decode(&reference, &block), decode(&reference, &unnamed));
        let (named, plain) = (named.unwrap(), plain.unwrap());
        assert_eq!(validate_block(&reference, &unnamed).unwrap(), plain.summary());
        assert_eq!(plain.summary().counts, named.summary().counts);
        assert_eq!((plain.letters(), plain.ends()), (named.letters(), named.ends()));
        assert_eq!(plain.names(), None);
        assert_eq!(without_names(&unnamed), unnamed);
    }
    assert!(with_more > 500);
}
