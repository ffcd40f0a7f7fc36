//! Property: the listing program's text for 01's example block of 132 bytes,
//! and its refusals. Catches: a block line in another form, a refusal that is
//! not the last line, a short reference file taken as an empty one, a block
//! read past the window, names printed.

mod common;
use common::*;
use second::listing::*;

fn reference_file() -> Vec<u8> {
    [&BASES.to_le_bytes()[..], &REFERENCE].concat()
}

/// "version 20505, b_id 7, flags 1, l_read 4, raw DNA size 4, the fifth row
/// as its DNA body (10 bytes) and N body 00, 132 bytes in all".
fn example() -> Vec<u8> {
    let dna = [0x00, 0x80, 0x00, 0x00, 0x0C, 0x00, 0x00, 0x00, 0x00, 0x0B];
    let block = Hand::same(4, 1, &dna, &[0x00]).bytes();
    assert_eq!(block.len(), 132);
    block
}

const LINES: &str = "block 7 reads 1 letters 4 entries 1 differences 1 top 0\nACTT\n";

#[test]
fn the_example_prints_whole() {
    assert_eq!(listing(&reference_file(), &example()), format!("{LINES}end blocks 1\n"));
}

#[test]
fn the_empty_file() {
    assert_eq!(listing(&reference_file(), &[]), "end blocks 0\n");
}

#[test]
fn a_refusal_is_the_last_line() {
    let mut bad = example();
    bad[121 + 9] = 0x13; // offset 4 lands outside the 4 aligned letters
    let file = [example(), bad].concat();
    assert_eq!(listing(&reference_file(), &file), format!("{LINES}refused 17 1 0\n"));
}

#[test]
fn a_short_reference_file_gets_1() {
    assert_eq!(listing(&[0; 7], &example()), "refused 1 0 0\n");
    assert_eq!(listing(&[12, 0, 0, 0, 0, 0, 0, 0, 0x1B], &[]), "refused 1 0 0\n");
    assert_eq!(listing(&[0; 8], &[]), "end blocks 0\n");
}

#[test]
fn a_large_reference_file_gets_1() {
    let of_bytes = |bytes: usize| [&(bytes as u64 * 4).to_le_bytes()[..], &vec![0; bytes]].concat();
    assert_eq!(listing(&of_bytes(MAX_REFERENCE_FILE - 8), &[]), "end blocks 0\n");
    assert_eq!(listing(&of_bytes(MAX_REFERENCE_FILE - 7), &[]), "refused 1 0 0\n");
}

/// The example with so many bytes in all: the last section has the rest.
fn filled_up(length: usize) -> Vec<u8> {
    let mut block = example();
    let m3 = (length - block.len()) as u32;
    block[38..42].copy_from_slice(&m3.to_le_bytes());
    block.resize(length, 0);
    block
}

#[test]
fn a_block_past_the_window_gets_8() {
    let file = [filled_up(WINDOW), example()].concat();
    assert_eq!(listing(&reference_file(), &file), format!("{LINES}{LINES}end blocks 2\n"));
    let file = [example(), filled_up(WINDOW + 1)].concat();
    assert_eq!(listing(&reference_file(), &file), format!("{LINES}refused 8 1 0\n"));
    // An earlier number comes first.
    let mut file = filled_up(WINDOW + 1);
    file[50..54].copy_from_slice(&(-1i32).to_le_bytes());
    assert_eq!(listing(&reference_file(), &file), "refused 7 0 0\n");
}

#[test]
fn more_than_is_lent_gets_22() {
    let raw = |length: usize, reads: usize| {
        let record = [&[2][..], &vec![0; (length + 3) / 4]].concat();
        let mut dna = Vec::new();
        for read in 0..reads {
            if read % 8 == 0 {
                dna.extend([0; 4]);
            }
            dna.extend(&record);
        }
        Hand::same(length as i32, reads as i32, &dna, &vec![0; (reads + 7) / 8]).bytes()
    };
    let printed = |block: &[u8]| listing(&reference_file(), block);
    assert!(printed(&raw(LETTERS_LENT, 1)).ends_with("end blocks 1\n"));
    assert!(printed(&raw(1, ENDS_LENT)).ends_with("end blocks 1\n"));
    assert_eq!(printed(&raw(LETTERS_LENT + 1, 1)), "refused 22 0 0\n");
    assert_eq!(printed(&raw(1, ENDS_LENT + 1)), "refused 22 0 0\n");
}

/// The example with these names, 121 + 10 bytes before them.
fn named(names: &[u8]) -> Vec<u8> {
    let mut block = example();
    block[10..14].copy_from_slice(&(names.len() as u32).to_le_bytes());
    block[42] |= 8;
    block.splice(131..131, names.iter().copied());
    block
}

/// 02, Ticket 1: it "prints no names"; 40 is printed as any refusal.
#[test]
fn names_are_not_printed() {
    let name = [&[1, 0, 0, 0, 0, 2, 0, 0, 0, 0, 0, 0, 0][..], b"n\0"].concat();
    let file = [named(&name), named(&name[..14])].concat();
    assert_eq!(listing(&reference_file(), &file), format!("{LINES}refused 40 1 0\n"));
}

/// 02, Ticket 1: it "lends 32,768 name bytes and 4,096 name ends". 128 names
/// of 255 bytes, and one of 128, or of 129.
#[test]
fn more_names_than_are_lent_get_22() {
    assert_eq!((NAME_BYTES_LENT, NAME_ENDS_LENT), (32_768, 4_096));
    let block = |last: usize| {
        let dna = [vec![0; 4], [2, 0].repeat(8)].concat().repeat(16);
        let dna = [dna, vec![0, 0, 0, 0, 2, 0]].concat();
        // A number of 18 digits, others, a number of 18 digits.
        let number = [&999_999_999_999_999_999_u64.to_le_bytes()[..], &[0; 128]].concat();
        let others =
            [[vec![b'x'; 219], vec![0]].concat().repeat(128), vec![b'x'; last - 36], vec![0]];
        let sets = [&number, &others.concat(), &number].map(|set| set.to_vec());
        let sizes = [0, 1, 2].map(|column| (sets[column].len() as u64).to_le_bytes()).concat();
        let mut hand = Hand::same(1, 129, &dna, &[0; 17]);
        hand.flags |= 8;
        hand.names = [&[3, 0, 0, 0, 4, 0, 4][..], &sizes, &sets.concat()].concat();
        hand.bytes()
    };
    assert!(block(129).len() <= WINDOW);
    assert!(listing(&reference_file(), &block(128)).ends_with("end blocks 1\n"));
    assert_eq!(listing(&reference_file(), &block(129)), "refused 22 0 0\n");
}
