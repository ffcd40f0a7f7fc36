//! Property: each number is given at the edge where 01 puts it, and not one
//! step before. Catches: a bound off by one, a rule left out, a wrong number.

mod common;
use common::*;
use second::corpus::Lent;
use second::proposals::EncodeCall;
use second::*;

/// Row five of 01's sums: one global read, ACTT.
fn good() -> Vec<u8> {
    Hand::same(4, 1, &[0, 0x80, 0, 0, 0x0C, 0, 0, 0, 0, 0x0B], &[0]).bytes()
}

fn with(at: usize, bytes: &[u8]) -> Vec<u8> {
    let mut block = good();
    block[at..at + bytes.len()].copy_from_slice(bytes);
    block
}

/// One read of `length` letters with this DNA section.
fn one(length: i32, dna: &[u8]) -> (u32, u64) {
    let n = if dna.len() > 2 { dna[2] } else { 0 };
    told(&Hand::same(length, 1, dna, &[n]).bytes())
}

#[test]
fn accepts_the_good_block() {
    assert_eq!(told(&good()), (0, 0));
}

#[test]
fn refuses_1_reference_of_another_size() {
    let number = |bases, reference: &[u8]| validate_block(bases, reference, &good()).number;
    assert_eq!(number(12, &[0x1B, 0x1B]), 1);
    assert_eq!(number(12, &[0x1B, 0x1B, 0xE4, 0]), 1);
    assert_eq!(number(13, &REFERENCE), 1);
    assert_eq!(number(8, &REFERENCE), 1);
    assert_eq!(number(0, &[0]), 1);
    assert_eq!(number(11, &REFERENCE), 0);
    assert_eq!(number(9, &REFERENCE), 0);
}

#[test]
fn refuses_1_too_many_bases() {
    assert_eq!(validate(4_294_967_296, &[], &[]).number, 1);
    assert_eq!(validate(u64::MAX, &[], &[]).number, 1);
    assert_eq!(validate(u64::MAX - 2, &[], &[]).number, 1);
    assert_eq!(validate(0, &[], &[]).number, 0);
}

#[test]
fn refuses_2_fewer_than_121_bytes() {
    assert_eq!(told(&good()[..120]), (2, 0));
    assert_eq!(told(&[]), (2, 0));
    assert_eq!(told(&good()[..121]), (8, 0));
}

#[test]
fn refuses_3_magic() {
    assert_eq!(told(&with(0, &[0x7C, 0x49])), (3, 0));
    assert_eq!(told(&with(1, &[0x7D])), (3, 0));
}

#[test]
fn refuses_4_version() {
    for (version, number) in [(20504u16, 4), (20505, 0), (29999, 0), (30000, 4), (0, 4), (65535, 4)]
    {
        assert_eq!(told(&with(54, &version.to_le_bytes())).0, number, "{version}");
    }
}

#[test]
fn refuses_5_header_length() {
    for l_header in [120, 0, -1, i32::MIN] {
        assert_eq!(told(&with(2, &l_header.to_le_bytes())), (5, 0));
    }
    assert_eq!(told(&with(2, &i32::MAX.to_le_bytes())), (8, 0));
}

#[test]
fn refuses_6_fallback_and_encryption() {
    assert_eq!(told(&with(42, &[0x41])), (6, 0));
    assert_eq!(told(&with(42, &[0x81])), (6, 0));
    assert_eq!(told(&with(42, &[0x37, 0xFF, 0xFF, 0xFF])), (0, 0));
}

#[test]
fn refuses_7_read_count() {
    for n_reads in [-1, i32::MIN, 50_001, i32::MAX] {
        assert_eq!(told(&with(50, &n_reads.to_le_bytes())), (7, 0));
    }
    // 50,000 reads of 4 letters are not the 4 letters told.
    assert_eq!(told(&with(50, &50_000i32.to_le_bytes())), (10, 0));
}

#[test]
fn refuses_8_sections_past_the_input() {
    let block = good();
    assert_eq!(told(&block[..131]), (8, 0));
    assert_eq!(told(&[block, vec![0xFF]].concat()), (0, 0));
    for section in 0..9 {
        assert_eq!(told(&with(6 + 4 * section, &[0xFF; 4])), (8, 0));
    }
    // All nine lengths at their most: the sum does not wrap.
    assert_eq!(told(&with(6, &[0xFF; 36])), (8, 0));
}

#[test]
fn refuses_9_read_length_of_all() {
    for l_read in [0, -1, i32::MIN, 100_001, i32::MAX] {
        assert_eq!(told(&with(46, &l_read.to_le_bytes())), (9, 0));
    }
    assert_eq!(told(&with(46, &100_000i32.to_le_bytes())), (10, 0));
}

#[test]
fn refuses_9_size_section_with_flag_1() {
    let mut hand = Hand::same(4, 1, &[0, 0x80, 0, 0, 0x0C, 0, 0, 0, 0, 0x0B], &[0]);
    hand.sizes = vec![0x00, 0x80, 0x04];
    assert_eq!(told(&hand.bytes()), (9, 0));
    hand.flags = 0;
    assert_eq!(told(&hand.bytes()), (0, 0));
    // Also without reads.
    let mut empty = Hand::same(-5, 0, &[], &[]);
    assert_eq!(
        {
            empty.raw_dna = 0;
            told(&empty.bytes())
        },
        (0, 0)
    );
    empty.sizes = vec![0];
    assert_eq!(told(&empty.bytes()), (9, 0));
}

#[test]
fn refuses_9_size_section() {
    let number = |reads, raw_dna, sizes: &[u8]| {
        lengths(&Hand::sized(reads, raw_dna, sizes).bytes()).map_err(|r| r.number)
    };
    assert_eq!(number(2, 10, &[0x40, 0x80, 5]), Ok(vec![5, 5]));
    // Both bits, same on the first read, a bit past the last read.
    assert_eq!(number(2, 10, &[0x40, 0xC0, 5]), Err(9));
    assert_eq!(number(2, 10, &[0x80, 0x40, 5]), Err(9));
    assert_eq!(number(2, 10, &[0x60, 0x80, 5]), Err(9));
    assert_eq!(number(2, 10, &[0x40, 0xA0, 5]), Err(9));
    // Length 0 in either coding; a word above 32768; above 100,000.
    assert_eq!(number(1, 0, &[0, 0x80, 0]), Err(9));
    assert_eq!(number(1, 0, &[0, 0, 0, 0]), Err(9));
    assert_eq!(number(1, 32_769, &[0, 0, 0x01, 0x80]), Err(9));
    let three = [0, 0, 0, 0x80, 0, 0x80, 0, 0x80];
    assert_eq!(number(1, 100_000, &[&three[..], &[0xA0, 0x06]].concat()), Ok(vec![100_000]));
    assert_eq!(number(1, 100_001, &[&three[..], &[0xA1, 0x06]].concat()), Err(9));
    // Bytes missing or left.
    assert_eq!(number(2, 10, &[0x40, 0x80]), Err(9));
    assert_eq!(number(2, 10, &[0x40]), Err(9));
    assert_eq!(number(2, 10, &[]), Err(9));
    assert_eq!(number(1, 32_768, &[0, 0, 0x00, 0x80]), Err(9));
    assert_eq!(number(1, 5, &[0, 0, 5]), Err(9));
    assert_eq!(number(2, 10, &[0x40, 0x80, 5, 0]), Err(9));
    assert_eq!(number(0, 0, &[0]), Err(9));
    assert_eq!(number(0, 0, &[]), Ok(vec![]));
}

#[test]
fn refuses_10_raw_dna_size() {
    assert_eq!(told(&with(73, &[5, 0, 0, 0])), (10, 0));
    assert_eq!(told(&with(73, &[3, 0, 0, 0])), (10, 0));
    assert_eq!(told(&with(73, &[4, 0, 0, 1])), (10, 0));
}

#[test]
fn refuses_10_sum_above_32_bits() {
    // 50,000 reads of 100,000 letters are 5,000,000,000; the field tells it
    // modulo 2^32.
    let mut hand = Hand::same(0, 0, &[], &[]);
    hand.l_read = 100_000;
    hand.n_reads = 50_000;
    hand.raw_dna = 5_000_000_000u64 as u32;
    assert_eq!(told(&hand.bytes()), (10, 0));
}

#[test]
fn refuses_11_n_section_of_another_size() {
    let dna = [0, 0x80, 0, 0, 0x0C, 0, 0, 0, 0, 0x0B];
    assert_eq!(told(&Hand::same(4, 1, &dna, &[]).bytes()), (11, 0));
    assert_eq!(told(&Hand::same(4, 1, &dna, &[0, 0]).bytes()), (11, 0));
    assert_eq!(told(&Hand::same(4, 0, &[], &[0]).bytes()), (11, 0));
    // It comes before the DNA section is looked at.
    assert_eq!(told(&Hand::same(4, 1, &[], &[0, 0]).bytes()), (11, 0));
}

#[test]
fn refuses_11_n_byte_not_the_groups() {
    let dna = [0, 0x80, 0, 0, 0x0C, 0, 0, 0, 0, 0x0B];
    assert_eq!(told(&Hand::same(4, 1, &dna, &[0x80]).bytes()), (11, 0));
    // An unused low bit of the N section.
    assert_eq!(told(&Hand::same(4, 1, &dna, &[0x01]).bytes()), (11, 0));
    // In the second group: the group's first read.
    let group = |reads: usize| [vec![0, 0, 0, 0], [2, 0].repeat(reads)].concat();
    let two = [group(8), group(2)].concat();
    assert_eq!(told(&Hand::same(4, 10, &two, &[0, 0]).bytes()), (0, 0));
    assert_eq!(told(&Hand::same(4, 10, &two, &[0, 0x40]).bytes()), (11, 8));
}

#[test]
fn refuses_12_dna_cut_anywhere() {
    let rows: [(i32, &[u8]); 6] = [
        (4, &[0x80, 0x80, 0, 0, 4, 0, 0, 0]),
        (4, &[0x80, 0x80, 0, 0x80, 4, 0]),
        (4, &[0, 0x80, 0, 0, 0x0C, 0, 0, 0, 0, 0x0B]),
        (5, &[0, 0x80, 0, 0, 0, 0, 0, 0, 0, 1, 1, 0xC0]),
        (3, &[0, 0, 0x80, 0, 1, 0x40, 0x10]),
        (4, &[0x80, 0x80, 0x80, 0, 0, 0, 0, 0, 2, 1, 0, 2, 0]),
    ];
    for (length, dna) in rows {
        assert_eq!(one(length, dna), (0, 0));
        for cut in 0..dna.len() {
            let block = Hand::same(length, 1, &dna[..cut], &dna[2..3]).bytes();
            assert_eq!(told(&block), (12, 0), "{dna:x?} cut to {cut}");
        }
    }
}

#[test]
fn refuses_12_at_the_groups_first_read() {
    let group = [vec![0, 0, 0, 0], [2, 0].repeat(8)].concat();
    let dna = [group, vec![0, 0, 0]].concat();
    assert_eq!(told(&Hand::same(4, 10, &dna, &[0, 0]).bytes()), (12, 8));
}

#[test]
fn refuses_12_before_13_16_15() {
    // A raw record with a stray bit whose letters are cut.
    assert_eq!(one(5, &[0, 0x80, 0, 0, 2, 0x8F]), (12, 0));
    // Clips of 255 and 255 ask for 128 bytes of end letters.
    let local = [0, 0x80, 0, 0, 0, 0, 0, 0, 0, 255, 255];
    assert_eq!(one(5, &[&local[..], &[0; 127]].concat()), (12, 0));
    assert_eq!(one(5, &[&local[..], &[0; 128]].concat()), (16, 0));
    // A place outside whose entries are cut.
    assert_eq!(one(4, &[0, 0x80, 0, 0, 0x0C, 0, 0, 0, 0xFF]), (12, 0));
}

#[test]
fn refuses_13_bit_past_the_last_read() {
    for byte in 0..4 {
        for bit in 1..8 {
            let mut dna = [0, 0x80, 0, 0, 0x0C, 0, 0, 0, 0, 0x0B];
            dna[byte] |= 0x80 >> bit;
            // Whether or not the N section agrees.
            assert_eq!(told(&Hand::same(4, 1, &dna, &dna[2..3]).bytes()), (13, 0));
            assert_eq!(told(&Hand::same(4, 1, &dna, &[0]).bytes()), (13, 0));
        }
    }
}

#[test]
fn refuses_13_stray_bit_of_a_raw_kind() {
    assert_eq!(one(5, &[0, 0x80, 0, 0, 2, 0x8F, 0]), (13, 0));
    assert_eq!(one(5, &[0, 0, 0, 0x80, 2, 0x8F, 0]), (13, 0));
    assert_eq!(one(3, &[0, 0x80, 0x80, 0, 1, 0x40, 0x10]), (13, 0));
    assert_eq!(one(3, &[0, 0, 0x80, 0x80, 1, 0x40, 0x10]), (13, 0));
    // Of the second read, at its own index.
    let dna = [0, 0x40, 0, 0, 2, 0, 2, 0];
    assert_eq!(told(&Hand::same(4, 2, &dna, &[0]).bytes()), (13, 1));
}

#[test]
fn refuses_14_flag_byte() {
    for flag in 0..=255u8 {
        let count = flag >> 3;
        let valid = match flag & 7 {
            0 => true,
            4 => count >= 1,
            2 | 1 => count == 0,
            _ => false,
        };
        // Only the flag byte is there: 12 for what follows a valid one.
        assert_eq!(one(4, &[0, 0, 0, 0, flag]), (if valid { 12 } else { 14 }, 0), "{flag}");
    }
}

#[test]
fn refuses_15_past_reference_end() {
    assert_eq!(one(4, &[0x80, 0x80, 0, 0, 9, 0, 0, 0]), (15, 0));
    assert_eq!(one(12, &[0x80, 0x80, 0, 0, 0, 0, 0, 0]), (0, 0));
    assert_eq!(one(13, &[0x80, 0x80, 0, 0, 0, 0, 0, 0]), (15, 0));
    assert_eq!(one(1, &[0x80, 0x80, 0, 0, 11, 0, 0, 0]), (0, 0));
    assert_eq!(one(1, &[0x80, 0x80, 0, 0, 12, 0, 0, 0]), (15, 0));
    assert_eq!(one(4, &[0x80, 0x80, 0, 0, 0xFC, 0xFF, 0xFF, 0xFF]), (15, 0));
    // The clipped letters need no room: 3 aligned at 9.
    assert_eq!(one(5, &[0, 0x80, 0, 0, 0, 9, 0, 0, 0, 1, 1, 0xC0]), (0, 0));
    assert_eq!(one(5, &[0, 0x80, 0, 0, 0, 10, 0, 0, 0, 1, 1, 0xC0]), (15, 0));
}

/// 02, Ticket 2: 15 "where the stretch would start below 0". Three aligned
/// letters of a reverse local read end at the position.
#[test]
fn refuses_15_reverse_local_outside() {
    let three = |position: u8| one(5, &[0, 0, 0, 0, 0, position, 0, 0, 0, 1, 1, 0x90]);
    assert_eq!(three(0), (15, 0));
    assert_eq!(three(1), (15, 0));
    assert_eq!(three(2), (0, 0));
    assert_eq!(three(11), (0, 0));
    assert_eq!(three(12), (15, 0));
    // One aligned letter has its own place.
    let one_base = |position: u8| one(2, &[0, 0, 0, 0, 0, position, 0, 0, 0, 1, 0, 0x80]);
    assert_eq!(one_base(0), (0, 0));
    assert_eq!(one_base(11), (0, 0));
    assert_eq!(one_base(12), (15, 0));
    // Nothing else moves: forward local, reverse perfect, reverse global.
    for position in [0, 9] {
        assert_eq!(one(5, &[0, 0x80, 0, 0, 0, position, 0, 0, 0, 1, 1, 0x90]), (0, 0));
        assert_eq!(one(3, &[0x80, 0, 0, 0, position, 0, 0, 0]), (0, 0));
        assert_eq!(one(3, &[0, 0, 0, 0, 0x0C, position, 0, 0, 0, 0]), (0, 0));
    }
    for position in [10, 11] {
        assert_eq!(one(5, &[0, 0x80, 0, 0, 0, position, 0, 0, 0, 1, 1, 0x90]), (15, 0));
        assert_eq!(one(3, &[0x80, 0, 0, 0, position, 0, 0, 0]), (15, 0));
        assert_eq!(one(3, &[0, 0, 0, 0, 0x0C, position, 0, 0, 0, 0]), (15, 0));
    }
}

#[test]
fn refuses_15_step_past_reference_end() {
    let dna = |step: u8| [0xC0, 0xC0, 0, 0x40, 5, 0, 0, 0, step, 0];
    assert_eq!(told(&Hand::same(4, 2, &dna(3), &[0]).bytes()), (0, 0));
    assert_eq!(told(&Hand::same(4, 2, &dna(4), &[0]).bytes()), (15, 1));
}

#[test]
fn refuses_16_clips() {
    let local = |left: u8, right: u8| {
        let packed = vec![0; (left as usize + right as usize + 3) / 4];
        one(5, &[vec![0, 0x80, 0, 0, 0, 0, 0, 0, 0, left, right], packed].concat())
    };
    assert_eq!(local(0, 0), (16, 0));
    assert_eq!(local(0, 1), (0, 0));
    assert_eq!(local(1, 0), (0, 0));
    assert_eq!(local(4, 0), (0, 0));
    assert_eq!(local(2, 3), (16, 0));
    assert_eq!(local(5, 0), (16, 0));
    assert_eq!(local(0, 6), (16, 0));
    // The sum is not reduced to a byte.
    assert_eq!(local(255, 2), (16, 0));
    // It comes before 15.
    assert_eq!(one(5, &[0, 0x80, 0, 0, 0, 99, 0, 0, 0, 0, 0]), (16, 0));
}

#[test]
fn refuses_17_entry_offset() {
    let global =
        |first: u8, second: u8| one(4, &[0, 0x80, 0, 0, 0x14, 0, 0, 0, 0, first << 2, second << 2]);
    assert_eq!(global(0, 1), (0, 0));
    assert_eq!(global(0, 3), (0, 0));
    assert_eq!(global(0, 0), (17, 0));
    assert_eq!(global(0, 4), (17, 0));
    assert_eq!(global(4, 1), (17, 0));
    assert_eq!(global(3, 1), (17, 0));
    assert_eq!(global(3, 0), (17, 0));
    assert_eq!(global(63, 63), (17, 0));
    // A local record's part is the aligned one: 3 letters.
    let local = |offset: u8| one(5, &[0, 0x80, 0, 0, 8, 0, 0, 0, 0, offset << 2, 1, 1, 0xC0]);
    assert_eq!(local(2), (0, 0));
    assert_eq!(local(3), (17, 0));
}

#[test]
fn refuses_18_code_above_4() {
    assert_eq!(one(3, &[0, 0, 0x80, 0, 1, 0x44, 0x40]), (0, 0));
    assert_eq!(one(3, &[0, 0, 0x80, 0, 1, 0x45, 0x40]), (18, 0));
    assert_eq!(one(3, &[0, 0, 0x80, 0, 1, 0x44, 0xF0]), (18, 0));
    // Padding is no letter: 19 and not 18.
    assert_eq!(one(3, &[0, 0, 0x80, 0, 1, 0x44, 0x4F]), (19, 0));
}

#[test]
fn refuses_19_padding() {
    assert_eq!(one(5, &[0, 0, 0, 0, 2, 0x8F, 0x01]), (19, 0));
    assert_eq!(one(5, &[0, 0, 0, 0, 2, 0x8F, 0x20]), (19, 0));
    assert_eq!(one(5, &[0, 0, 0, 0, 2, 0x8F, 0x40]), (0, 0));
    assert_eq!(one(3, &[0, 0, 0x80, 0, 1, 0x40, 0x11]), (19, 0));
    assert_eq!(one(5, &[0, 0x80, 0, 0, 0, 0, 0, 0, 0, 1, 1, 0xC1]), (19, 0));
}

#[test]
fn refuses_20_n_list() {
    let list = |bytes: &[u8]| one(4, &[&[0x80, 0x80, 0x80, 0, 0, 0, 0, 0][..], bytes].concat());
    assert_eq!(list(&[1, 0, 0]), (0, 0));
    assert_eq!(list(&[1, 3, 0]), (0, 0));
    assert_eq!(list(&[1, 4, 0]), (20, 0));
    assert_eq!(list(&[2, 0, 0, 3, 0]), (0, 0));
    assert_eq!(list(&[2, 0, 0, 4, 0]), (20, 0));
    assert_eq!(list(&[2, 1, 0, 0, 0]), (20, 0));
    assert_eq!(list(&[0]), (20, 0));
    assert_eq!(list(&[32]), (20, 0));
    assert_eq!(list(&[255]), (20, 0));
    // "20 once its place leaves the read": the next word is not asked for.
    assert_eq!(list(&[1, 0, 0x80]), (20, 0));
    assert_eq!(list(&[1, 0x01, 0x80]), (20, 0));
    assert_eq!(list(&[31, 0xFF, 0xFF]), (20, 0));
    assert_eq!(list(&[2, 1, 0]), (12, 0));
    assert_eq!(list(&[2, 1, 0, 9]), (12, 0));
}

#[test]
fn refuses_20_n_list_in_words() {
    // 40,000 letters perfectly placed; N at 32,768 and 32,768 + 7,231.
    let reference = vec![0; 10_000];
    let told = |list: &[u8]| {
        let dna = [&[0x80, 0x80, 0x80, 0, 0, 0, 0, 0][..], list].concat();
        let block = Hand::same(40_000, 1, &dna, &[0x80]).bytes();
        validate_block(40_000, &reference, &block).number
    };
    assert_eq!(told(&[2, 0x00, 0x80, 0x00, 0x00, 0x3F, 0x1C]), 0);
    assert_eq!(told(&[2, 0x00, 0x80, 0x00, 0x00, 0x40, 0x1C]), 20);
    assert_eq!(told(&[1, 0x00, 0x80, 0x3F, 0x1C]), 0);
    assert_eq!(told(&[1, 0x00, 0x80, 0x40, 0x1C]), 20);
    assert_eq!(told(&[1, 0x00, 0x80, 0x00, 0x80]), 20);
    assert_eq!(told(&[1, 0x00, 0x80]), 12);
    assert_eq!(told(&[1, 0x00, 0x80, 0x00]), 12);
    assert_eq!(told(&[2, 0x00, 0x80, 0x00, 0x00, 0x00, 0x00]), 20);
}

#[test]
fn refuses_20_raw4_bit() {
    assert_eq!(one(3, &[0, 0, 0, 0, 1, 0x40, 0x10]), (20, 0));
    assert_eq!(one(3, &[0, 0, 0x80, 0, 1, 0x00, 0x10]), (20, 0));
    assert_eq!(one(3, &[0, 0, 0, 0, 1, 0x00, 0x10]), (0, 0));
}

#[test]
fn refuses_21_dna_left_over() {
    let dna = [0x80, 0x80, 0, 0, 4, 0, 0, 0, 0];
    assert_eq!(one(4, &dna), (21, 0));
    // Without reads every DNA byte is left over.
    assert_eq!(told(&Hand::same(4, 0, &[0], &[]).bytes()), (21, 0));
    // Of a later group's worth of bytes the read index is still 0.
    let group = [vec![0, 0, 0, 0], [2, 0].repeat(8), vec![7]].concat();
    assert_eq!(told(&Hand::same(4, 8, &group, &[0]).bytes()), (21, 0));
}

#[test]
fn refuses_22_capacity() {
    let number = |letters: usize, ends: usize| {
        Lent::new(letters, ends, 0, 0).decode(BASES, &REFERENCE, &good()).number
    };
    assert_eq!(number(4, 1), 0);
    assert_eq!(number(3, 1), 22);
    assert_eq!(number(4, 0), 22);
    assert_eq!(number(0, 0), 22);
    // 21 comes first.
    let trailing = Hand::same(4, 1, &[0x80, 0x80, 0, 0, 4, 0, 0, 0, 0], &[0]).bytes();
    assert_eq!(Lent::new(0, 0, 0, 0).decode(BASES, &REFERENCE, &trailing).number, 21);
}

/// Letters, ends, the name a and one proposal for each read, and a buffer.
fn write(letters: &[u8], ends: &[u32], capacity: usize) -> Outcome {
    let reads = ends.len();
    let mut call = sums_call().named(&vec!["a"; reads]);
    call.letters = letters.to_vec();
    call.ends = ends.to_vec();
    call.positions = vec![0; reads];
    call.strands = vec![0; reads];
    call.lefts = vec![0; reads];
    call.rights = vec![0; reads];
    call.run(&mut vec![0; capacity])
}

#[test]
fn encode_refuses_1_reference() {
    let run = |bases| {
        let call = EncodeCall { bases, letters: b"A".to_vec(), ends: vec![1], ..sums_call() };
        call.run(&mut [0; 200]).number
    };
    assert_eq!(run(13), 1);
    assert_eq!(run(1 << 32), 1);
    assert_eq!(run(12), 31);
}

#[test]
fn refuses_30_reads_above_50_000() {
    let letters = vec![b'C'; 50_001];
    let ends: Vec<u32> = (1..=50_001).collect();
    assert_eq!(write(&letters, &ends, 1 << 20).number, 30);
    let outcome = write(&letters[1..], &ends[..50_000], 1 << 20);
    assert_eq!(outcome.number, 0);
    // Before 31 and 32.
    let call = EncodeCall { ends: vec![0; 50_001], ..sums_call() };
    assert_eq!(call.run(&mut [0; 1]).number, 30);
}

#[test]
fn refuses_31_candidates_not_one_per_read() {
    for spoiled in 0..4 {
        for count in [0, 1, 3] {
            let counts: Vec<usize> =
                (0..4).map(|which| if which == spoiled { count } else { 2 }).collect();
            let call = EncodeCall {
                letters: b"AC".to_vec(),
                ends: vec![1, 2],
                positions: vec![0; counts[0]],
                strands: vec![0; counts[1]],
                lefts: vec![0; counts[2]],
                rights: vec![0; counts[3]],
                ..sums_call()
            };
            assert_eq!(call.run(&mut [0; 300]), Outcome { number: 31, ..Outcome::default() });
        }
    }
}

#[test]
fn refuses_32_ends() {
    assert_eq!(write(b"ACG", &[1, 3], 300).number, 0);
    assert_eq!(write(b"ACG", &[0, 3], 300).number, 32);
    assert_eq!(write(b"ACG", &[3, 3], 300).number, 32);
    assert_eq!(write(b"ACG", &[4, 3], 300).number, 32);
    assert_eq!(write(b"ACG", &[1, 2], 300).number, 32);
    assert_eq!(write(b"ACG", &[1, 4], 300).number, 32);
    assert_eq!(write(b"A", &[], 300).number, 32);
    assert_eq!(write(b"", &[], 300).number, 0);
    assert_eq!(write(b"", &[0], 300).number, 32);
    let long = vec![b'A'; 100_001];
    assert_eq!(write(&long[1..], &[100_000], 1 << 20).number, 0);
    assert_eq!(write(&long, &[100_001], 1 << 20).number, 32);
    assert_eq!(write(b"A", &[u32::MAX], 300).number, 32);
    // Before 33.
    assert_eq!(write(b"xCG", &[1, 2], 300).number, 32);
}

#[test]
fn refuses_33_letter() {
    for letter in 0..=255u8 {
        let expected = if b"ACGTN".contains(&letter) { 0 } else { 33 };
        assert_eq!(write(&[b'A', letter, b'C'], &[1, 3], 300).number, expected);
    }
    // Before 34.
    assert_eq!(write(b"x", &[1], 0).number, 33);
}

#[test]
fn refuses_34_block_capacity() {
    // 121 + 4 group bytes + flag + 1 byte of letters + 15 of names + N byte.
    assert_eq!(write(b"ACG", &[3], 143), Outcome { length: 143, ..Outcome::default() });
    assert_eq!(write(b"ACG", &[3], 142), Outcome { number: 34, ..Outcome::default() });
    assert_eq!(write(b"", &[], 121).length, 121);
    assert_eq!(write(b"", &[], 120).number, 34);
    assert_eq!(write(b"", &[], 0).number, 34);
}
