//! Cases of the corpus written by hand: 01's sums, edges of the header, of the
//! size section and of records, and N lists in words.

use crate::corpus::{Case, CaseKind};
use crate::generator::{generate_reference, Plan};
use crate::prng::Prng;

/// ACGTACGTTGCA, the reference of 01's sums.
pub const BASES: u64 = 12;
pub const REFERENCE: [u8; 3] = [0x1B, 0x1B, 0xE4];

/// A block by hand: 121 header bytes and the sections that are read.
#[derive(Clone, Default)]
pub struct Hand {
    pub flags: u32,
    pub l_read: i32,
    pub reads: i32,
    pub raw_dna: u32,
    pub dna: Vec<u8>,
    pub names: Vec<u8>,
    pub sizes: Vec<u8>,
    pub n: Vec<u8>,
}

impl Hand {
    /// Reads of one length; the N section agrees with the first group.
    pub fn same(length: i32, reads: i32, dna: &[u8]) -> Hand {
        let mut n = vec![0; (reads as usize + 7) / 8];
        if let (Some(first), Some(&byte)) = (n.first_mut(), dna.get(2)) {
            *first = byte;
        }
        let raw_dna = length as u32 * reads as u32;
        Hand { flags: 1, l_read: length, reads, raw_dna, dna: dna.to_vec(), n, ..Hand::default() }
    }

    pub fn sized(reads: i32, raw_dna: u32, sizes: &[u8]) -> Hand {
        Hand { reads, raw_dna, sizes: sizes.to_vec(), ..Hand::default() }
    }

    pub fn bytes(&self) -> Vec<u8> {
        let mut block = [0; 121];
        let mut put = |at: usize, bytes: &[u8]| block[at..at + bytes.len()].copy_from_slice(bytes);
        put(0, &[0x49, 0x7C, 121]);
        put(6, &(self.dna.len() as u32).to_le_bytes());
        put(10, &(self.names.len() as u32).to_le_bytes());
        put(22, &(self.sizes.len() as u32).to_le_bytes());
        put(26, &(self.n.len() as u32).to_le_bytes());
        put(42, &self.flags.to_le_bytes());
        put(46, &self.l_read.to_le_bytes());
        put(50, &self.reads.to_le_bytes());
        put(54, &20505u16.to_le_bytes());
        put(56, &7u64.to_le_bytes());
        put(73, &self.raw_dna.to_le_bytes());
        [&block[..], &self.dna, &self.names, &self.sizes, &self.n].concat()
    }
}

/// A block that a case reads, under its reference.
#[derive(Clone)]
pub struct Input {
    pub label: String,
    pub bases: u64,
    pub reference: Vec<u8>,
    pub bytes: Vec<u8>,
}

impl Input {
    pub fn by_hand(label: &str, hand: &Hand) -> Input {
        let reference = REFERENCE.to_vec();
        Input { label: label.to_string(), bases: BASES, reference, bytes: hand.bytes() }
    }

    pub fn of_plan(label: String, plan: &Plan) -> Input {
        let reference = &plan.reference;
        let (bases, bytes) = (reference.bases, plan.block());
        Input { label, bases, reference: reference.bytes.clone(), bytes }
    }

    pub fn case(&self, kind: CaseKind) -> Case {
        Case::reading(kind, &self.label, self.bases, &self.reference, &self.bytes)
    }
}

/// One read under 01's reference: label, length, DNA section.
pub type Row = (&'static str, i32, &'static [u8]);

pub const SUMS: &[Row] = &[
    ("sum 1 perfect", 4, &[0x80, 0x80, 0, 0, 4, 0, 0, 0]),
    ("sum 2 step from 0", 4, &[0x80, 0x80, 0, 0x80, 4, 0]),
    ("sum 3 past the end", 4, &[0x80, 0x80, 0, 0, 9, 0, 0, 0]),
    ("sum 3 at the end", 4, &[0x80, 0x80, 0, 0, 8, 0, 0, 0]),
    ("sum 4 reverse", 4, &[0x80, 0, 0, 0, 6, 0, 0, 0]),
    ("sum 5 the listing's block", 4, &[0, 0x80, 0, 0, 0x0C, 0, 0, 0, 0, 0x0B]),
    ("sum 6 filler", 4, &[0, 0x80, 0, 0, 0x0C, 0, 0, 0, 0, 0x0A]),
    ("sum 7 local", 5, &[0, 0x80, 0, 0, 0, 0, 0, 0, 0, 1, 1, 0xC0]),
    ("sum 7 padding", 5, &[0, 0x80, 0, 0, 0, 0, 0, 0, 0, 1, 1, 0xC1]),
    ("sum 8 raw", 5, &[0, 0, 0, 0, 2, 0x8F, 0]),
    ("sum 9 raw4", 3, &[0, 0, 0x80, 0, 1, 0x40, 0x10]),
    ("sum 10 N list", 4, &[0x80, 0x80, 0x80, 0, 0, 0, 0, 0, 2, 1, 0, 2, 0]),
    ("sum 10 later offset 0", 4, &[0x80, 0x80, 0x80, 0, 0, 0, 0, 0, 2, 1, 0, 0, 0]),
];

pub const EDGES: &[Row] = &[
    ("whole reference", 12, &[0x80, 0x80, 0, 0, 0, 0, 0, 0]),
    ("longer than the reference", 13, &[0x80, 0x80, 0, 0, 0, 0, 0, 0]),
    ("last base", 1, &[0x80, 0, 0, 0, 11, 0, 0, 0]),
    ("one past the last base", 1, &[0x80, 0, 0, 0, 12, 0, 0, 0]),
    ("position near 2^32", 4, &[0x80, 0x80, 0, 0, 0xFC, 0xFF, 0xFF, 0xFF]),
    ("clips need no room", 5, &[0, 0x80, 0, 0, 0, 9, 0, 0, 0, 1, 1, 0xC0]),
    ("clipped, one too far", 5, &[0, 0x80, 0, 0, 0, 10, 0, 0, 0, 1, 1, 0xC0]),
    ("reverse local", 5, &[0, 0, 0, 0, 0, 8, 0, 0, 0, 1, 1, 0x90]),
    ("reverse global, entry at 1", 4, &[0, 0, 0, 0, 0x0C, 6, 0, 0, 0, 0x07]),
    ("reverse global, filler at 1", 4, &[0, 0, 0, 0, 0x0C, 6, 0, 0, 0, 0x04]),
    ("clips 0 0", 5, &[0, 0x80, 0, 0, 0, 0, 0, 0, 0, 0, 0]),
    ("clips 0 1", 5, &[0, 0x80, 0, 0, 0, 0, 0, 0, 0, 0, 1, 0x80]),
    ("clips 4 0", 5, &[0, 0x80, 0, 0, 0, 0, 0, 0, 0, 4, 0, 0x1B]),
    ("clips make the length", 5, &[0, 0x80, 0, 0, 0, 0, 0, 0, 0, 2, 3, 0, 0]),
    ("clips 16 before span 15", 5, &[0, 0x80, 0, 0, 0, 99, 0, 0, 0, 0, 0]),
    ("clips ask for more than there is", 5, &[0, 0x80, 0, 0, 0, 0, 0, 0, 0, 255, 255, 0, 0]),
    ("entries at 0 and 3", 4, &[0, 0x80, 0, 0, 0x14, 0, 0, 0, 0, 0x01, 0x0E]),
    ("later entry offset 0", 4, &[0, 0x80, 0, 0, 0x14, 0, 0, 0, 0, 0x01, 0x02]),
    ("entry lands past the part", 4, &[0, 0x80, 0, 0, 0x0C, 0, 0, 0, 0, 0x11]),
    ("local entry lands on a clip", 5, &[0, 0x80, 0, 0, 8, 0, 0, 0, 0, 0x0D, 1, 1, 0xC0]),
    ("local entry at the last", 5, &[0, 0x80, 0, 0, 8, 0, 0, 0, 0, 0x09, 1, 1, 0xC0]),
    ("difference under N", 4, &[0, 0x80, 0x80, 0, 0x0C, 0, 0, 0, 0, 0x0B, 1, 2, 0]),
    ("filler under N", 4, &[0, 0x80, 0x80, 0, 0x0C, 0, 0, 0, 0, 0x0A, 1, 2, 0]),
    ("N under a clip", 5, &[0, 0x80, 0x80, 0, 0, 0, 0, 0, 0, 1, 1, 0xC0, 2, 0, 0, 4, 0]),
    ("raw, forward bit", 5, &[0, 0x80, 0, 0, 2, 0x8F, 0]),
    ("raw, pos_t bit", 5, &[0, 0, 0, 0x80, 2, 0x8F, 0]),
    ("raw4, forward bit", 3, &[0, 0x80, 0x80, 0, 1, 0x40, 0x10]),
    ("raw cut with a stray bit", 5, &[0, 0x80, 0, 0, 2, 0x8F]),
    ("raw with N list", 5, &[0, 0, 0x80, 0, 2, 0x8F, 0, 1, 4, 0]),
    ("raw padding", 5, &[0, 0, 0, 0, 2, 0x8F, 0x20]),
    ("raw4 code 5", 3, &[0, 0, 0x80, 0, 1, 0x45, 0x40]),
    ("raw4 padding 15", 3, &[0, 0, 0x80, 0, 1, 0x44, 0x4F]),
    ("raw4 without N, bit clear", 3, &[0, 0, 0, 0, 1, 0x01, 0x20]),
    ("raw4 without N, bit set", 3, &[0, 0, 0x80, 0, 1, 0x01, 0x20]),
    ("raw4 with N, bit clear", 3, &[0, 0, 0, 0, 1, 0x41, 0x20]),
    ("N count 0", 4, &[0x80, 0x80, 0x80, 0, 0, 0, 0, 0, 0]),
    ("N count 32", 4, &[0x80, 0x80, 0x80, 0, 0, 0, 0, 0, 32]),
    ("N count missing", 4, &[0x80, 0x80, 0x80, 0, 0, 0, 0, 0]),
    ("N at the last letter", 4, &[0x80, 0x80, 0x80, 0, 0, 0, 0, 0, 1, 3, 0]),
    ("N past the read", 4, &[0x80, 0x80, 0x80, 0, 0, 0, 0, 0, 1, 4, 0]),
    ("N word 32768 leaves the read", 4, &[0x80, 0x80, 0x80, 0, 0, 0, 0, 0, 1, 0, 0x80]),
    ("N word above 32768", 4, &[0x80, 0x80, 0x80, 0, 0, 0, 0, 0, 1, 1, 0x80]),
    ("N word cut", 4, &[0x80, 0x80, 0x80, 0, 0, 0, 0, 0, 2, 1, 0, 9]),
    ("DNA byte left over", 4, &[0x80, 0x80, 0, 0, 4, 0, 0, 0, 0]),
    ("bit past the last read", 4, &[0xC0, 0x80, 0, 0, 4, 0, 0, 0]),
    ("with-N bit past the last read", 4, &[0x80, 0x80, 0x01, 0, 4, 0, 0, 0]),
    ("empty DNA", 4, &[]),
    ("three group bytes", 4, &[0x80, 0x80, 0]),
];

pub fn row_input(&(label, length, dna): &Row) -> Input {
    Input::by_hand(label, &Hand::same(length, 1, dna))
}

/// Blocks of more than one read, and of none.
pub fn more_by_hand() -> Vec<Input> {
    let raws = |reads: usize| [vec![0, 0, 0, 0], [2, 0].repeat(reads)].concat();
    let two_groups = [raws(8), raws(2)].concat();
    let mut second_n = Hand::same(4, 10, &two_groups);
    second_n.n[1] = 0x40;
    let mut unused_n = Hand::same(4, 1, SUMS[0].2);
    unused_n.n[0] = 0x01;
    let mut no_n = Hand::same(4, 1, SUMS[0].2);
    no_n.n.clear();
    let mut no_reads_flag_1 = Hand::same(0, 0, &[]);
    no_reads_flag_1.l_read = -9;
    let mut no_reads_sizes = no_reads_flag_1.clone();
    no_reads_sizes.sizes = vec![0];
    let mut no_reads_n = no_reads_flag_1.clone();
    no_reads_n.n = vec![0];
    // Perfect at 8, raw, six at 8 + 0; in the next group at 8 + 0 again.
    let mut running = vec![0xBF, 0xBF, 0x00, 0x3F, 8, 0, 0, 0, 2, 0x1B];
    running.extend([0; 12]);
    running.extend([0x80, 0x80, 0x00, 0x80, 0, 0]);
    let step = |step: u8| vec![0xC0, 0xC0, 0, 0x40, 5, 0, 0, 0, step, 0];
    let wide_step = vec![0xC0, 0xC0, 0, 0x40, 5, 0, 0, 0, 0xFF, 0xFF];
    [
        ("two groups of raw reads", Hand::same(4, 10, &two_groups)),
        ("N section differs in group 1", second_n),
        ("N section, unused bit", unused_n),
        ("N section missing", no_n),
        ("position runs on over raw and groups", Hand::same(4, 9, &running)),
        ("step to the last place", Hand::same(4, 2, &step(3))),
        ("step one too far", Hand::same(4, 2, &step(4))),
        ("step of 65535 too far", Hand::same(4, 2, &wide_step)),
        ("group 1 cut in its bytes", Hand::same(4, 10, &[raws(8), vec![0, 0]].concat())),
        ("no reads, flag 1, l_read -9", no_reads_flag_1.clone()),
        ("no reads, size section", no_reads_sizes),
        ("no reads, N section", no_reads_n),
        ("no reads, no flag", Hand::default()),
        ("no reads, size section, no flag", Hand { sizes: vec![0], ..Hand::default() }),
        ("no reads, DNA", Hand { dna: vec![0], ..Hand::default() }),
    ]
    .iter()
    .map(|(label, hand)| Input::by_hand(label, hand))
    .collect()
}

/// The listing's block with some header bytes changed.
pub fn header_edges() -> Vec<Input> {
    let edges: &[(&str, usize, &[u8])] = &[
        ("magic swapped", 0, &[0x7C, 0x49]),
        ("l_header 120", 2, &[120, 0, 0, 0]),
        ("l_header 122", 2, &[122, 0, 0, 0]),
        ("l_header -1", 2, &[0xFF, 0xFF, 0xFF, 0xFF]),
        ("l_header 2^31-1", 2, &[0xFF, 0xFF, 0xFF, 0x7F]),
        ("l_header lowest", 2, &[0, 0, 0, 0x80]),
        ("all lengths 2^32-1", 6, &[0xFF; 36]),
        ("l_m3 1", 38, &[1, 0, 0, 0]),
        ("dna one less, names one more", 6, &[9, 0, 0, 0, 1]),
        ("flags all but 8, 40 and 80", 42, &[0x37, 0xFF, 0xFF, 0xFF]),
        ("flags all but 40 and 80, no names", 42, &[0x3F, 0xFF, 0xFF, 0xFF]),
        ("flag 40", 42, &[0x41]),
        ("flag 80", 42, &[0x81]),
        ("flag 1 not set", 42, &[0x04]),
        ("l_read 3", 46, &[3]),
        ("n_reads 0", 50, &[0]),
        ("n_reads 2", 50, &[2]),
        ("n_reads 50000", 50, &[0x50, 0xC3, 0, 0]),
        ("n_reads 50001", 50, &[0x51, 0xC3, 0, 0]),
        ("n_reads -1", 50, &[0xFF, 0xFF, 0xFF, 0xFF]),
        ("version 20504", 54, &[0x18, 0x50]),
        ("version 29999", 54, &[0x2F, 0x75]),
        ("version 30000", 54, &[0x30, 0x75]),
        ("b_id 2^64-1", 56, &[0xFF; 8]),
        ("qualities, raw names, unread", 64, &[0xFF; 9]),
        ("raw DNA 5", 73, &[5]),
        ("the rest, unread", 77, &[0xFF; 44]),
    ];
    edges
        .iter()
        .map(|&(label, at, bytes)| {
            let mut input = row_input(&SUMS[5]);
            input.label = label.to_string();
            input.bytes[at..at + bytes.len()].copy_from_slice(bytes);
            input
        })
        .collect()
}

pub fn length_edges() -> Vec<(&'static str, Hand)> {
    let same =
        |l_read, reads, raw_dna| Hand { flags: 1, l_read, reads, raw_dna, ..Hand::default() };
    let three_words = [0, 0, 0, 0x80, 0, 0x80, 0, 0x80];
    let hundred_thousand = [&three_words[..], &[0xA0, 0x06]].concat();
    let one_more = [&three_words[..], &[0xA1, 0x06]].concat();
    let many_words = [&[0, 0][..], &[0, 0x80].repeat(200)].concat();
    vec![
        ("5 5 300", Hand::sized(3, 310, &[0x40, 0x80, 5, 0x2C, 0x01])),
        ("256 in words", Hand::sized(1, 256, &[0, 0, 0x00, 0x01])),
        ("32768 in words", Hand::sized(1, 32_768, &[0, 0, 0x00, 0x80, 0x00, 0x00])),
        ("65535 in words", Hand::sized(1, 65_535, &[0, 0, 0x00, 0x80, 0xFF, 0x7F])),
        ("100000 in words", Hand::sized(1, 100_000, &hundred_thousand)),
        ("100001 in words", Hand::sized(1, 100_001, &one_more)),
        ("200 words of 32768", Hand::sized(1, 0, &many_words)),
        ("5 in words", Hand::sized(1, 5, &[0, 0, 5, 0])),
        ("5 twice without same", Hand::sized(2, 10, &[0x00, 0xC0, 5, 5])),
        ("same over a group's edge", Hand::sized(9, 63, &[0x7F, 0x80, 7, 0x80, 0x00])),
        ("word 32769", Hand::sized(1, 32_769, &[0, 0, 0x01, 0x80])),
        ("word 32769 and a remainder", Hand::sized(1, 32_770, &[0, 0, 0x01, 0x80, 1, 0])),
        ("word 32768 then nothing", Hand::sized(1, 32_768, &[0, 0, 0x00, 0x80])),
        ("both bits", Hand::sized(2, 10, &[0x40, 0xC0, 5])),
        ("same on the first", Hand::sized(2, 10, &[0x80, 0x40, 5])),
        ("same bit past the last", Hand::sized(2, 10, &[0x60, 0x80, 5])),
        ("byte-size bit past the last", Hand::sized(2, 10, &[0x40, 0x81, 5])),
        ("byte 0", Hand::sized(1, 0, &[0, 0x80, 0])),
        ("word 0", Hand::sized(1, 0, &[0, 0, 0, 0])),
        ("byte left", Hand::sized(1, 5, &[0, 0x80, 5, 5])),
        ("byte missing", Hand::sized(1, 5, &[0, 0x80])),
        ("half a word", Hand::sized(1, 5, &[0, 0, 5])),
        ("one flag byte", Hand::sized(1, 5, &[0])),
        ("no size section", Hand::sized(1, 5, &[])),
        ("no reads", Hand::sized(0, 0, &[])),
        ("no reads, a byte", Hand::sized(0, 0, &[0])),
        ("no reads, raw size 1", Hand::sized(0, 1, &[])),
        ("all 1", same(1, 4096, 4096)),
        ("all 100000", same(100_000, 3, 300_000)),
        ("all 100001", same(100_001, 1, 100_001)),
        ("all 0", same(0, 1, 0)),
        ("all -1", same(-1, 1, 0xFFFF_FFFF)),
        ("l_read lowest", same(i32::MIN, 1, 0)),
        ("l_read -1, no reads", same(-1, 0, 0)),
        ("sum above 2^32", same(100_000, 50_000, 5_000_000_000u64 as u32)),
        ("sum one too low", same(4, 2, 7)),
        ("flag 1 and a size section", Hand { sizes: vec![0, 0x80, 4], ..same(4, 1, 4) }),
        ("negative l_read not used", Hand { l_read: -1, ..Hand::sized(1, 5, &[0, 0x80, 5]) }),
    ]
}

/// Every kind bit pattern with counts 0, 1, 2 and 31, and nothing after.
pub fn flag_bytes() -> Vec<Input> {
    let mut inputs = Vec::new();
    for kind in 0..8 {
        for count in [0, 1, 2, 31] {
            let flag = count << 3 | kind;
            let hand = Hand::same(4, 1, &[0, 0, 0, 0, flag]);
            inputs.push(Input::by_hand(&format!("flag byte {flag}"), &hand));
        }
    }
    inputs
}

/// Perfect reads of 32,769 letters or more with N lists in words.
pub fn long_n_lists(rng: &mut Prng) -> Vec<Input> {
    let lists: [(&str, i32, &[u8]); 9] = [
        ("N at 32768, the last", 32_769, &[1, 0x00, 0x80, 0x00, 0x00]),
        ("N at 32769, past the last", 32_769, &[1, 0x00, 0x80, 0x01, 0x00]),
        ("second word missing", 32_769, &[1, 0x00, 0x80]),
        ("second word cut", 32_769, &[1, 0x00, 0x80, 0x00]),
        ("later offset 0 after words", 32_769, &[2, 0x00, 0x80, 0x00, 0x00, 0x00, 0x00]),
        ("1 and 32768 leaves", 32_769, &[2, 0x01, 0x00, 0x00, 0x80]),
        ("later offset 32768", 65_537, &[2, 0x00, 0x80, 0x00, 0x00, 0x00, 0x80, 0x00, 0x00]),
        ("word 32769, inside the read", 32_770, &[1, 0x01, 0x80, 0x00, 0x00]),
        ("third word leaves", 65_537, &[1, 0x00, 0x80, 0x00, 0x80, 0x00, 0x80]),
    ];
    let mut inputs = Vec::new();
    for (label, length, list) in lists {
        let reference = generate_reference(rng, length as u64);
        let dna = [&[0x80, 0x80, 0x80, 0x80, 0, 0][..], list].concat();
        inputs.push(Input {
            label: label.to_string(),
            bases: reference.bases,
            reference: reference.bytes,
            bytes: Hand::same(length, 1, &dna).bytes(),
        });
    }
    inputs
}
