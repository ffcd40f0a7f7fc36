//! Hand-tuned unsafe Rust for whole blocks: the peers that the library is held against. They are
//! made for speed and compared with the library before they are timed; nothing else may use them.
pub mod decode;
pub mod encode;
pub mod validate;

/// How many bytes a peer may read around the reference, and write past its letters or its block.
pub const SLACK: usize = 64;

/// The counts of a block: reads, letters, entries, differences, top.
pub type Counts = [u64; 5];

/// The most entries that a record can have.
const MAX_ENTRIES: usize = 31;
const WORD_ESCAPE: usize = 32768;
const MAX_READ_LENGTH: usize = 100_000;

/// The words of four letters for a byte of four bases, on both strands, and of two letters for a
/// byte of raw4.
pub struct Tables {
    forward: [u32; 256],
    reverse: [u32; 256],
    pairs: [u16; 256],
}

impl Tables {
    pub fn new() -> Tables {
        let mut tables = Tables { forward: [0; 256], reverse: [0; 256], pairs: [0; 256] };
        for byte in 0..256 {
            let codes = [byte >> 6 & 3, byte >> 4 & 3, byte >> 2 & 3, byte & 3];
            let turned = [codes[3], codes[2], codes[1], codes[0]];
            tables.forward[byte] = u32::from_le_bytes(codes.map(|code| b"ACGT"[code]));
            tables.reverse[byte] = u32::from_le_bytes(turned.map(|code| b"TGCA"[code]));
            let letter = |code: usize| if code < 5 { b"ACGTN"[code] } else { b'?' };
            tables.pairs[byte] = u16::from_le_bytes([letter(byte >> 4), letter(byte & 15)]);
        }
        tables
    }
}

/// The four bytes of a group, shifted so that the bit of the next read is the highest.
#[derive(Clone, Copy)]
struct Group {
    perfect: u8,
    forward: u8,
    with_n: u8,
    step: u8,
}

impl Group {
    const NONE: Group = Group { perfect: 0, forward: 0, with_n: 0, step: 0 };

    #[inline(always)]
    unsafe fn read(at: *const u8) -> Group {
        let [perfect, forward, with_n, step] = (at as *const u32).read_unaligned().to_le_bytes();
        Group { perfect, forward, with_n, step }
    }

    #[inline(always)]
    fn shift(&mut self) {
        self.perfect <<= 1;
        self.forward <<= 1;
        self.with_n <<= 1;
        self.step <<= 1;
    }
}

/// The word of 16 bits at `at`, which is moved past it.
#[inline(always)]
unsafe fn take_word(at: &mut *const u8) -> usize {
    let word = (*at as *const u16).read_unaligned();
    *at = at.add(2);
    word as usize
}
