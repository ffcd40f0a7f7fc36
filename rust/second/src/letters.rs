//! 01, "Records": packed letters. "Raw, 2 bits a letter; raw4, 4 bits, 0 to 4
//! for A, C, G, T, N. ... Packed letters start in the high bits; padding is
//! 0." Both widths go through the same functions.

pub const LETTERS: [u8; 5] = *b"ACGTN";
pub const N_CODE: u8 = 4;

/// Bytes that `count` letters of `width` bits take, rounded up.
pub fn packed_bytes(count: u64, width: u64) -> u64 {
    (count * width + 7) / 8
}

/// The code at `index`, width 2 or 4: the first letter is in the high bits.
pub fn packed_code(packed: &[u8], index: u64, width: u64) -> u8 {
    let bit = index * width;
    let byte = packed[(bit / 8) as usize];
    (byte >> (8 - width - bit % 8)) & ((1 << width) - 1)
}

pub fn unpack(packed: &[u8], count: u64, width: u64) -> Vec<u8> {
    (0..count).map(|index| packed_code(packed, index, width)).collect()
}

/// Whether every bit after the last letter is 0.
pub fn padding_is_zero(packed: &[u8], count: u64, width: u64) -> bool {
    let slots = packed.len() as u64 * 8 / width;
    (count..slots).all(|index| packed_code(packed, index, width) == 0)
}

pub fn pack(codes: &[u8], width: u64) -> Vec<u8> {
    let mut packed = vec![0; packed_bytes(codes.len() as u64, width) as usize];
    for (index, &code) in codes.iter().enumerate() {
        let bit = index as u64 * width;
        packed[(bit / 8) as usize] |= code << (8 - width - bit % 8);
    }
    packed
}

/// The code of a letter, or None where it is "not A, C, G, T, N".
pub fn code_of(letter: u8) -> Option<u8> {
    LETTERS.iter().position(|&known| known == letter).map(|code| code as u8)
}
