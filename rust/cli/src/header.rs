//! What the header of a block says, for a table and to plan with. The library has found the header
//! right before (2 to 8), and nothing is judged by what is read here.

use ora::{has_names, section, Section, MAX_NAME_LENGTH};

/// The most digits of a number in a set of names.
const MAX_DIGITS: u64 = 18;

/// Some fields of a header, under their names in docs/FORMAT.md.
pub struct Header {
    pub flags: u32,
    pub n_reads: u32,
    pub version: u16,
    pub l_dna_raw: u32,
}

impl Header {
    /// The fields of a block's header.
    pub fn of(block: &[u8]) -> Header {
        Header {
            flags: u32::from_le_bytes(field(block, 42)),
            n_reads: u32::from_le_bytes(field(block, 50)),
            version: u16::from_le_bytes(field(block, 54)),
            l_dna_raw: u32::from_le_bytes(field(block, 73)),
        }
    }
}

/// How many bytes the names of a block take at most, if they can be read: strings no more than
/// their section, and numbers, which may be stored in a byte each, as many as they have digits.
pub fn names_at_most(block: &[u8]) -> u64 {
    if !has_names(block) {
        return 0;
    }
    let (names, reads) = (section(block, Section::Names), u64::from(Header::of(block).n_reads));
    // The number of columns, and a byte each that is 0 for strings.
    let Some((count, rest)) = names.split_first_chunk() else {
        return 0;
    };
    let types = rest.iter().take(MAX_NAME_LENGTH.min(u32::from_le_bytes(*count) as usize));
    let numbers = types.filter(|&&kind| kind != 0).count() as u64;
    (names.len() as u64 + MAX_DIGITS * numbers * reads).min(MAX_NAME_LENGTH as u64 * reads)
}

fn field<const WIDTH: usize>(block: &[u8], offset: usize) -> [u8; WIDTH] {
    std::array::from_fn(|k| block[offset + k])
}

#[cfg(test)]
mod tests {
    use super::*;
    use second::generator::{generate, Shape};
    use second::prng::Prng;

    const SHAPE: Shape =
        Shape { bases: 50, max_reads: 40, max_length: 9, max_carried: 9, max_name: 255 };

    #[test]
    fn names_take_no_more() {
        let mut rng = Prng::new(1);
        for _ in 0..500 {
            let plan = generate(&mut rng, SHAPE);
            let (most, names) = (names_at_most(&plan.block()), plan.expected.names.len() as u64);
            assert!(names <= most && most <= 255 * plan.lengths.len() as u64);
        }
    }

    #[test]
    fn names_that_cannot_be_read() {
        let mut plan = generate(&mut Prng::new(2), SHAPE);
        plan.flags |= 0x8;
        plan.names = None;
        for section in [&[][..], &[1], &[255; 4], &[255; 30]] {
            plan.carried[0] = section.to_vec();
            assert!(names_at_most(&plan.block()) <= 255 * plan.lengths.len() as u64);
        }
    }
}
