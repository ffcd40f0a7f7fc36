//! Walks over the records of a DNA section, also of one that is refused further on.

use second::header::{section, DNA};
use second::lengths::bit;
use second::records::{read_record, Bits, Cursor, Record};
use second::reference::Reference;

/// The records of a DNA section, one after the other.
pub struct Walk<'a> {
    reference: &'a Reference<'a>,
    dna: Cursor<'a>,
    /// The bytes of the group: Perfect, Forward, with-N, pos_t.
    group: [u8; 4],
    index: usize,
    /// The position of the aligned read before.
    previous: u64,
}

impl<'a> Walk<'a> {
    pub fn new(reference: &'a Reference, input: &'a [u8]) -> Walk<'a> {
        let dna = Cursor::new(section(input, DNA));
        Walk { reference, dna, group: [0; 4], index: 0, previous: 0 }
    }

    fn bits(&mut self) -> Option<Bits> {
        let index = self.index % 8;
        if index == 0 {
            self.group = self.dna.take(4).ok()?.try_into().ok()?;
        }
        self.index += 1;
        let [perfect, forward, with_n, pos_t] = self.group.map(|byte| bit(byte, index));
        Some(Bits { perfect, forward, with_n, pos_t })
    }

    /// The next record with its bits; None where it is refused.
    pub fn record(&mut self, length: u64) -> Option<(Bits, Record)> {
        let bits = self.bits()?;
        let record =
            read_record(&mut self.dna, bits, length, self.previous, self.reference).ok()?;
        self.previous = record.placement().map_or(self.previous, |place| place.position);
        Some((bits, record))
    }

    /// The position of the next record, which is refused with 15, and how many aligned letters it
    /// has; None where it is not reverse local.
    pub fn refused_reverse_local(&mut self, length: u64) -> Option<(u64, u64)> {
        let bits = self.bits()?;
        if bits.perfect || bits.forward {
            return None;
        }
        let flag = self.dna.take(1).ok()?[0];
        if flag & 0b111 != 0 {
            return None;
        }
        let position = if bits.pos_t {
            self.previous + number(self.dna.take(2).ok()?)
        } else {
            number(self.dna.take(4).ok()?)
        };
        self.dna.take(flag as u64 >> 3).ok()?;
        let clips = self.dna.take(2).ok()?;
        Some((position, length - clips[0] as u64 - clips[1] as u64))
    }
}

/// Little-endian.
fn number(bytes: &[u8]) -> u64 {
    bytes.iter().rev().fold(0, |number, &byte| number << 8 | byte as u64)
}
