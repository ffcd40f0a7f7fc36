//! The corpus: cases in a plain binary form, and the text of what each case
//! must give. CORPUS.md describes both. A case file is walked front to back;
//! every length stands before its bytes.

use crate::prng::Prng;
use crate::proposals::EncodeCall;
use crate::{block_id, decode, lengths, section, section_span, validate, validate_block, Outcome};

pub const MAGIC: &[u8; 8] = b"ORACASE2";
pub const CASE_HEADER_BYTES: usize = 104;

/// What a buffer holds before a call: every byte, or every byte of a number.
pub const FILL: u8 = 0xEE;

/// The most that any case lends or gives, but for the two `large` files.
pub const MAX_REFERENCE: usize = 16_385;
pub const MAX_INPUT: usize = 12_288;
pub const MAX_LETTERS: usize = 32_768;
pub const MAX_ENDS: usize = 4_096;
pub const MAX_NAME_BYTES: usize = 32_768;
pub const MAX_NAME_ENDS: usize = 4_096;
pub const MAX_OUT: usize = 16_384;
pub const MAX_LABEL: usize = 60;

/// The same for `decode_large` and `encode_large`.
pub const MAX_LETTERS_LARGE: usize = 65_540;
pub const MAX_ENDS_LARGE: usize = 50_001;
pub const MAX_OUT_LARGE: usize = 16_640;

#[derive(Clone, Copy, Debug, PartialEq, Eq)]
pub enum CaseKind {
    Sections = 1,
    Lengths = 2,
    Decode = 3,
    ValidateBlock = 4,
    Validate = 5,
    Encode = 6,
}

impl CaseKind {
    pub fn name(self) -> &'static str {
        match self {
            CaseKind::Sections => "sections",
            CaseKind::Lengths => "lengths",
            CaseKind::Decode => "decode",
            CaseKind::ValidateBlock => "validate_block",
            CaseKind::Validate => "validate",
            CaseKind::Encode => "encode",
        }
    }

    fn from_byte(byte: u8) -> Option<CaseKind> {
        use CaseKind::*;
        [Sections, Lengths, Decode, ValidateBlock, Validate, Encode]
            .into_iter()
            .find(|&kind| kind as u8 == byte)
    }
}

/// One case. Fields that its kind does not use are 0 or empty.
#[derive(Clone, Debug)]
pub struct Case {
    pub kind: CaseKind,
    pub label: String,
    pub input: Vec<u8>,
    pub letters_lent: u32,
    pub ends_lent: u32,
    pub name_bytes_lent: u32,
    pub name_ends_lent: u32,
    /// The reference, and for the encoder all it is given.
    pub call: EncodeCall,
}

impl Case {
    /// A case that reads an input.
    pub fn reading(
        kind: CaseKind,
        label: &str,
        bases: u64,
        reference: &[u8],
        input: &[u8],
    ) -> Case {
        let call = EncodeCall {
            bases,
            reference: reference.to_vec(),
            letters: Vec::new(),
            ends: Vec::new(),
            names: Vec::new(),
            name_ends: Vec::new(),
            positions: Vec::new(),
            strands: Vec::new(),
            lefts: Vec::new(),
            rights: Vec::new(),
            b_id: 0,
            c_time: 0,
            capacity: 0,
        };
        let mut label = label.to_string();
        label.truncate(MAX_LABEL);
        Case {
            kind,
            label,
            input: input.to_vec(),
            letters_lent: 0,
            ends_lent: 0,
            name_bytes_lent: 0,
            name_ends_lent: 0,
            call,
        }
    }

    pub fn lending(mut self, letters: usize, ends: usize) -> Case {
        self.letters_lent = letters as u32;
        self.ends_lent = ends as u32;
        self
    }

    pub fn lending_names(mut self, bytes: usize, ends: usize) -> Case {
        self.name_bytes_lent = bytes as u32;
        self.name_ends_lent = ends as u32;
        self
    }

    pub fn encoding(label: &str, call: &EncodeCall) -> Case {
        let mut case = Case::reading(CaseKind::Encode, label, 0, &[], &[]);
        case.call = call.clone();
        case
    }

    /// The case's bytes. Zeros that end a list of ends are not stored.
    fn bytes(&self) -> Vec<u8> {
        let call = &self.call;
        let ends = without_last_zeros(&call.ends);
        let name_ends = without_last_zeros(&call.name_ends);
        let mut payload = self.label.as_bytes().to_vec();
        payload.extend(&call.reference);
        payload.extend(&self.input);
        payload.extend(&call.letters);
        payload.extend(ends.iter().flat_map(|end| end.to_le_bytes()));
        payload.extend(&call.names);
        payload.extend(name_ends.iter().flat_map(|end| end.to_le_bytes()));
        payload.extend(call.positions.iter().flat_map(|position| position.to_le_bytes()));
        payload.extend(&call.strands);
        payload.extend(&call.lefts);
        payload.extend(&call.rights);

        let mut bytes = ((CASE_HEADER_BYTES + payload.len()) as u32).to_le_bytes().to_vec();
        bytes.extend([self.kind as u8, self.label.len() as u8, 0, 0]);
        for value in [call.bases, call.b_id, call.c_time] {
            bytes.extend(value.to_le_bytes());
        }
        for length in [
            call.reference.len(),
            self.input.len(),
            call.letters.len(),
            call.ends.len(),
            ends.len(),
            call.positions.len(),
            call.strands.len(),
            call.lefts.len(),
            call.rights.len(),
            self.letters_lent as usize,
            self.ends_lent as usize,
            call.capacity,
            call.names.len(),
            call.name_ends.len(),
            name_ends.len(),
            self.name_bytes_lent as usize,
            self.name_ends_lent as usize,
            0,
        ] {
            bytes.extend((length as u32).to_le_bytes());
        }
        assert_eq!(bytes.len(), CASE_HEADER_BYTES);
        bytes.extend(payload);
        bytes
    }

    /// The lines that the case must give, each ending in a line feed.
    pub fn expected(&self, index: usize) -> String {
        let name = self.kind.name();
        match self.kind {
            CaseKind::Sections => self.expected_sections(index),
            CaseKind::Lengths => self.expected_lengths(index),
            CaseKind::Decode => {
                let mut lent = self.lent();
                let outcome = lent.decode(self.call.bases, &self.call.reference, &self.input);
                format!("{index} {name} {} {}\n", columns(&outcome), lent.hashes())
            }
            CaseKind::ValidateBlock => {
                let outcome = validate_block(self.call.bases, &self.call.reference, &self.input);
                format!("{index} {name} {}\n", columns(&outcome))
            }
            CaseKind::Validate => {
                let outcome = validate(self.call.bases, &self.call.reference, &self.input);
                format!("{index} {name} {}\n", columns(&outcome))
            }
            CaseKind::Encode => {
                let mut out = vec![FILL; self.call.capacity];
                let outcome = self.call.run(&mut out);
                format!("{index} {name} {} {}\n", columns(&outcome), fnv1a(&out))
            }
        }
    }

    /// The buffers that a decode case lends, as they are before the call.
    pub fn lent(&self) -> Lent {
        let names = [self.name_bytes_lent, self.name_ends_lent].map(|count| count as usize);
        Lent::new(self.letters_lent as usize, self.ends_lent as usize, names[0], names[1])
    }

    fn expected_sections(&self, index: usize) -> String {
        let mut text = format!("{index} sections {}\n", block_id(&self.input));
        for number in 0..10 {
            let (offset, length) = section_span(&self.input, number);
            let hash = fnv1a(section(&self.input, number));
            text.push_str(&format!("{index} section {number} {offset} {length} {hash}\n"));
        }
        text
    }

    fn expected_lengths(&self, index: usize) -> String {
        match lengths(&self.input) {
            Ok(lengths) => {
                let sum: u64 = lengths.iter().map(|&length| length as u64).sum();
                let hash = fnv1a_numbers(&lengths);
                format!("{index} lengths 0 0 0 {} {sum} {hash}\n", lengths.len())
            }
            Err(refusal) => {
                let empty = fnv1a(&[]);
                format!(
                    "{index} lengths {} {} {} 0 0 {empty}\n",
                    refusal.number, refusal.block, refusal.read
                )
            }
        }
    }
}

/// What a call of decode is lent.
#[derive(Clone, Debug, PartialEq, Eq)]
pub struct Lent {
    pub letters: Vec<u8>,
    pub ends: Vec<u32>,
    pub names: Vec<u8>,
    pub name_ends: Vec<u32>,
}

impl Lent {
    /// Buffers of so many elements, as they are before a call.
    pub fn new(letters: usize, ends: usize, name_bytes: usize, name_ends: usize) -> Lent {
        let number = u32::from_le_bytes([FILL; 4]);
        Lent {
            letters: vec![FILL; letters],
            ends: vec![number; ends],
            names: vec![FILL; name_bytes],
            name_ends: vec![number; name_ends],
        }
    }

    pub fn decode(&mut self, bases: u64, reference: &[u8], input: &[u8]) -> Outcome {
        decode(
            bases,
            reference,
            input,
            &mut self.letters,
            &mut self.ends,
            &mut self.names,
            &mut self.name_ends,
        )
    }

    fn hashes(&self) -> String {
        let letters = [fnv1a(&self.letters), fnv1a_numbers(&self.ends)];
        let names = [fnv1a(&self.names), fnv1a_numbers(&self.name_ends)];
        format!("{} {} {} {}", letters[0], letters[1], names[0], names[1])
    }
}

fn without_last_zeros(ends: &[u32]) -> &[u32] {
    let stored = ends.iter().rposition(|&end| end != 0).map_or(0, |last| last + 1);
    &ends[..stored]
}

/// number block read blocks length reads letters entries differences top.
fn columns(outcome: &Outcome) -> String {
    format!(
        "{} {} {} {} {} {} {} {} {} {}",
        outcome.number,
        outcome.block,
        outcome.read,
        outcome.blocks,
        outcome.length,
        outcome.reads,
        outcome.letters,
        outcome.entries,
        outcome.differences,
        outcome.top
    )
}

/// FNV-1a, 64 bits.
pub fn fnv1a(bytes: &[u8]) -> u64 {
    bytes.iter().fold(0xCBF2_9CE4_8422_2325, |hash, &byte| {
        (hash ^ byte as u64).wrapping_mul(0x100_0000_01B3)
    })
}

/// The same over 32-bit numbers, each as four bytes, the lowest first.
pub fn fnv1a_numbers(numbers: &[u32]) -> u64 {
    let bytes: Vec<u8> = numbers.iter().flat_map(|number| number.to_le_bytes()).collect();
    fnv1a(&bytes)
}

/// A named list of cases: one `.bin` and one `.txt`.
pub struct CaseFile {
    pub name: &'static str,
    pub cases: Vec<Case>,
}

impl CaseFile {
    pub fn bytes(&self) -> Vec<u8> {
        let mut bytes = MAGIC.to_vec();
        bytes.extend((self.cases.len() as u32).to_le_bytes());
        bytes.extend([0; 4]);
        for case in &self.cases {
            bytes.extend(case.bytes());
        }
        bytes
    }

    pub fn text(&self) -> String {
        self.cases.iter().enumerate().map(|(index, case)| case.expected(index)).collect()
    }
}

/// Walks a case file front to back; None where it is not one.
pub fn parse(bytes: &[u8]) -> Option<Vec<Case>> {
    let mut walk = Walk { rest: bytes };
    if walk.take(8)? != MAGIC {
        return None;
    }
    let count = walk.u32()?;
    walk.u32()?;
    let cases = (0..count).map(|_| walk.case()).collect::<Option<Vec<Case>>>()?;
    walk.rest.is_empty().then_some(cases)
}

struct Walk<'a> {
    rest: &'a [u8],
}

impl<'a> Walk<'a> {
    fn take(&mut self, count: usize) -> Option<&'a [u8]> {
        if count > self.rest.len() {
            return None;
        }
        let (taken, rest) = self.rest.split_at(count);
        self.rest = rest;
        Some(taken)
    }

    fn u32(&mut self) -> Option<u32> {
        Some(u32::from_le_bytes(self.take(4)?.try_into().unwrap()))
    }

    fn u64(&mut self) -> Option<u64> {
        Some(u64::from_le_bytes(self.take(8)?.try_into().unwrap()))
    }

    fn numbers(&mut self, count: usize) -> Option<Vec<u32>> {
        (0..count).map(|_| self.u32()).collect()
    }

    fn case(&mut self) -> Option<Case> {
        let before = self.rest.len();
        let case_length = self.u32()? as usize;
        let head = self.take(4)?;
        let kind = CaseKind::from_byte(head[0])?;
        let (bases, b_id, c_time) = (self.u64()?, self.u64()?, self.u64()?);
        let lengths: Vec<usize> =
            (0..18).map(|_| self.u32().map(|length| length as usize)).collect::<Option<_>>()?;
        let label = String::from_utf8(self.take(head[1] as usize)?.to_vec()).ok()?;
        let reference = self.take(lengths[0])?.to_vec();
        let input = self.take(lengths[1])?.to_vec();
        let letters = self.take(lengths[2])?.to_vec();
        let mut ends = self.numbers(lengths[4])?;
        ends.resize(lengths[3], 0);
        let names = self.take(lengths[12])?.to_vec();
        let mut name_ends = self.numbers(lengths[14])?;
        name_ends.resize(lengths[13], 0);
        let positions = self.numbers(lengths[5])?;
        let strands = self.take(lengths[6])?.to_vec();
        let lefts = self.take(lengths[7])?.to_vec();
        let rights = self.take(lengths[8])?.to_vec();
        if before - self.rest.len() != case_length {
            return None;
        }
        let mut case = Case::reading(kind, &label, bases, &reference, &input)
            .lending(lengths[9], lengths[10])
            .lending_names(lengths[15], lengths[16]);
        case.call = EncodeCall {
            letters,
            ends,
            names,
            name_ends,
            positions,
            strands,
            lefts,
            rights,
            b_id,
            c_time,
            capacity: lengths[11],
            ..case.call
        };
        Some(case)
    }
}

/// The seed of the whole corpus.
pub const SEED: u64 = 0x2505;

/// Each case file has its own stream of random numbers.
pub fn stream(name: &str) -> Prng {
    Prng::new(SEED ^ fnv1a(name.as_bytes()))
}
