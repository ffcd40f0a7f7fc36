//! FASTA text, in pieces of any size, into packed bases and the index of its sequences. What
//! `samtools faidx` can index is taken, and gets the same index.

use crate::failure::{Failure, Refused};
use crate::sequences::Sequence;
use ora::{Refusal, RefusalKind, MAX_BASES};
use std::collections::HashSet;

/// The text so far.
pub struct Fasta {
    /// How messages call the file.
    name: String,
    /// Packed bases that have not been taken yet.
    pub packed: Packed,
    sequences: Vec<Sequence>,
    names: HashSet<Vec<u8>>,
    // The sequence whose lines are read.
    current: Option<Sequence>,
    // A shorter or an empty line has been read, so that no other can follow.
    ended: bool,
    line: Line,
    line_number: u64,
    offset: u64,
}

/// The line that is read.
enum Line {
    /// Nothing of it yet.
    Start,
    /// `>` and a name, up to the first space; what follows is a comment.
    Name { name: Vec<u8>, complete: bool },
    /// Bases: how many, and whether a carriage return has ended them.
    Bases { bases: u64, returned: bool },
}

/// What a whole FASTA file gives.
pub struct Packing {
    pub sequences: Vec<Sequence>,
    pub bases: u64,
    /// How many letters other than A, C, G, T are stored as A.
    pub others: u64,
}

impl Fasta {
    pub fn new(name: &str) -> Fasta {
        Fasta {
            name: name.to_string(),
            packed: Packed::default(),
            sequences: Vec::new(),
            names: HashSet::new(),
            current: None,
            ended: false,
            line: Line::Start,
            line_number: 1,
            offset: 0,
        }
    }

    /// Reads the next piece of the text.
    pub fn read(&mut self, piece: &[u8]) -> Result<(), Failure> {
        let mut rest = piece;
        while !rest.is_empty() {
            let end = rest.iter().position(|&byte| byte == b'\n');
            let part = &rest[..end.unwrap_or(rest.len())];
            self.read_part(part)?;
            self.offset += part.len() as u64;
            rest = &rest[part.len()..];
            if end.is_some() {
                self.offset += 1;
                rest = &rest[1..];
                self.end_line()?;
            }
        }
        Ok(())
    }

    /// Reads a part of a line, without its end.
    fn read_part(&mut self, part: &[u8]) -> Result<(), Failure> {
        let Some(first) = part.first() else {
            return Ok(());
        };
        if let Line::Start = self.line {
            self.line = match first {
                b'>' => Line::Name { name: Vec::new(), complete: false },
                _ => Line::Bases { bases: 0, returned: false },
            };
            if *first == b'>' {
                return self.read_part(&part[1..]);
            }
        }
        match &mut self.line {
            Line::Name { name, complete } => {
                read_name(name, complete, part);
                Ok(())
            }
            _ => self.read_bases(part),
        }
    }

    fn read_bases(&mut self, part: &[u8]) -> Result<(), Failure> {
        let Line::Bases { bases, returned } = &mut self.line else {
            return Ok(());
        };
        let letters = match (*returned, part) {
            // Nothing stands after a carriage return.
            (true, _) => b"\r",
            (false, [letters @ .., b'\r']) => {
                *returned = true;
                letters
            }
            (false, letters) => letters,
        };
        if !letters.is_empty() && self.current.is_none() {
            return Err(self.wrong("a FASTA file begins with `>` and the name of a sequence"));
        }
        if !letters.is_empty() && self.ended {
            return Err(self.uneven());
        }
        *bases += letters.len() as u64;
        if let Err(byte) = self.packed.push(letters) {
            let what = format!("the byte {byte:02X} (hexadecimal) stands in a sequence");
            return Err(self.wrong(&what));
        }
        if self.packed.bases > MAX_BASES {
            let number = RefusalKind::ReferenceSizeWrong.number();
            return Err(Failure::Refused(Refused {
                file: format!("{} has more than {MAX_BASES} bases", self.name),
                refusal: Refusal { number, block: 0, read: 0 },
                offset: None,
            }));
        }
        Ok(())
    }

    fn end_line(&mut self) -> Result<(), Failure> {
        match std::mem::replace(&mut self.line, Line::Start) {
            Line::Name { name, .. } => self.begin_sequence(name)?,
            Line::Start => self.ended = true,
            Line::Bases { bases: 0, .. } => self.ended = true,
            Line::Bases { bases, returned } => self.end_bases(bases, returned)?,
        }
        self.line_number += 1;
        Ok(())
    }

    /// All lines of a sequence have as many bases, but the last may have fewer.
    fn end_bases(&mut self, bases: u64, returned: bool) -> Result<(), Failure> {
        let width = bases + u64::from(returned) + 1;
        let Some(sequence) = &mut self.current else {
            return Ok(());
        };
        if sequence.bases == 0 {
            (sequence.line_bases, sequence.line_width) = (bases, width);
        }
        sequence.bases += bases;
        let (whole, fits) = (width == sequence.line_width, bases <= sequence.line_bases);
        if !fits || width > sequence.line_width || whole && bases < sequence.line_bases {
            return Err(self.uneven());
        }
        self.ended = !whole;
        Ok(())
    }

    fn begin_sequence(&mut self, name: Vec<u8>) -> Result<(), Failure> {
        if name.is_empty() {
            return Err(self.wrong("a sequence has no name"));
        }
        if !self.names.insert(name.clone()) {
            let name = String::from_utf8_lossy(&name);
            return Err(self.wrong(&format!("a sequence of the name {name} stands above")));
        }
        self.end_sequence();
        let offset = self.offset;
        self.current = Some(Sequence { name, bases: 0, offset, line_bases: 0, line_width: 0 });
        self.ended = false;
        Ok(())
    }

    /// A sequence without bases is left out, as `samtools faidx` does.
    fn end_sequence(&mut self) {
        self.sequences.extend(self.current.take().filter(|sequence| sequence.bases > 0));
    }

    /// The text has ended.
    pub fn finish(&mut self) -> Result<Packing, Failure> {
        if !matches!(self.line, Line::Start) {
            self.end_line()?;
        }
        self.end_sequence();
        if self.sequences.is_empty() {
            return Err(Failure::Unusable(format!("{} holds no sequence", self.name)));
        }
        self.packed.fill();
        let Packed { bases, others, .. } = self.packed;
        Ok(Packing { sequences: std::mem::take(&mut self.sequences), bases, others })
    }

    fn wrong(&self, what: &str) -> Failure {
        Failure::at_line(&self.name, self.line_number, what)
    }

    fn uneven(&self) -> Failure {
        let name = self.current.as_ref().map(|sequence| &sequence.name[..]).unwrap_or_default();
        let name = String::from_utf8_lossy(name);
        self.wrong(&format!(
            "the lines of {name} differ in length, so that no index can be written"
        ))
    }
}

/// The name is what stands between the first spaces, if any, and the next.
fn read_name(name: &mut Vec<u8>, complete: &mut bool, part: &[u8]) {
    for &byte in part {
        if !byte.is_ascii_whitespace() && !*complete {
            name.push(byte);
        } else if !name.is_empty() {
            *complete = true;
            return;
        }
    }
}

/// Bases, four to a byte, the first in the highest bits.
#[derive(Default)]
pub struct Packed {
    /// Whole bytes.
    pub bytes: Vec<u8>,
    /// All bases so far.
    pub bases: u64,
    /// How many of them are other letters than A, C, G, T.
    pub others: u64,
    // The bases of the next byte, in its lowest bits.
    partial: u8,
}

/// A letter that is none of A, C, G, T.
const OTHER: u8 = 4;
/// A byte that is no visible character.
const NO_LETTER: u8 = 8;

/// The code of each byte.
const CODES: [u8; 256] = {
    let mut codes = [NO_LETTER; 256];
    let mut byte = 0x21;
    while byte < 0x7F {
        codes[byte] = OTHER;
        byte += 1;
    }
    let letters = *b"ACGT";
    let mut code = 0;
    while code < 4 {
        codes[letters[code] as usize] = code as u8;
        codes[letters[code].to_ascii_lowercase() as usize] = code as u8;
        code += 1;
    }
    codes
};

impl Packed {
    /// Adds bases; a byte that is no letter is given back.
    fn push(&mut self, letters: &[u8]) -> Result<(), u8> {
        let missing = (4 - self.bases % 4) as usize % 4;
        let (first, rest) = letters.split_at(missing.min(letters.len()));
        self.push_each(first)?;
        let mut fours = rest.chunks_exact(4);
        for four in &mut fours {
            let [a, b, c, d] = [0, 1, 2, 3].map(|k| CODES[four[k] as usize]);
            if (a | b | c | d) < OTHER {
                self.bytes.push(a << 6 | b << 4 | c << 2 | d);
                self.bases += 4;
            } else {
                self.push_each(four)?;
            }
        }
        self.push_each(fours.remainder())
    }

    fn push_each(&mut self, letters: &[u8]) -> Result<(), u8> {
        for &letter in letters {
            let code = match CODES[letter as usize] {
                NO_LETTER => return Err(letter),
                OTHER => {
                    self.others += 1;
                    0
                }
                code => code,
            };
            self.push_code(code);
        }
        Ok(())
    }

    fn push_code(&mut self, code: u8) {
        self.partial = self.partial << 2 | code;
        self.bases += 1;
        if self.bases % 4 == 0 {
            self.bytes.push(self.partial);
        }
    }

    /// Fills up the last byte; no base comes after it.
    fn fill(&mut self) {
        let free = (4 - self.bases % 4) % 4;
        if free > 0 {
            self.bytes.push(self.partial << (2 * free));
        }
    }
}

#[cfg(test)]
mod tests {
    use super::*;

    /// Reads a text in pieces of one size.
    fn read(text: &[u8], size: usize) -> Result<(Vec<u8>, Packing), String> {
        let mut fasta = Fasta::new("x.fa");
        let result = text.chunks(size).try_for_each(|piece| fasta.read(piece));
        match result.and_then(|()| fasta.finish()) {
            Ok(packing) => Ok((fasta.packed.bytes, packing)),
            Err(Failure::Unusable(what)) => Err(what),
            Err(failure) => panic!("{failure:?}"),
        }
    }

    fn read_all(text: &[u8]) -> (Vec<u8>, Packing) {
        let (bytes, packing) = read(text, text.len().max(1)).unwrap();
        for size in 1..=text.len() {
            let (same, also) = read(text, size).unwrap();
            assert_eq!((&same, &also.sequences), (&bytes, &packing.sequences));
            assert_eq!((also.bases, also.others), (packing.bases, packing.others));
        }
        (bytes, packing)
    }

    fn index(text: &[u8]) -> String {
        let lines = read_all(text).1.sequences.iter().flat_map(Sequence::index_line).collect();
        String::from_utf8(lines).unwrap()
    }

    fn wrong(text: &[u8]) -> String {
        let what = read(text, text.len()).err().unwrap();
        assert_eq!(read(text, 1).err().unwrap(), what);
        what
    }

    #[test]
    fn bases_are_packed_over_lines_and_sequences() {
        let (bytes, packing) = read_all(b">a first\nACGTA\nCG\n>b\nTTGCA\n");
        assert_eq!(bytes, [0x1B, 0x1B, 0xE4]);
        assert_eq!((packing.bases, packing.others), (12, 0));
        assert_eq!(read_all(b">a\nACGTT").0, [0x1B, 0xC0]);
        assert_eq!(read_all(b">a\nacgtNryACxT*-\n").1.others, 6);
        assert_eq!(read_all(b">a\nGNGg\n").0, [0b10001010]);
    }

    #[test]
    fn the_index_is_that_of_samtools() {
        assert_eq!(index(b">a first\nACGTA\nCG\n>b\nTTGCA\n"), "a\t7\t9\t5\t6\nb\t5\t21\t5\t6\n");
        assert_eq!(index(b">a\r\nACGT\r\nAC\r\n>b\r\nA"), "a\t6\t4\t4\t6\nb\t1\t18\t1\t2\n");
        assert_eq!(
            index(b"\n\n> a x\nACGT\n\n\n>e\n>b\tc\nAA\nA"),
            "a\t4\t8\t4\t5\nb\t3\t23\t2\t3\n"
        );
    }

    #[test]
    fn wrong_lines_are_named() {
        assert!(wrong(b"ACGT\n").starts_with("x.fa, line 1: a FASTA file begins with"));
        assert!(wrong(b">a\nAC\nACG\n").starts_with("x.fa, line 3: the lines of a differ"));
        assert!(wrong(b">a\nACG\nAC\nA\n").starts_with("x.fa, line 4: the lines of a differ"));
        assert!(wrong(b">a\nAC\n\nAC\n").starts_with("x.fa, line 4: the lines of a differ"));
        assert!(wrong(b">a\nAC\r\nACG\n").starts_with("x.fa, line 3: the lines of a differ"));
        assert!(wrong(b">a\nA C\n").starts_with("x.fa, line 2: the byte 20 (hexadecimal)"));
        assert!(wrong(b">a\nA\rC\n").starts_with("x.fa, line 2: the byte 0D (hexadecimal)"));
        assert!(wrong(b">a\nA\n> \nC\n").starts_with("x.fa, line 3: a sequence has no name"));
        assert!(wrong(b">a\nA\n>a\nC\n").starts_with("x.fa, line 3: a sequence of the name a"));
        assert!(wrong(b">a\n").starts_with("x.fa holds no sequence"));
        assert!(wrong(b"\n").starts_with("x.fa holds no sequence"));
    }
}
