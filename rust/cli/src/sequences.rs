//! The sequences of which a reference is made: their names and lengths, in the form that
//! `samtools faidx` writes. In the packed reference they stand one after the other, in this order.

use crate::failure::Failure;
use std::collections::HashMap;
use std::fs;
use std::path::{Path, PathBuf};

/// A line of the index: a sequence, and how it lies in its FASTA file.
#[derive(Clone, Debug, PartialEq, Eq)]
pub struct Sequence {
    pub name: Vec<u8>,
    pub bases: u64,
    /// Where its first base stands in the file.
    pub offset: u64,
    pub line_bases: u64,
    /// Line ends included.
    pub line_width: u64,
}

impl Sequence {
    /// The line of the index, with its end.
    pub fn index_line(&self) -> Vec<u8> {
        let Sequence { name, bases, offset, line_bases, line_width } = self;
        let numbers = format!("\t{bases}\t{offset}\t{line_bases}\t{line_width}\n");
        [name, numbers.as_bytes()].concat()
    }
}

/// Where the index of a reference stands: beside it, with `.fai` after its name.
pub fn index_path(reference: &Path) -> PathBuf {
    let mut path = reference.as_os_str().to_os_string();
    path.push(".fai");
    PathBuf::from(path)
}

/// Where a sequence lies in the packed reference.
#[derive(Clone, Copy, Debug, PartialEq, Eq)]
pub struct Place {
    pub start: u64,
    pub bases: u64,
}

/// The places of all sequences of a reference, by name.
#[derive(Debug)]
pub struct Sequences(HashMap<Vec<u8>, Place>);

impl Sequences {
    /// Reads the index beside a reference of so many bases.
    pub fn open(reference: &Path, bases: u64) -> Result<Sequences, Failure> {
        let path = index_path(reference);
        let name = path.display().to_string();
        let text = fs::read(&path).map_err(|error| {
            Failure::reading(&name, error)
                .with_remedy("`frubanto reference` writes it beside the reference")
        })?;
        let sequences = Sequences::parse(&name, &text)?;
        let total: u64 = sequences.0.values().map(|place| place.bases).sum();
        if total != bases {
            let reference = reference.display();
            return Err(Failure::Unusable(format!(
                "{name} has {total} bases and {reference} has {bases}: they do not belong together"
            )));
        }
        Ok(sequences)
    }

    fn parse(name: &str, text: &[u8]) -> Result<Sequences, Failure> {
        let (mut places, mut start) = (HashMap::new(), 0u64);
        for (line, text) in (1..).zip(text.split(|&byte| byte == b'\n')) {
            if text.is_empty() {
                continue;
            }
            let mut fields = text.split(|&byte| byte == b'\t');
            let sequence = fields.next().unwrap_or_default().to_vec();
            let bases = fields.next().and_then(number).ok_or_else(|| {
                Failure::at_line(name, line, "this is no name and length of a sequence")
            })?;
            if places.insert(sequence, Place { start, bases }).is_some() {
                return Err(Failure::at_line(name, line, "a sequence of this name stands above"));
            }
            start = start.checked_add(bases).ok_or_else(|| {
                Failure::at_line(name, line, "there is no reference of so many bases")
            })?;
        }
        Ok(Sequences(places))
    }

    /// The place of the sequence of this name.
    pub fn place(&self, name: &[u8]) -> Option<Place> {
        self.0.get(name).copied()
    }
}

/// A number in decimal digits and nothing else.
pub fn number(digits: &[u8]) -> Option<u64> {
    if digits.is_empty() {
        return None;
    }
    digits.iter().try_fold(0u64, |value, digit| {
        let digit = digit.is_ascii_digit().then(|| u64::from(digit - b'0'))?;
        value.checked_mul(10)?.checked_add(digit)
    })
}

#[cfg(test)]
mod tests {
    use super::*;

    #[test]
    fn numbers_are_digits_alone() {
        assert_eq!(number(b"0"), Some(0));
        assert_eq!(number(b"18446744073709551615"), Some(u64::MAX));
        for wrong in [&b""[..], b"18446744073709551616", b"-1", b"+1", b" 1", b"1 ", b"0x1"] {
            assert_eq!(number(wrong), None);
        }
    }

    #[test]
    fn sequences_stand_one_after_the_other() {
        let sequences = Sequences::parse("x", b"a\t5\t3\t5\t6\nb\t0\nc\t7\n").unwrap();
        assert_eq!(sequences.place(b"a"), Some(Place { start: 0, bases: 5 }));
        assert_eq!(sequences.place(b"b"), Some(Place { start: 5, bases: 0 }));
        assert_eq!(sequences.place(b"c"), Some(Place { start: 5, bases: 7 }));
        assert_eq!(sequences.place(b"d"), None);
    }

    #[test]
    fn wrong_lines_are_named() {
        let wrong = |text: &[u8]| match Sequences::parse("x.fai", text) {
            Err(Failure::Unusable(what)) => what,
            other => panic!("{other:?}"),
        };
        assert!(wrong(b"a\t5\nb\n").starts_with("x.fai, line 2: this is no name and length"));
        assert!(wrong(b"a\t5\na\t5\n").starts_with("x.fai, line 2: a sequence of this name"));
        assert!(wrong(b"a\t5\nb\t18446744073709551615\n").starts_with("x.fai, line 2: there is"));
    }
}
