//! SAM text, as mappers print it: which records are reads, and what place each proposes.

use crate::cigar::Cigar;
use crate::failure::Failure;
use crate::input::Text;
use crate::letters::{self, Changed};
use crate::sequences::{number, Place, Sequences};
use ora::{Candidate, Reads, Strand, MAX_NAME_LENGTH, MAX_READ_LENGTH};
use std::io::{BufRead, Read};

/// The read's SEQ is that of the other strand.
const REVERSE: u64 = 0x10;
const UNMAPPED: u64 = 0x4;
const SECONDARY: u64 = 0x100;
const SUPPLEMENTARY: u64 = 0x800;

/// A block gets no further read once it has so many letters.
const LETTERS_OF_BLOCK: usize = 1 << 24;

/// What has more bytes without a line end is no SAM text, and is not gathered further.
const LONGEST_LINE: u64 = 1 << 28;

/// What became of the records.
#[derive(Clone, Copy, Debug, Default, PartialEq, Eq)]
pub struct Tally {
    pub records: u64,
    // Left out.
    pub secondary: u64,
    pub supplementary: u64,
    pub without_letters: u64,
    pub too_long: u64,
    // Reads, with a place or without.
    pub placed: u64,
    pub unmapped: u64,
    pub nowhere: u64,
    pub gapped: u64,
    pub clipped_far: u64,
    pub outside: u64,
    // Reads of which SEQ has a part alone.
    pub hard_clipped: u64,
    pub changed: Changed,
}

impl Tally {
    /// Adds another one.
    pub fn add(&mut self, other: &Tally) {
        self.records += other.records;
        self.secondary += other.secondary;
        self.supplementary += other.supplementary;
        self.without_letters += other.without_letters;
        self.too_long += other.too_long;
        self.placed += other.placed;
        self.unmapped += other.unmapped;
        self.nowhere += other.nowhere;
        self.gapped += other.gapped;
        self.clipped_far += other.clipped_far;
        self.outside += other.outside;
        self.hard_clipped += other.hard_clipped;
        self.changed.uracil += other.changed.uracil;
        self.changed.unknown += other.changed.unknown;
    }
}

/// The records of one block: what of them is needed, one after the other.
#[derive(Default)]
pub struct Batch {
    records: Vec<Record>,
    // QNAME, where names are stored, CIGAR and SEQ of each record.
    text: Vec<u8>,
    letters: usize,
    /// Bytes of the file that it was read from.
    pub read: u64,
}

struct Record {
    line: u64,
    reverse: bool,
    location: Location,
    name_end: usize,
    cigar_end: usize,
    seq_end: usize,
}

/// Where the mapper puts a read.
#[derive(Clone, Copy)]
enum Location {
    /// It says that it has not found any place.
    Unmapped,
    /// It names no sequence, no position or no CIGAR, or the CIGAR aligns no letter.
    Nowhere,
    /// This base of a sequence is the lowest.
    At { place: Place, position: u64 },
}

impl Batch {
    /// About how many bytes it takes, with what is made of it.
    pub fn bytes(&self) -> u64 {
        (4 * self.text.len() + 300 * self.records.len()) as u64
    }

    /// The names of its reads, in order.
    pub fn names(&self) -> impl Iterator<Item = &[u8]> {
        let starts = std::iter::once(0).chain(self.records.iter().map(|record| record.seq_end));
        starts.zip(&self.records).map(|(start, record)| &self.text[start..record.name_end])
    }

    /// The line of the file on which this read stands.
    pub fn line_of(&self, read: usize) -> u64 {
        self.records[read].line
    }
}

/// A SAM text that is being read.
pub struct SamReader<'a> {
    text: Text,
    sequences: &'a Sequences,
    reads_of_block: usize,
    // Reads that are too long for the format are left out; otherwise they are a failure.
    skip_long: bool,
    // Names are stored.
    names: bool,
    line: Vec<u8>,
    line_number: u64,
    // The last sequence that was looked up.
    last: Option<(Vec<u8>, Place)>,
    tally: Tally,
}

impl<'a> SamReader<'a> {
    pub fn new(
        text: Text,
        sequences: &'a Sequences,
        reads_of_block: usize,
        skip_long: bool,
        names: bool,
    ) -> SamReader<'a> {
        SamReader {
            text,
            sequences,
            reads_of_block,
            skip_long,
            names,
            line: Vec::new(),
            line_number: 0,
            last: None,
            tally: Tally::default(),
        }
    }

    /// What became of the records so far, but for what is seen when reads are made of them.
    pub fn tally(&self) -> Tally {
        self.tally
    }

    /// The records of the next block; None at the end.
    pub fn next_batch(&mut self) -> Result<Option<Batch>, Failure> {
        let mut batch = Batch::default();
        while batch.records.len() < self.reads_of_block && batch.letters < LETTERS_OF_BLOCK {
            self.line.clear();
            let mut source = self.text.source.by_ref().take(LONGEST_LINE);
            let read = source.read_until(b'\n', &mut self.line);
            let read = read.map_err(|error| Failure::reading(&self.text.name, error))? as u64;
            if read == 0 {
                break;
            }
            batch.read += read;
            self.line_number += 1;
            if read == LONGEST_LINE {
                return Err(self.wrong("the line does not end: this is no SAM text"));
            }
            trim_line_end(&mut self.line);
            if !self.line.is_empty() {
                self.read_line(&mut batch)?;
            }
        }
        Ok((!batch.records.is_empty()).then_some(batch))
    }

    fn read_line(&mut self, batch: &mut Batch) -> Result<(), Failure> {
        if is_header(&self.line) {
            return self.check_header();
        }
        let line = std::mem::take(&mut self.line);
        let result = self.read_record(&line, batch);
        self.line = line;
        result
    }

    /// A sequence that the header names must be as long as that of the reference.
    fn check_header(&self) -> Result<(), Failure> {
        if !self.line.starts_with(b"@SQ\t") {
            return Ok(());
        }
        let field = |tag: &[u8]| {
            self.line.split(|&byte| byte == b'\t').find_map(|field| field.strip_prefix(tag))
        };
        let (Some(name), Some(bases)) = (field(b"SN:"), field(b"LN:").and_then(number)) else {
            return Ok(());
        };
        match self.sequences.place(name) {
            Some(place) if place.bases != bases => Err(self.wrong(format!(
                "{} has {bases} bases here and {} in the reference: the reads were mapped to \
                 another one",
                String::from_utf8_lossy(name),
                place.bases
            ))),
            _ => Ok(()),
        }
    }

    /// Adds a record to the batch, if it is a read.
    fn read_record(&mut self, line: &[u8], batch: &mut Batch) -> Result<(), Failure> {
        let Some([name, flag, sequence, position, _, cigar, _, _, _, seq, _]) = fields(line) else {
            return Err(self.wrong("a SAM record has 11 fields or more, with tabs between them"));
        };
        self.tally.records += 1;
        let flag = number(flag).filter(|&flag| flag <= 0xFFFF).ok_or_else(|| {
            self.wrong(format!(
                "FLAG is `{}`, no number up to 65535",
                String::from_utf8_lossy(flag)
            ))
        })?;
        if flag & SECONDARY != 0 {
            self.tally.secondary += 1;
            return Ok(());
        }
        if flag & SUPPLEMENTARY != 0 {
            self.tally.supplementary += 1;
            return Ok(());
        }
        if seq == b"*" || seq.is_empty() {
            self.tally.without_letters += 1;
            return Ok(());
        }
        if seq.len() > MAX_READ_LENGTH {
            return self.leave_out_long(seq.len());
        }
        let location = self.location(flag, sequence, position, cigar)?;
        if self.names {
            // Of a name that is too long as much as shows that.
            batch.text.extend_from_slice(&name[..name.len().min(MAX_NAME_LENGTH + 1)]);
        }
        let name_end = batch.text.len();
        batch.text.extend_from_slice(cigar);
        let cigar_end = batch.text.len();
        batch.text.extend_from_slice(seq);
        batch.letters += seq.len();
        let (line, reverse, seq_end) = (self.line_number, flag & REVERSE != 0, batch.text.len());
        batch.records.push(Record { line, reverse, location, name_end, cigar_end, seq_end });
        Ok(())
    }

    fn leave_out_long(&mut self, letters: usize) -> Result<(), Failure> {
        if !self.skip_long {
            return Err(self.wrong(format!(
                "the read has {letters} letters and the format stores up to {MAX_READ_LENGTH}; \
                 --skip-long leaves such reads out"
            )));
        }
        self.tally.too_long += 1;
        Ok(())
    }

    fn location(
        &mut self,
        flag: u64,
        name: &[u8],
        position: &[u8],
        cigar: &[u8],
    ) -> Result<Location, Failure> {
        if flag & UNMAPPED != 0 {
            return Ok(Location::Unmapped);
        }
        let position = number(position).ok_or_else(|| {
            self.wrong(format!("POS is `{}`, no number", String::from_utf8_lossy(position)))
        })?;
        // Positions count from 1.
        match position.checked_sub(1) {
            Some(position) if name != b"*" && cigar != b"*" => {
                Ok(Location::At { place: self.place(name)?, position })
            }
            _ => Ok(Location::Nowhere),
        }
    }

    fn place(&mut self, name: &[u8]) -> Result<Place, Failure> {
        match &self.last {
            Some((last, place)) if last == name => return Ok(*place),
            _ => {}
        }
        let place = self.sequences.place(name).ok_or_else(|| {
            self.wrong(format!("the reference has no sequence `{}`", String::from_utf8_lossy(name)))
        })?;
        self.last = Some((name.to_vec(), place));
        Ok(place)
    }

    fn wrong(&self, what: impl std::fmt::Display) -> Failure {
        Failure::at_line(&self.text.name, self.line_number, what)
    }
}

fn trim_line_end(line: &mut Vec<u8>) {
    if line.last() == Some(&b'\n') {
        line.pop();
    }
    if line.last() == Some(&b'\r') {
        line.pop();
    }
}

/// Whether a line is one of a header: `@`, two letters and a tab. It is a record of a read whose
/// name has this form if a number, its FLAG, follows, which only a comment (@CO) may have there.
fn is_header(line: &[u8]) -> bool {
    let [b'@', first, second, rest @ ..] = line else {
        return false;
    };
    let follows = match rest {
        [] => true,
        [b'\t', rest @ ..] => {
            let field = rest.split(|&byte| byte == b'\t').next().unwrap_or_default();
            [*first, *second] == *b"CO" || number(field).is_none()
        }
        _ => false,
    };
    first.is_ascii_alphabetic() && second.is_ascii_alphabetic() && follows
}

/// The eleven fields that every record has; the last is given with what follows it.
fn fields(line: &[u8]) -> Option<[&[u8]; 11]> {
    let mut fields = [&line[..0]; 11];
    let mut rest = line;
    for field in &mut fields[..10] {
        let end = rest.iter().position(|&byte| byte == b'\t')?;
        (*field, rest) = (&rest[..end], &rest[end + 1..]);
    }
    fields[10] = rest;
    Some(fields)
}

/// Makes reads of the records of a batch: the names, the letters as they were printed, and the
/// places.
pub fn make_reads(
    batch: &Batch,
    file: &str,
    reads: &mut Reads,
    tally: &mut Tally,
) -> Result<(), Failure> {
    let (mut letters, mut start) = (Vec::new(), 0);
    for record in &batch.records {
        let wrong = |what: String| Failure::at_line(file, record.line, what);
        let name = &batch.text[start..record.name_end];
        let cigar = &batch.text[record.name_end..record.cigar_end];
        let seq = &batch.text[record.cigar_end..record.seq_end];
        start = record.seq_end;
        letters::store(seq, &mut letters, &mut tally.changed).map_err(|byte| {
            wrong(format!("SEQ holds `{}`, which is no letter", byte.escape_ascii()))
        })?;
        if record.reverse {
            letters::turn(&mut letters);
        }
        let candidate = propose(record, cigar, seq.len(), tally).map_err(wrong)?;
        reads.push(name, &letters, candidate);
    }
    Ok(())
}

/// The place that a record proposes.
fn propose(
    record: &Record,
    text: &[u8],
    letters: usize,
    tally: &mut Tally,
) -> Result<Candidate, String> {
    let none = |count: &mut u64| {
        *count += 1;
        Ok(Candidate::NONE)
    };
    let (place, position) = match record.location {
        Location::Unmapped => return none(&mut tally.unmapped),
        Location::Nowhere => return none(&mut tally.nowhere),
        Location::At { place, position } => (place, position),
    };
    let shown = || String::from_utf8_lossy(text);
    let Some(cigar) = Cigar::parse(text) else {
        return Err(format!("the CIGAR `{}` is malformed", shown()));
    };
    if cigar.letters != letters as u64 {
        let said = cigar.letters;
        return Err(format!("the CIGAR `{}` has {said} letters and SEQ has {letters}", shown()));
    }
    tally.hard_clipped += u64::from(cigar.hard);
    if cigar.aligned == 0 {
        return none(&mut tally.nowhere);
    }
    if cigar.gaps {
        return none(&mut tally.gapped);
    }
    // Left and right are of the read as it was printed.
    let (left, right) =
        if record.reverse { (cigar.back, cigar.front) } else { (cigar.front, cigar.back) };
    let (Ok(left), Ok(right)) = (u8::try_from(left), u8::try_from(right)) else {
        return none(&mut tally.clipped_far);
    };
    let inside = position.checked_add(cigar.aligned).is_some_and(|end| end <= place.bases);
    let lowest = u32::try_from(place.start.saturating_add(position)).ok();
    let Some(lowest) = lowest.filter(|_| inside) else {
        return none(&mut tally.outside);
    };
    tally.placed += 1;
    let strand = Some(if record.reverse { Strand::Reverse } else { Strand::Forward });
    Ok(Candidate { position: lowest, strand, left, right })
}

#[cfg(test)]
mod tests {
    use super::*;

    #[test]
    fn header_lines() {
        for line in ["@HD\tVN:1.6", "@SQ\tSN:a\tLN:5", "@CO", "@CO\tfree text", "@CO\t7"] {
            assert!(is_header(line.as_bytes()), "{line}");
        }
        for line in ["@", "@AB\t4\t*\t0", "@read1\t4\t*", "@12\t4\t*", "read\t4\t*", ""] {
            assert!(!is_header(line.as_bytes()), "{line}");
        }
    }

    #[test]
    fn eleven_fields() {
        let line = b"n\t0\tc\t1\t60\t4M\t*\t0\t0\tACGT\t*\tNM:i:0";
        let fields = fields(line).unwrap();
        assert_eq!(
            (fields[0], fields[9], fields[10]),
            (&b"n"[..], &b"ACGT"[..], &b"*\tNM:i:0"[..])
        );
        assert!(super::fields(b"n\t0\tc\t1\t60\t4M\t*\t0\t0\tACGT").is_none());
        assert!(super::fields(b"").is_none());
    }

    #[test]
    fn line_ends() {
        for text in ["ab\n", "ab\r\n", "ab", "ab\r"] {
            let mut line = text.as_bytes().to_vec();
            trim_line_end(&mut line);
            assert_eq!(line, b"ab");
        }
    }
}
