//! `frubanto encode`: SAM into a file of blocks.

use super::{Status, ACCEPTED};
use crate::arguments::EncodeArguments;
use crate::block_file::ReferenceFile;
use crate::failure::{is_stream, Failure, Refused};
use crate::input::Text;
use crate::kinds::Kinds;
use crate::names::NameFault;
use crate::output::Output;
use crate::progress::Progress;
use crate::sam::{make_reads, Batch, SamReader, Tally};
use crate::say;
use crate::sequences::{index_path, Sequences};
use crate::workers::{Job, Workers};
use ora::{Columns, Reads, Reference, Refusal, RefusalKind, Section};
use std::cell::RefCell;
use std::fmt::Write;
use std::io::IsTerminal;
use std::path::Path;
use std::time::{SystemTime, UNIX_EPOCH};

const UNPACK: &str = "SAM text is read, as in `samtools view -h READS.bam | frubanto encode ...`";

/// Of so many blocks it is told why they have no names; of more their number.
const TOLD: u64 = 10;

thread_local! {
    // What a thread makes of a batch, again and again. A batch has up to 17 million letters.
    static READS: RefCell<Reads> = RefCell::new(Reads::new());
}

pub fn run(arguments: &EncodeArguments) -> Result<Status, Failure> {
    if is_stream(&arguments.reads) && std::io::stdin().is_terminal() {
        let what = "no READS.sam is given, and standard input is a terminal (--help says more)";
        return Err(Failure::Unusable(what.to_string()));
    }
    let file = ReferenceFile::open(&arguments.reference.path)?;
    let reference = file.reference()?;
    let sequences = Sequences::open(&arguments.reference.path, reference.bases())?;
    let text = Text::open(&arguments.reads, UNPACK)?;
    let index = index_path(&arguments.reference.path);
    let inputs: [&Path; 3] = [&arguments.reference.path, &index, &arguments.reads];
    let mut output = Output::create(&arguments.output, &inputs)?;
    let name = text.name.clone();
    let summary = encode(arguments, &reference, &sequences, text, &mut output)?;
    output.finish()?;
    say(&(summary.unnamed_in_words(&name) + &summary.in_words(&name)));
    Ok(ACCEPTED)
}

/// A block that is written, and what became of its records.
struct Encoded {
    block: Vec<u8>,
    read: u64,
    summary: Summary,
    unnamed: Option<Unnamed>,
}

/// Why a block is without names that were wanted, and the line of the read that is to blame.
struct Unnamed {
    line: u64,
    fault: NameFault,
}

impl Unnamed {
    /// The reason where names are refused (41); None with any other refusal.
    fn find(batch: &Batch, refusal: Refusal) -> Option<Unnamed> {
        if refusal.kind() != Some(RefusalKind::LentNamesInvalid) {
            return None;
        }
        let fault = NameFault::find(batch.names())?;
        Some(Unnamed { line: batch.line_of(fault.read), fault })
    }

    fn in_words(&self, name: &str, block: u64) -> String {
        let Unnamed { line, fault } = self;
        let read = fault.read;
        format!(
            "frubanto: {name}, line {line}: block {block} is written without names, as that of \
             its read {read} {fault}\n"
        )
    }
}

fn encode(
    arguments: &EncodeArguments,
    reference: &Reference,
    sequences: &Sequences,
    text: Text,
    output: &mut Output,
) -> Result<Summary, Failure> {
    let progress = Progress::new(text.length, output.is_terminal());
    let name = text.name.clone();
    let c_time = arguments.c_time.unwrap_or_else(seconds_now);
    let reads_per_block = arguments.reads_per_block as usize;
    let names = !arguments.no_names;
    let mut reader = SamReader::new(text, sequences, reads_per_block, arguments.skip_long, names);
    let mut b_ids = arguments.b_id..=u64::MAX;
    let kinds = arguments.kinds.then(Kinds::default);
    let mut summary = Summary { kinds, ..Summary::default() };
    let next = || {
        let Some(batch) = reader.next_batch()? else {
            return Ok(None);
        };
        let b_id = b_ids.next().ok_or_else(|| {
            Failure::Unusable(format!("a b_id is at most {}, and there are more blocks", u64::MAX))
        })?;
        Ok(Some(Job { bytes: batch.bytes(), work: (batch, b_id) }))
    };
    let work = |(batch, b_id): (Batch, u64)| {
        READS.with_borrow_mut(|reads| {
            reads.clear();
            encode_block(reference, &batch, &name, reads, (b_id, c_time), arguments)
        })
    };
    let take = |encoded: Encoded| {
        output.write(&encoded.block)?;
        if let Some(unnamed) = encoded.unnamed.filter(|_| summary.unnamed_blocks < TOLD) {
            progress.say(&unnamed.in_words(&name, summary.blocks));
        }
        summary.add(&encoded.summary);
        progress.advance(encoded.read);
        Ok(())
    };
    Workers::new(arguments.threads.number)?.in_order(next, work, take)?;
    summary.tally.add(&reader.tally());
    Ok(summary)
}

fn encode_block(
    reference: &Reference,
    batch: &Batch,
    name: &str,
    reads: &mut Reads,
    (b_id, c_time): (u64, u64),
    arguments: &EncodeArguments,
) -> Result<Encoded, Failure> {
    let mut summary = Summary { blocks: 1, ..Summary::default() };
    make_reads(batch, name, reads, &mut summary.tally)?;
    let refused =
        |refusal| Failure::Refused(Refused { file: name.to_string(), refusal, offset: None });
    let nameless = || encode_nameless(reference, reads, b_id, c_time).map_err(refused);
    let (block, unnamed) = if arguments.no_names {
        (nameless()?, None)
    } else {
        match ora::encode(reference, reads, b_id, c_time) {
            Ok(block) => (block, None),
            Err(refusal) => {
                let unnamed = Unnamed::find(batch, refusal).ok_or_else(|| refused(refusal))?;
                (nameless()?, Some(unnamed))
            }
        }
    };
    if arguments.kinds {
        summary.kinds = Some(Kinds::of(reference, reads).map_err(refused)?);
    }
    summary.reads = reads.len() as u64;
    summary.letters = reads.letters() as u64;
    summary.bytes = block.len() as u64;
    summary.name_bytes = ora::section_span(&block, Section::Names).len() as u64;
    summary.unnamed_blocks = u64::from(unnamed.is_some());
    if unnamed.is_none() && !arguments.no_names {
        summary.named = summary.reads;
    }
    Ok(Encoded { block, read: batch.read, summary, unnamed })
}

/// The block of these reads without their names: each gets a name of one byte, and the names are
/// cut out of the block.
fn encode_nameless(
    reference: &Reference,
    reads: &Reads,
    b_id: u64,
    c_time: u64,
) -> Result<Vec<u8>, Refusal> {
    let names = vec![b'0'; reads.len()];
    let name_ends: Vec<u32> = (1..=reads.len() as u32).collect();
    let columns = Columns { names: &names, name_ends: &name_ends, ..reads.columns() };
    let mut block = vec![0; columns.room()];
    let length = ora::encode_into(reference, &columns, b_id, c_time, &mut block)?;
    Ok(ora::without_names(&block[..length]))
}

/// What a run has done.
#[derive(Default)]
struct Summary {
    blocks: u64,
    bytes: u64,
    name_bytes: u64,
    reads: u64,
    letters: u64,
    // Reads whose names are stored.
    named: u64,
    // Blocks without names that were wanted.
    unnamed_blocks: u64,
    tally: Tally,
    kinds: Option<Kinds>,
}

impl Summary {
    fn add(&mut self, other: &Summary) {
        self.blocks += other.blocks;
        self.bytes += other.bytes;
        self.name_bytes += other.name_bytes;
        self.reads += other.reads;
        self.letters += other.letters;
        self.named += other.named;
        self.unnamed_blocks += other.unnamed_blocks;
        self.tally.add(&other.tally);
        if let (Some(kinds), Some(others)) = (&mut self.kinds, &other.kinds) {
            kinds.add(others);
        }
    }

    /// How many blocks are without names that were wanted, if there are any.
    fn unnamed_in_words(&self, name: &str) -> String {
        let Summary { blocks, reads, named, unnamed_blocks, .. } = self;
        if *unnamed_blocks == 0 {
            return String::new();
        }
        let unnamed = reads - named;
        format!(
            "frubanto: {name}: {unnamed_blocks} of {blocks} blocks, with {unnamed} of {reads} \
             reads, are written without names\n"
        )
    }

    /// The first line says what was written, and each of the others counts something.
    fn in_words(&self, name: &str) -> String {
        let Summary { blocks, bytes, name_bytes, reads, letters, named, tally, kinds, .. } = self;
        let mut text =
            format!("{name}: {reads} reads, {letters} letters, {blocks} blocks, {bytes} bytes");
        if *letters > 0 {
            // Writing to a string cannot fail.
            let _ = write!(text, ", {:.3} bits a base", *bytes as f64 * 8.0 / *letters as f64);
        }
        text.push('\n');
        let mut line = |count: u64, what: &str| {
            let _ = writeln!(text, "{count:>12} {what}");
        };
        line(tally.records, "records");
        line(tally.secondary, "left out: secondary");
        line(tally.supplementary, "left out: supplementary");
        line(tally.without_letters, "left out: without letters");
        line(tally.too_long, "left out: longer than 100000 letters");
        line(*reads, "reads");
        line(tally.placed, "with a place");
        line(tally.unmapped, "without a place: unmapped");
        line(tally.nowhere, "without a place: no sequence, position or aligned letter");
        line(tally.gapped, "without a place: gaps or splices");
        line(tally.clipped_far, "without a place: more than 255 letters clipped at an end");
        line(tally.outside, "without a place: past the end of the sequence");
        line(tally.hard_clipped, "hard-clipped: SEQ has a part of the read");
        line(tally.changed.unknown, "letters stored as N for another one");
        line(tally.changed.uracil, "letters stored as T for U");
        line(*named, "with a name");
        line(reads - named, "without a name");
        line(*name_bytes, "bytes of names");
        if let Some(Kinds { perfect, global, local, raw, too_many_entries }) = kinds {
            line(*perfect, "stored perfect");
            line(*global, "stored global");
            line(*local, "stored local");
            line(*raw, "stored raw");
            line(*too_many_entries, "stored raw with a place: more than 31 entries");
        }
        text
    }
}

fn seconds_now() -> u64 {
    SystemTime::now().duration_since(UNIX_EPOCH).map_or(0, |time| time.as_secs())
}
