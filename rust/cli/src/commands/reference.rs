//! `frubanto reference`: FASTA into a reference file and its index.

use super::{Status, ACCEPTED};
use crate::arguments::ReferenceArguments;
use crate::failure::Failure;
use crate::fasta::{Fasta, Packing};
use crate::input::Text;
use crate::output::Output;
use crate::progress::Progress;
use crate::say;
use crate::sequences::index_path;

const UNPACK: &str = "unpack it, as in `gzip -dc GENOME.fa.gz | frubanto reference - -o REFERENCE`";

pub fn run(arguments: &ReferenceArguments) -> Result<Status, Failure> {
    let mut text = Text::open(&arguments.genome, UNPACK)?;
    let mut output = Output::create(&arguments.output, &[&arguments.genome])?;
    if !output.is_file() {
        let what = "a reference is written to a file alone, as its index stands beside it";
        return Err(Failure::Unusable(what.to_string()));
    }
    let mut index = Output::create(&index_path(&arguments.output), &[&arguments.genome])?;
    let packing = pack(&mut text, &mut output)?;
    for sequence in &packing.sequences {
        index.write(&sequence.index_line())?;
    }
    index.finish()?;
    output.finish()?;
    let Packing { sequences, bases, others } = packing;
    let (name, count) = (&text.name, sequences.len());
    say(&format!(
        "{name}: {count} sequences, {bases} bases, \
         {others} of them stored as A for another letter\n"
    ));
    Ok(ACCEPTED)
}

/// Writes the number of bases in 8 bytes, and the bases.
fn pack(text: &mut Text, output: &mut Output) -> Result<Packing, Failure> {
    let progress = Progress::new(text.length, false);
    let mut fasta = Fasta::new(&text.name);
    // The number is known at the end.
    output.write(&0u64.to_le_bytes())?;
    loop {
        let piece = text.source.fill_buf().map_err(|error| Failure::reading(&text.name, error))?;
        let read = piece.len();
        if read == 0 {
            break;
        }
        fasta.read(piece)?;
        text.source.consume(read);
        progress.advance(read as u64);
        output.write(&fasta.packed.bytes)?;
        fasta.packed.bytes.clear();
    }
    let packing = fasta.finish()?;
    output.write(&fasta.packed.bytes)?;
    output.rewrite_start(&packing.bases.to_le_bytes())?;
    Ok(packing)
}
