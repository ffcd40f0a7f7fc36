//! `frubanto list`: the text of the listing program.

use super::{concluded, print_blocks, print_reads, Status, ACCEPTED};
use crate::arguments::ListArguments;
use crate::block_file::{FileBlock, ReferenceFile};
use crate::failure::Failure;
use crate::input::InputFile;
use crate::output::Output;
use crate::workers::Workers;
use ora::{block_id, Counts, Decoded};

pub fn run(arguments: &ListArguments) -> Result<Status, Failure> {
    let reference = ReferenceFile::open(&arguments.reference.path)?;
    let file = InputFile::open(&arguments.blocks)?;
    let mut output = Output::standard()?;
    let workers = Workers::new(arguments.threads.number)?;
    let listed = reference
        .reference()
        .and_then(|reference| print_blocks(&file, &reference, &workers, &mut output, print_block));
    let last = match &listed {
        Ok(blocks) => format!("end blocks {blocks}\n"),
        Err(Failure::Refused(refused)) => {
            let ora::Refusal { number, block, read } = refused.refusal;
            format!("refused {number} {block} {read}\n")
        }
        Err(_) => String::new(),
    };
    let written = output.write(last.as_bytes()).and_then(|()| output.finish());
    concluded(listed, written).map(|_| ACCEPTED)
}

fn print_block(block: &FileBlock, decoded: &Decoded, text: &mut Vec<u8>) {
    let Counts { reads, letters, entries, differences, top, .. } = decoded.summary().counts;
    let b_id = block_id(block.bytes());
    let line = format!(
        "block {b_id} reads {reads} letters {letters} entries {entries} \
         differences {differences} top {top}\n"
    );
    text.extend_from_slice(line.as_bytes());
    print_reads(decoded, text);
}
