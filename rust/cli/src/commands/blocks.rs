//! `frubanto blocks`: a table of the blocks of a file.

use super::{concluded, Status, ACCEPTED};
use crate::arguments::BlocksArguments;
use crate::block_file::{FileBlock, Walk};
use crate::failure::Failure;
use crate::header::Header;
use crate::input::InputFile;
use crate::output::Output;
use ora::{block_id, section_span, Section};

pub fn run(arguments: &BlocksArguments) -> Result<Status, Failure> {
    let file = InputFile::open(&arguments.blocks)?;
    let mut output = Output::standard()?;
    output.write(heading().as_bytes())?;
    let printed = print_rows(&file, &mut output);
    concluded(printed, output.finish()).map(|()| ACCEPTED)
}

fn print_rows(file: &InputFile, output: &mut Output) -> Result<(), Failure> {
    let mut walk = Walk::new(file)?;
    while let Some(block) = walk.next_block()? {
        output.write(row(&block).as_bytes())?;
    }
    Ok(())
}

/// The columns: their names, and how wide they are at least.
const COLUMNS: [(&str, usize); 16] = [
    ("index", 6),
    ("offset", 12),
    ("length", 9),
    ("b_id", 6),
    ("reads", 6),
    ("version", 7),
    ("flags", 6),
    ("dna", 9),
    ("names", 9),
    ("qualN", 7),
    ("qual", 9),
    ("size", 7),
    ("N", 6),
    ("m1", 4),
    ("m2", 4),
    ("m3", 4),
];

fn heading() -> String {
    line(COLUMNS.map(|(name, _)| name.to_string()))
}

fn row(block: &FileBlock) -> String {
    let bytes = block.bytes();
    let Header { flags, n_reads, version, .. } = Header::of(bytes);
    let fields = [block.index, block.offset, bytes.len() as u64, block_id(bytes)];
    let mut cells: Vec<String> = fields.iter().map(u64::to_string).collect();
    cells.extend([n_reads.to_string(), version.to_string(), format!("{flags:#x}")]);
    cells.extend(Section::ALL.map(|section| section_span(bytes, section).len().to_string()));
    line(std::array::from_fn(|column| std::mem::take(&mut cells[column])))
}

/// The cells, each at the right of its column and with a space between them.
fn line(cells: [String; 16]) -> String {
    let cells = cells.iter().zip(COLUMNS).map(|(cell, (_, width))| format!("{cell:>width$}"));
    cells.collect::<Vec<_>>().join(" ") + "\n"
}
