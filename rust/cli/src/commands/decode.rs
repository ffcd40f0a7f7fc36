//! `frubanto decode`: the letters of a file of blocks, and the names.

use super::{concluded, print_blocks, print_reads, Status, ACCEPTED};
use crate::arguments::DecodeArguments;
use crate::block_file::{FileBlock, ReferenceFile};
use crate::failure::Failure;
use crate::input::InputFile;
use crate::output::Output;
use crate::workers::Workers;
use ora::Decoded;

pub fn run(arguments: &DecodeArguments) -> Result<Status, Failure> {
    let reference = ReferenceFile::open(&arguments.reference.path)?;
    let reference = reference.reference()?;
    let file = InputFile::open(&arguments.blocks)?;
    let mut output =
        Output::create(&arguments.output, &[&arguments.reference.path, &arguments.blocks])?;
    let workers = Workers::new(arguments.threads.number)?;
    let print = |block: &FileBlock, decoded: &Decoded, text: &mut Vec<u8>| {
        if arguments.fasta {
            print_named(&FASTA, block.index, decoded, text);
        } else if arguments.names {
            print_named(&TABLE, block.index, decoded, text);
        } else {
            print_reads(decoded, text);
        }
    };
    let printed = print_blocks(&file, &reference, &workers, &mut output, print);
    let written = match printed {
        Ok(_) => output.finish(),
        // What stands before the refused block is there for whoever reads it.
        Err(Failure::Refused(_)) => output.flush(),
        Err(_) => Ok(()),
    };
    concluded(printed, written).map(|_| ACCEPTED)
}

/// What stands before a name, and between it and the letters.
struct Form {
    before: &'static [u8],
    between: u8,
}

const FASTA: Form = Form { before: b">", between: b'\n' };
const TABLE: Form = Form { before: b"", between: b'\t' };

impl Form {
    fn print(&self, name: &[u8], read: &[u8], text: &mut Vec<u8>) {
        text.extend_from_slice(self.before);
        text.extend_from_slice(name);
        text.push(self.between);
        text.extend_from_slice(read);
        text.push(b'\n');
    }

    /// How many bytes it takes with a name of none and no letters.
    fn len(&self) -> usize {
        self.before.len() + 2
    }
}

/// Adds each read with its name; in a block without names that is the index of the block, a dot and
/// the index of the read.
fn print_named(form: &Form, block: u64, decoded: &Decoded, text: &mut Vec<u8>) {
    let room = decoded.letters().len() + form.len() * decoded.len();
    if let Some(names) = decoded.names() {
        text.reserve(room + names.bytes().len());
        for (name, read) in names.iter().zip(decoded.iter()) {
            form.print(name, read, text);
        }
        return;
    }
    let mut name = format!("{block}.").into_bytes();
    let start = name.len();
    text.reserve(room + (start + decoded.len().to_string().len()) * decoded.len());
    name.push(b'0');
    for read in decoded.iter() {
        form.print(&name, read, text);
        count_up(&mut name, start);
    }
}

/// Makes the decimal digits from `start` on the next number.
fn count_up(name: &mut Vec<u8>, start: usize) {
    for digit in name[start..].iter_mut().rev() {
        if *digit < b'9' {
            *digit += 1;
            return;
        }
        *digit = b'0';
    }
    name.insert(start, b'1');
}

#[cfg(test)]
mod tests {
    use super::*;

    #[test]
    fn digits_count_up() {
        let mut name = b"9.0".to_vec();
        for number in 0..12_345 {
            assert_eq!(name, format!("9.{number}").as_bytes());
            count_up(&mut name, 2);
        }
    }
}
