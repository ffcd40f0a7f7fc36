//! The subcommands, and what several of them do.

pub mod blocks;
pub mod decode;
pub mod encode;
pub mod list;
pub mod reference;
pub mod validate;

use crate::block_file::{FileBlock, Walk};
use crate::failure::Failure;
use crate::header::{names_at_most, Header};
use crate::input::InputFile;
use crate::output::Output;
use crate::progress::Progress;
use crate::workers::{Job, Workers};
use ora::{Decoded, Reference};
use std::cell::RefCell;
use std::sync::Mutex;

/// An exit status.
pub type Status = u8;
pub const ACCEPTED: Status = 0;
pub const REFUSED: Status = 1;
pub const UNUSABLE: Status = 2;

/// What has more bytes is given back once its block is done with, and not kept for the next one: so
/// a few large blocks do not take memory in every thread. It has room for any block of `encode`.
const KEPT: usize = 1 << 25;

thread_local! {
    // What a thread decodes into, again and again.
    static DECODED: RefCell<Decoded> = RefCell::new(Decoded::new());
}

/// A block as text.
struct Printed {
    text: Vec<u8>,
    bytes: u64,
}

/// Writes what `print` makes of each block, in order, up to the first block that is refused. Gives
/// the number of blocks.
fn print_blocks(
    file: &InputFile,
    reference: &Reference,
    workers: &Workers,
    output: &mut Output,
    print: impl Fn(&FileBlock, &Decoded, &mut Vec<u8>) + Sync,
) -> Result<u64, Failure> {
    let progress = Progress::new(Some(file.length), output.is_terminal());
    let mut walk = Walk::new(file)?;
    let mut blocks = 0;
    // Texts that are written, to be filled again.
    let spare = Mutex::new(Vec::new());
    let next = || {
        let block = walk.next_block()?;
        Ok(block.map(|block| Job { bytes: bytes_when_printed(block.bytes()), work: block }))
    };
    let work = |block: FileBlock| {
        let mut text: Vec<u8> =
            spare.lock().ok().and_then(|mut spare| spare.pop()).unwrap_or_default();
        DECODED.with_borrow_mut(|decoded| {
            let judged = decoded.decode(reference, block.bytes());
            judged.map_err(|refusal| block.refused(file, refusal))?;
            text.clear();
            print(&block, decoded, &mut text);
            if decoded.letters().len() > KEPT {
                *decoded = Decoded::new();
            }
            Ok(Printed { text, bytes: block.bytes().len() as u64 })
        })
    };
    let take = |printed: Printed| {
        output.write(&printed.text)?;
        if printed.text.capacity() <= KEPT {
            if let Ok(mut spare) = spare.lock() {
                spare.push(printed.text);
            }
        }
        progress.advance(printed.bytes);
        blocks += 1;
        Ok(())
    };
    workers.in_order(next, work, take)?;
    Ok(blocks)
}

/// What a command gives when the last of its output is written, or is not. A pipe that is closed by
/// then does not hide what was found before.
fn concluded<T>(found: Result<T, Failure>, written: Result<(), Failure>) -> Result<T, Failure> {
    match (found, written) {
        (found, Ok(())) | (found @ Err(_), Err(Failure::ClosedPipe)) => found,
        (_, Err(failure)) => Err(failure),
    }
}

/// About how many bytes a block takes with its letters and names and their text.
fn bytes_when_printed(block: &[u8]) -> u64 {
    let header = Header::of(block);
    let letters_and_names = u64::from(header.l_dna_raw) + names_at_most(block);
    block.len() as u64 + 2 * letters_and_names + 24 * u64::from(header.n_reads)
}

/// Adds each read on a line of its own.
fn print_reads(decoded: &Decoded, text: &mut Vec<u8>) {
    text.reserve(decoded.letters().len() + decoded.len());
    for read in decoded.iter() {
        text.extend_from_slice(read);
        text.push(b'\n');
    }
}
