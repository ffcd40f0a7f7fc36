//! 01, "Sums done by hand": the listing program's text. The reference file is
//! "G in 8 bytes, then its bytes; 32 KiB in all at most; one under 8 bytes
//! gets 1"; blocks are "each up to 32 KiB", and it "lends 32,768 letters and
//! 4,096 ends". "A block line starts with b_id; a refusal prints `refused`,
//! number, block index and read index as its last line." 02, Ticket 1: it
//! "lends 32,768 name bytes and 4,096 name ends and prints no names"; Ticket 4:
//! the "block line ends with `top` and the number".

use crate::blocks::decode;
use crate::header::block_id;
use crate::reference::Reference;
use crate::refusal::*;

/// 32 KiB.
pub const MAX_REFERENCE_FILE: usize = 32_768;
/// A block is read with so many bytes as its input, or what is left.
pub const WINDOW: usize = 32_768;
pub const LETTERS_LENT: usize = 32_768;
pub const ENDS_LENT: usize = 4_096;
pub const NAME_BYTES_LENT: usize = 32_768;
pub const NAME_ENDS_LENT: usize = 4_096;

pub fn listing(reference_file: &[u8], file: &[u8]) -> String {
    let mut text = String::new();
    if let Err(refusal) = list(reference_file, file, &mut text) {
        let Refusal { number, block, read } = refusal;
        text.push_str(&format!("refused {number} {block} {read}\n"));
    }
    text
}

fn list(reference_file: &[u8], file: &[u8], text: &mut String) -> Result<(), Refusal> {
    if reference_file.len() < 8 || reference_file.len() > MAX_REFERENCE_FILE {
        return Err(Refusal::of_block(REFERENCE_SIZE_WRONG));
    }
    let (bases, bytes) = reference_file.split_at(8);
    let bases = u64::from_le_bytes(bases.try_into().unwrap());
    Reference::new(bases, bytes)?;

    let mut rest = file;
    let mut blocks = 0;
    while !rest.is_empty() {
        let window = &rest[..rest.len().min(WINDOW)];
        let mut letters = vec![0; LETTERS_LENT];
        let mut ends = vec![0; ENDS_LENT];
        let mut names = vec![0; NAME_BYTES_LENT];
        let mut name_ends = vec![0; NAME_ENDS_LENT];
        let outcome =
            decode(bases, bytes, window, &mut letters, &mut ends, &mut names, &mut name_ends);
        if outcome.number != 0 {
            return Err(Refusal::at_read(outcome.number, outcome.read).in_block(blocks));
        }
        list_block(&outcome, block_id(window), &letters, &ends, text);
        rest = &rest[outcome.length as usize..];
        blocks += 1;
    }
    text.push_str(&format!("end blocks {blocks}\n"));
    Ok(())
}

fn list_block(outcome: &Outcome, b_id: u64, letters: &[u8], ends: &[u32], text: &mut String) {
    let Outcome { reads, letters: count, entries, differences, top, .. } = outcome;
    text.push_str(&format!("block {b_id} reads {reads} letters {count} entries {entries} "));
    text.push_str(&format!("differences {differences} top {top}\n"));
    let mut start = 0;
    for &end in &ends[..*reads as usize] {
        let read = &letters[start..end as usize];
        text.push_str(std::str::from_utf8(read).unwrap());
        text.push('\n');
        start = end as usize;
    }
}
