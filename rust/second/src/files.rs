//! 01, "Numbers of refusal": files. "A file is judged block by block with 1
//! to 21 and stops at the first refusal, adding the block's index; the empty
//! file is accepted unless the reference earns 1." 02, Ticket 1: "Judging
//! covers names too", with 40; Ticket 4: a fifth count, "file sums included".

use crate::blocks::read_block;
use crate::reference::Reference;
use crate::refusal::*;

pub fn validate(reference_bases: u64, reference: &[u8], file: &[u8]) -> Outcome {
    judge(reference_bases, reference, file).unwrap_or_else(|refusal| refusal.into())
}

fn judge(reference_bases: u64, reference: &[u8], file: &[u8]) -> Result<Outcome, Refusal> {
    let reference = Reference::new(reference_bases, reference)?;
    let mut sums = Outcome::default();
    let mut rest = file;
    while !rest.is_empty() {
        let block =
            read_block(&reference, rest).map_err(|refusal| refusal.in_block(sums.blocks))?;
        sums = with_block(sums, block.outcome(&reference));
        // "Such a file is cut where a block ends."
        rest = &rest[block.length as usize..];
    }
    Ok(sums)
}

/// "Acceptance gives the number of blocks and each count's sum modulo 2^64."
pub fn with_block(sums: Outcome, counts: Outcome) -> Outcome {
    Outcome {
        blocks: sums.blocks + 1,
        reads: sums.reads.wrapping_add(counts.reads),
        letters: sums.letters.wrapping_add(counts.letters),
        entries: sums.entries.wrapping_add(counts.entries),
        differences: sums.differences.wrapping_add(counts.differences),
        top: sums.top.wrapping_add(counts.top),
        ..sums
    }
}
