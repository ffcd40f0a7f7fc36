//! 02, Ticket 1: the names section of a block with flag 0x8. "Token count (4
//! bytes), a type byte each, a size of 8 bytes each, then the token sets."
//! Number 40, always with read index 0. The split of a name stands here; the
//! writer uses it too.

use crate::refusal::{Refusal, NAMES_SECTION_INVALID};

/// "Names are 1 to 255 printable ASCII bytes (32 to 126)".
pub const MAX_NAME: usize = 255;
const FIRST_PRINTABLE: u8 = 32;
const LAST_PRINTABLE: u8 = 126;

/// 40: "sum above 999,999,999,999,999,999".
pub const MAX_NUMBER: u64 = 999_999_999_999_999_999;

/// 000's token types, in the range 0 to 5: "string, numeric, numeric_incr,
/// numeric_incr16, numeric_incr8, numeric_incr32". "Types 1 and 2 are
/// refused".
pub const STRINGS: u8 = 0;
pub const STEPS_16: u8 = 3;
pub const STEPS_8: u8 = 4;
pub const STEPS_32: u8 = 5;

/// The start of a rising set: "a signed number of 64 bits".
pub const START_BYTES: usize = 8;

/// One token for each read, in the reads' order.
type Column = Vec<Vec<u8>>;

/// The names of a block with flag 0x8, in the reads' order.
pub fn read_names(section: &[u8], reads: usize) -> Result<Vec<Vec<u8>>, Refusal> {
    names_of(section, reads).ok_or(Refusal::of_block(NAMES_SECTION_INVALID))
}

/// None where 02 refuses.
fn names_of(section: &[u8], reads: usize) -> Option<Vec<Vec<u8>>> {
    // "no reads means an empty body"
    if reads == 0 {
        return section.is_empty().then(Vec::new);
    }
    let columns = read_columns(section, reads)?;
    (0..reads).map(|read| read_row(&columns, read)).collect()
}

/// A row's tokens, joined, are the name. Refused are "sets that aren't the
/// split of their names".
fn read_row(columns: &[Column], read: usize) -> Option<Vec<u8>> {
    let row: Vec<&[u8]> = columns.iter().map(|column| column[read].as_slice()).collect();
    let name = row.concat();
    (is_name(&name) && split(&name) == row).then_some(name)
}

pub fn is_name(name: &[u8]) -> bool {
    let printable = |byte: &u8| (FIRST_PRINTABLE..=LAST_PRINTABLE).contains(byte);
    (1..=MAX_NAME).contains(&name.len()) && name.iter().all(printable)
}

/// "A name splits where digits meet other characters, so a stretch of digits
/// is followed by a stretch of others, each handing over to the other until
/// the name ends."
pub fn split(name: &[u8]) -> Vec<&[u8]> {
    name.chunk_by(|before, after| before.is_ascii_digit() == after.is_ascii_digit()).collect()
}

/// The token count, the types, the sizes, the sets, and nothing after them.
fn read_columns(section: &[u8], reads: usize) -> Option<Vec<Column>> {
    let mut rest = section;
    let count = u32::from_le_bytes(take(&mut rest, 4)?.try_into().unwrap()) as u64;
    let types = take(&mut rest, count)?;
    let sizes = take(&mut rest, 8 * count)?;
    let mut columns = Vec::new();
    for (&kind, size) in types.iter().zip(sizes.chunks(8)) {
        let size = u64::from_le_bytes(size.try_into().unwrap());
        columns.push(read_column(kind, take(&mut rest, size)?, reads)?);
    }
    rest.is_empty().then_some(columns)
}

fn take<'a>(rest: &mut &'a [u8], count: u64) -> Option<&'a [u8]> {
    let count = usize::try_from(count).ok()?;
    let (taken, after) = rest.split_at_checked(count)?;
    *rest = after;
    Some(taken)
}

fn read_column(kind: u8, set: &[u8], reads: usize) -> Option<Column> {
    match kind {
        STRINGS => read_strings(set, reads),
        STEPS_8 => read_numbers(set, reads, 1),
        STEPS_16 => read_numbers(set, reads, 2),
        STEPS_32 => read_numbers(set, reads, 4),
        _ => None,
    }
}

/// "000 doesn't part strings; ours end in a zero byte each."
fn read_strings(set: &[u8], reads: usize) -> Option<Column> {
    let mut tokens: Column = set.split(|&byte| byte == 0).map(|token| token.to_vec()).collect();
    // Nothing follows the last zero byte.
    let after = tokens.pop()?;
    (after.is_empty() && tokens.len() == reads).then_some(tokens)
}

/// "A rising set starts with a signed number of 64 bits, then unsigned steps
/// of 8, 16 or 32 bits." There is one step fewer than there are reads.
fn read_numbers(set: &[u8], reads: usize, width: usize) -> Option<Column> {
    let (start, steps) = set.split_at_checked(START_BYTES)?;
    if steps.len() != (reads - 1) * width {
        return None;
    }
    // 40: "negative start".
    let mut number = u64::try_from(i64::from_le_bytes(start.try_into().unwrap())).ok()?;
    let mut tokens = vec![number_token(number)?];
    for step in steps.chunks(width) {
        number += step.iter().rev().fold(0, |value, &byte| 256 * value + byte as u64);
        tokens.push(number_token(number)?);
    }
    Some(tokens)
}

/// 000: "Digit tokens are binarized". Decimal, without leading zeros.
fn number_token(number: u64) -> Option<Vec<u8>> {
    (number <= MAX_NUMBER).then(|| number.to_string().into_bytes())
}
