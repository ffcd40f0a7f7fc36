//! 02, Ticket 1: the writer's half of the names. Number 41, "names or ends
//! that break this or aren't one a read", and the names section.

use crate::names::*;
use crate::refusal::{Refusal, NAMES_INVALID};

/// The most digits of a number: "more than 18 digits" are written as strings.
const MAX_DIGITS: usize = 18;

/// A name as its tokens.
pub type Row<'a> = Vec<&'a [u8]>;

/// 41. The rows are the splits of the names.
pub fn check_names<'a>(
    names: &'a [u8],
    name_ends: &[u32],
    reads: usize,
) -> Result<Vec<Row<'a>>, Refusal> {
    rows_of(names, name_ends, reads).ok_or(Refusal::of_block(NAMES_INVALID))
}

fn rows_of<'a>(names: &'a [u8], name_ends: &[u32], reads: usize) -> Option<Vec<Row<'a>>> {
    // "aren't one a read"
    if name_ends.len() != reads {
        return None;
    }
    // "Names are 1 to 255 printable ASCII bytes": their ends rise by as much.
    let mut rows: Vec<Row> = Vec::new();
    let mut start = 0;
    for &end in name_ends {
        let name = names.get(start..end as usize).filter(|name| is_name(name))?;
        rows.push(split(name));
        start = end as usize;
    }
    // The last end is the names' byte count, 0 if there are no reads.
    if start != names.len() {
        return None;
    }
    // "with one token count"
    let alike = rows.windows(2).all(|pair| pair[0].len() == pair[1].len());
    alike.then_some(rows)
}

/// The names section: "no reads means an empty body".
pub fn write_names(rows: &[Row]) -> Vec<u8> {
    let Some(first) = rows.first() else { return Vec::new() };
    let count = first.len();
    let columns: Vec<(u8, Vec<u8>)> = (0..count)
        .map(|token| write_column(&rows.iter().map(|row| row[token]).collect::<Vec<&[u8]>>()))
        .collect();
    let mut section = (count as u32).to_le_bytes().to_vec();
    section.extend(columns.iter().map(|(kind, _)| kind));
    section.extend(columns.iter().flat_map(|(_, set)| (set.len() as u64).to_le_bytes()));
    section.extend(columns.iter().flat_map(|(_, set)| set));
    section
}

/// Type and set of a column. "The writer takes the narrowest width that holds
/// every step".
fn write_column(tokens: &[&[u8]]) -> (u8, Vec<u8>) {
    let Some((start, steps)) = rising(tokens) else {
        return (STRINGS, tokens.iter().flat_map(|token| [token, &[0][..]].concat()).collect());
    };
    let (kind, width) = match steps.iter().max() {
        Some(&widest) if widest > 0xFFFF => (STEPS_32, 4),
        Some(&widest) if widest > 0xFF => (STEPS_16, 2),
        _ => (STEPS_8, 1),
    };
    let mut set = (start as i64).to_le_bytes().to_vec();
    set.extend(steps.iter().flat_map(|step| step.to_le_bytes().into_iter().take(width)));
    (kind, set)
}

/// The start and the steps of a column, or None: "a column with a non-digit,
/// a leading zero before another digit, more than 18 digits, or a step that
/// falls or exceeds 32 bits is written as strings".
fn rising(tokens: &[&[u8]]) -> Option<(u64, Vec<u32>)> {
    let numbers: Vec<u64> =
        tokens.iter().map(|token| number_of(token)).collect::<Option<Vec<u64>>>()?;
    let step = |pair: &[u64]| u32::try_from(pair[1].checked_sub(pair[0])?).ok();
    let steps = numbers.windows(2).map(step).collect::<Option<Vec<u32>>>()?;
    Some((numbers[0], steps))
}

fn number_of(token: &[u8]) -> Option<u64> {
    let leading_zero = token.len() > 1 && token[0] == b'0';
    let digits = token.iter().all(|byte| byte.is_ascii_digit());
    if leading_zero || !digits || token.len() > MAX_DIGITS {
        return None;
    }
    Some(token.iter().fold(0, |number, &digit| 10 * number + (digit - b'0') as u64))
}
