//! Faults of names, by many different ways: 40 in a names section, 41 in the
//! names given to the encoder. Each is a fault for certain, whatever else the
//! names are, so that nobody has to be asked.

use crate::generator::Plan;
use crate::name_plans::{digits, others, ColumnPlan, NamesPlan};
use crate::prng::Prng;
use crate::proposals::EncodeCall;

/// Puts the fault into a section of one read or more, or answers None where
/// the section has no place for it.
type SectionFault = fn(&mut NamesPlan, &mut Prng) -> Option<()>;

pub const SECTION_FAULTS: &[(&str, SectionFault)] = &[
    ("token count 0", token_count_zero),
    ("token count one more", token_count_more),
    ("token count one less", token_count_less),
    ("token count above 255", token_count_huge),
    ("type", wrong_type),
    ("type of another width", other_width),
    ("strings as numbers", strings_as_numbers),
    ("numbers as strings", numbers_as_strings),
    ("one size", one_size),
    ("two sizes, one more and one less", shifted_sizes),
    ("two sizes that wrap around", wrapped_sizes),
    ("cut", cut),
    ("bytes left", bytes_left),
    ("last zero byte missing", no_last_zero),
    ("zero byte in a token", zero_in_token),
    ("zero byte between tokens missing", no_zero_between),
    ("byte not printable", not_printable),
    ("empty token", empty_token),
    ("token missing", token_missing),
    ("token too many", token_too_many),
    ("start below 0 or above the limit", wrong_start),
    ("sum above the limit", wrong_sum),
    ("step missing", step_missing),
    ("step too many", step_too_many),
    ("start cut", start_cut),
    ("one column in two", column_in_two),
    ("two columns in one", columns_in_one),
    ("column repeated", column_repeated),
    ("column left out", column_left_out),
    ("columns exchanged", columns_exchanged),
    ("token of the other nature", other_nature),
    ("name above 255 bytes", long_name),
];

/// Number 40, once a plan. Answers None where the plan's names stay unread and
/// could be read with flag 0x8.
pub fn spoil_names_section(plan: &mut Plan, rng: &mut Prng) -> Option<()> {
    let reads = plan.lengths.len();
    let Some(names) = &mut plan.names else { return read_the_unread(plan) };
    if reads == 0 {
        // Not empty: a byte, a token count of 0, an empty set.
        let set = [&[1, 0, 0, 0, 0][..], &[0; 8]].concat();
        names.extra = rng.pick(&[vec![0], vec![0; 4], set]);
        return Some(());
    }
    let from = rng.below(SECTION_FAULTS.len() as u64) as usize;
    let (later, earlier) = (&SECTION_FAULTS[from..], &SECTION_FAULTS[..from]);
    later.iter().chain(earlier).find_map(|(_, fault)| fault(names, rng))
}

/// Flag 0x8 over bytes that are too few for a token count, a type and a size.
fn read_the_unread(plan: &mut Plan) -> Option<()> {
    let bytes = plan.carried[0].len();
    let is_fault = if plan.lengths.is_empty() { bytes > 0 } else { bytes < 13 };
    is_fault.then(|| plan.flags |= 0x8)
}

fn token_count_zero(names: &mut NamesPlan, rng: &mut Prng) -> Option<()> {
    names.count = vec![0; 4];
    if rng.coin() {
        names.columns.clear();
    }
    Some(())
}

/// The size that is read first has bytes of two, and so is too large; or it
/// is of the one set and too small.
fn token_count_more(names: &mut NamesPlan, _: &mut Prng) -> Option<()> {
    if names.columns.get(1).is_some_and(|column| column.size & 0xFF == 0) {
        return None;
    }
    names.count = (names.columns.len() as u32 + 1).to_le_bytes().to_vec();
    Some(())
}

/// The sets are read from the zero byte that ends the last size but one.
fn token_count_less(names: &mut NamesPlan, _: &mut Prng) -> Option<()> {
    let less = (names.columns.len() as u32).checked_sub(2)? + 1;
    names.count = less.to_le_bytes().to_vec();
    Some(())
}

fn token_count_huge(names: &mut NamesPlan, rng: &mut Prng) -> Option<()> {
    let count: u32 = rng.pick(&[256, 257, 65_536, 1 << 24, 1 << 31, u32::MAX]);
    names.count = count.to_le_bytes().to_vec();
    Some(())
}

fn any_column<'a>(names: &'a mut NamesPlan, rng: &mut Prng) -> &'a mut ColumnPlan {
    let count = names.columns.len() as u64;
    &mut names.columns[rng.below(count) as usize]
}

/// Some column for which this holds.
fn column_where<'a>(
    names: &'a mut NamesPlan,
    rng: &mut Prng,
    holds: impl Fn(&ColumnPlan) -> bool,
) -> Option<&'a mut ColumnPlan> {
    let fitting: Vec<usize> =
        (0..names.columns.len()).filter(|&column| holds(&names.columns[column])).collect();
    if fitting.is_empty() {
        return None;
    }
    Some(&mut names.columns[rng.pick(&fitting)])
}

fn strings<'a>(names: &'a mut NamesPlan, rng: &mut Prng) -> Option<&'a mut ColumnPlan> {
    column_where(names, rng, ColumnPlan::is_strings)
}

fn numbers<'a>(names: &'a mut NamesPlan, rng: &mut Prng) -> Option<&'a mut ColumnPlan> {
    column_where(names, rng, |column| !column.is_strings())
}

fn width(kind: u8) -> usize {
    match kind {
        4 => 1,
        3 => 2,
        _ => 4,
    }
}

fn wrong_type(names: &mut NamesPlan, rng: &mut Prng) -> Option<()> {
    any_column(names, rng).kind = rng.pick(&[1, 2, 6, 7, 128, 255]);
    Some(())
}

/// With one read every width stores the same bytes.
fn other_width(names: &mut NamesPlan, rng: &mut Prng) -> Option<()> {
    let column = numbers(names, rng).filter(|column| column.tokens.len() > 1)?;
    let others: Vec<u8> = [3, 4, 5].into_iter().filter(|&kind| kind != column.kind).collect();
    column.kind = rng.pick(&others);
    Some(())
}

fn strings_as_numbers(names: &mut NamesPlan, rng: &mut Prng) -> Option<()> {
    let kind = rng.pick(&[3, 4, 5]);
    let fits =
        |column: &ColumnPlan| column.set.len() == 8 + (column.tokens.len() - 1) * width(kind);
    strings(names, rng).filter(|column| !fits(column))?.kind = kind;
    Some(())
}

/// A zero byte first is an empty token. The last byte of a start is at most
/// 13, which is no printable byte.
fn numbers_as_strings(names: &mut NamesPlan, rng: &mut Prng) -> Option<()> {
    numbers(names, rng).filter(|column| column.set[0] == 0 || column.set[7] != 0)?.kind = 0;
    Some(())
}

fn one_size(names: &mut NamesPlan, rng: &mut Prng) -> Option<()> {
    let size = &mut any_column(names, rng).size;
    *size = rng.pick(&[*size - 1, *size + 1, 0, *size + (1 << 32), *size | 1 << 63, u64::MAX]);
    Some(())
}

fn neighbours<'a>(names: &'a mut NamesPlan, rng: &mut Prng) -> Option<&'a mut [ColumnPlan]> {
    let last = (names.columns.len() as u64).checked_sub(2)?;
    let first = rng.range(0, last) as usize;
    Some(&mut names.columns[first..first + 2])
}

fn shifted_sizes(names: &mut NamesPlan, rng: &mut Prng) -> Option<()> {
    let pair = neighbours(names, rng)?;
    let more = rng.below(2) as usize;
    pair[more].size += 1;
    pair[1 - more].size -= 1;
    Some(())
}

/// The sum modulo 2^64 is as before.
fn wrapped_sizes(names: &mut NamesPlan, rng: &mut Prng) -> Option<()> {
    for column in neighbours(names, rng)? {
        column.size += 1 << 63;
    }
    Some(())
}

fn cut(names: &mut NamesPlan, rng: &mut Prng) -> Option<()> {
    let length = names.section().len() as u64;
    let any = rng.below(length);
    names.cut = Some(rng.pick(&[0, 1, 3, 4, 5, 12, length - 1, any, any]).min(length - 1) as usize);
    Some(())
}

fn bytes_left(names: &mut NamesPlan, rng: &mut Prng) -> Option<()> {
    let count = rng.pick(&[1, 2, 8]);
    names.extra = if rng.coin() { vec![0; count] } else { rng.bytes(count) };
    Some(())
}

fn no_last_zero(names: &mut NamesPlan, rng: &mut Prng) -> Option<()> {
    *strings(names, rng)?.set.last_mut()? = b'x';
    Some(())
}

/// The place of some byte of a token.
fn token_byte(column: &ColumnPlan, rng: &mut Prng) -> usize {
    let places: Vec<usize> =
        (0..column.set.len()).filter(|&place| column.set[place] != 0).collect();
    rng.pick(&places)
}

fn zero_in_token(names: &mut NamesPlan, rng: &mut Prng) -> Option<()> {
    let column = strings(names, rng)?;
    let place = token_byte(column, rng);
    column.set[place] = 0;
    Some(())
}

fn no_zero_between(names: &mut NamesPlan, rng: &mut Prng) -> Option<()> {
    let column = strings(names, rng)?;
    let zero = column.set.iter().position(|&byte| byte == 0)?;
    column.set[zero] = column.set[0];
    Some(())
}

fn not_printable(names: &mut NamesPlan, rng: &mut Prng) -> Option<()> {
    let column = strings(names, rng)?;
    let place = token_byte(column, rng);
    column.set[place] = rng.pick(&[1, 9, 10, 13, 31, 127, 128, 160, 255]);
    Some(())
}

/// A set of strings with other tokens.
fn restring(column: &mut ColumnPlan, change: impl FnOnce(&mut Vec<Vec<u8>>)) {
    let mut tokens = column.tokens.clone();
    change(&mut tokens);
    *column = ColumnPlan::strings(tokens);
}

fn any_read(tokens: &[Vec<u8>], rng: &mut Prng) -> usize {
    rng.below(tokens.len() as u64) as usize
}

fn empty_token(names: &mut NamesPlan, rng: &mut Prng) -> Option<()> {
    restring(any_column(names, rng), |tokens| {
        let read = any_read(tokens, rng);
        tokens[read].clear();
    });
    Some(())
}

fn token_missing(names: &mut NamesPlan, rng: &mut Prng) -> Option<()> {
    restring(any_column(names, rng), |tokens| {
        let read = any_read(tokens, rng);
        tokens.remove(read);
    });
    Some(())
}

fn token_too_many(names: &mut NamesPlan, rng: &mut Prng) -> Option<()> {
    restring(any_column(names, rng), |tokens| {
        let read = any_read(tokens, rng);
        tokens.insert(read, tokens[read].clone());
    });
    Some(())
}

fn wrong_start(names: &mut NamesPlan, rng: &mut Prng) -> Option<()> {
    let above = 1_000_000_000_000_000_000;
    let start = rng.pick(&[-1, -2, i64::MIN, -(1 << 32), above, above + 1, i64::MAX]);
    numbers(names, rng)?.set[..8].copy_from_slice(&start.to_le_bytes());
    Some(())
}

/// The start from which the last step leads to the limit, which is one too
/// far, or beyond.
fn wrong_sum(names: &mut NamesPlan, rng: &mut Prng) -> Option<()> {
    let column = numbers(names, rng)?;
    let little_endian =
        |step: &[u8]| step.iter().rev().fold(0, |value, &byte| 256 * value + byte as u64);
    let sum: u64 = column.set[8..].chunks(width(column.kind)).map(little_endian).sum();
    if sum == 0 {
        return None;
    }
    let most = 999_999_999_999_999_999;
    let start: u64 = rng.pick(&[most - sum + 1, most]);
    column.set[..8].copy_from_slice(&start.to_le_bytes());
    Some(())
}

fn step_missing(names: &mut NamesPlan, rng: &mut Prng) -> Option<()> {
    let column = numbers(names, rng).filter(|column| column.tokens.len() > 1)?;
    let left = column.set.len() - rng.range(1, width(column.kind) as u64) as usize;
    column.set.truncate(left);
    column.size = left as u64;
    Some(())
}

fn step_too_many(names: &mut NamesPlan, rng: &mut Prng) -> Option<()> {
    let column = numbers(names, rng)?;
    let more = column.set.len() + rng.range(1, width(column.kind) as u64) as usize;
    column.set.resize(more, 0);
    column.size = more as u64;
    Some(())
}

fn start_cut(names: &mut NamesPlan, rng: &mut Prng) -> Option<()> {
    let column = numbers(names, rng)?;
    let left = rng.below(8) as usize;
    column.set.truncate(left);
    column.size = left as u64;
    Some(())
}

/// Two neighbours of one nature.
fn column_in_two(names: &mut NamesPlan, _: &mut Prng) -> Option<()> {
    let long = |column: &ColumnPlan| column.tokens.iter().all(|token| token.len() > 1);
    let place = names.columns.iter().position(long)?;
    let tokens = &names.columns[place].tokens;
    let heads = tokens.iter().map(|token| token[..1].to_vec()).collect();
    let tails = tokens.iter().map(|token| token[1..].to_vec()).collect();
    names.columns[place] = ColumnPlan::strings(heads);
    names.columns.insert(place + 1, ColumnPlan::strings(tails));
    names.recount();
    Some(())
}

/// Tokens of digits and others.
fn columns_in_one(names: &mut NamesPlan, rng: &mut Prng) -> Option<()> {
    let last = (names.columns.len() as u64).checked_sub(2)?;
    let first = rng.range(0, last) as usize;
    let after = names.columns.remove(first + 1).tokens;
    restring(&mut names.columns[first], |tokens| {
        for (token, rest) in tokens.iter_mut().zip(after) {
            token.extend(rest);
        }
    });
    names.recount();
    Some(())
}

fn column_repeated(names: &mut NamesPlan, rng: &mut Prng) -> Option<()> {
    let place = rng.below(names.columns.len() as u64) as usize;
    names.columns.insert(place, names.columns[place].clone());
    names.recount();
    Some(())
}

/// The columns on both sides are neighbours now.
fn column_left_out(names: &mut NamesPlan, rng: &mut Prng) -> Option<()> {
    let last = (names.columns.len() as u64).checked_sub(2).filter(|&last| last > 0)?;
    let place = rng.range(1, last) as usize;
    names.columns.remove(place);
    names.recount();
    Some(())
}

/// Of three columns or more, so that one of the two meets its like.
fn columns_exchanged(names: &mut NamesPlan, rng: &mut Prng) -> Option<()> {
    if names.columns.len() < 3 {
        return None;
    }
    neighbours(names, rng)?.reverse();
    Some(())
}

/// In one name a token meets its like.
fn other_nature(names: &mut NamesPlan, rng: &mut Prng) -> Option<()> {
    if names.columns.len() < 2 {
        return None;
    }
    restring(any_column(names, rng), |tokens| {
        let read = any_read(tokens, rng);
        tokens[read] = other_token(&tokens[read], rng);
    });
    Some(())
}

/// A byte that stands in a token of the other nature.
fn other_token(token: &[u8], rng: &mut Prng) -> Vec<u8> {
    if token[0].is_ascii_digit() {
        others(rng, 1)
    } else {
        digits(rng, 1)
    }
}

/// 256 bytes, or more, in one name.
fn long_name(names: &mut NamesPlan, rng: &mut Prng) -> Option<()> {
    let reads = names.columns[0].tokens.len();
    let read = rng.below(reads as u64) as usize;
    let length: usize = names.columns.iter().map(|column| column.tokens[read].len()).sum();
    let more = 256 - length + rng.pick(&[0, 0, 1, 200]);
    restring(any_column(names, rng), |tokens| {
        let token = &mut tokens[read];
        token.extend(vec![token[0]; more]);
    });
    Some(())
}

/// Puts the fault into a call, or answers None where it has no place for it.
type GivenFault = fn(&mut EncodeCall, &mut Prng) -> Option<()>;

pub const GIVEN_FAULTS: &[(&str, GivenFault)] = &[
    ("name end missing", end_missing),
    ("name end too many", end_too_many),
    ("no name ends", no_ends),
    ("name end as before", end_as_before),
    ("name end falls", end_falls),
    ("name end far", end_far),
    ("name of 256 bytes", name_too_long),
    ("name byte left", byte_left),
    ("name byte missing", byte_missing),
    ("name byte not printable", byte_not_printable),
    ("token counts differ", token_counts_differ),
];

/// Number 41.
pub fn spoil_given_names(call: &mut EncodeCall, rng: &mut Prng) -> Option<()> {
    let from = rng.below(GIVEN_FAULTS.len() as u64) as usize;
    let (later, earlier) = (&GIVEN_FAULTS[from..], &GIVEN_FAULTS[..from]);
    later.iter().chain(earlier).find_map(|(_, fault)| fault(call, rng))
}

fn end_missing(call: &mut EncodeCall, _: &mut Prng) -> Option<()> {
    call.name_ends.pop().map(|_| ())
}

fn end_too_many(call: &mut EncodeCall, rng: &mut Prng) -> Option<()> {
    let end = call.names.len() as u32;
    if rng.coin() {
        call.names.push(b'a');
        call.name_ends.push(end + 1);
    } else {
        call.name_ends.push(end);
    }
    Some(())
}

fn no_ends(call: &mut EncodeCall, rng: &mut Prng) -> Option<()> {
    if call.name_ends.is_empty() {
        return None;
    }
    call.name_ends.clear();
    if rng.coin() {
        call.names.clear();
    }
    Some(())
}

/// A name, and where it begins.
fn any_name(call: &EncodeCall, rng: &mut Prng) -> Option<(usize, u32)> {
    if call.name_ends.is_empty() {
        return None;
    }
    let read = rng.below(call.name_ends.len() as u64) as usize;
    Some((read, if read == 0 { 0 } else { call.name_ends[read - 1] }))
}

fn end_as_before(call: &mut EncodeCall, rng: &mut Prng) -> Option<()> {
    let (read, start) = any_name(call, rng)?;
    call.name_ends[read] = start;
    Some(())
}

fn end_falls(call: &mut EncodeCall, rng: &mut Prng) -> Option<()> {
    let (read, start) = any_name(call, rng)?;
    call.name_ends[read] = rng.pick(&[0, start.checked_sub(1)?]);
    Some(())
}

fn end_far(call: &mut EncodeCall, rng: &mut Prng) -> Option<()> {
    let (read, start) = any_name(call, rng)?;
    call.name_ends[read] = rng.pick(&[start + 256, start + 65_537, 1 << 31, u32::MAX]);
    Some(())
}

/// Bytes put in at a place move all ends after it.
fn put_in(call: &mut EncodeCall, read: usize, place: usize, bytes: &[u8]) {
    call.names.splice(place..place, bytes.iter().copied());
    for end in &mut call.name_ends[read..] {
        *end += bytes.len() as u32;
    }
}

/// Nothing else is wrong: the token counts are as before.
fn name_too_long(call: &mut EncodeCall, rng: &mut Prng) -> Option<()> {
    let (read, start) = any_name(call, rng)?;
    let length = (call.name_ends[read] - start) as usize;
    let more = vec![call.names[start as usize]; 256 - length + rng.pick(&[0, 0, 1, 100])];
    put_in(call, read, start as usize, &more);
    Some(())
}

fn byte_left(call: &mut EncodeCall, _: &mut Prng) -> Option<()> {
    call.names.push(b'1');
    Some(())
}

fn byte_missing(call: &mut EncodeCall, _: &mut Prng) -> Option<()> {
    call.names.pop().map(|_| ())
}

fn byte_not_printable(call: &mut EncodeCall, rng: &mut Prng) -> Option<()> {
    if call.names.is_empty() {
        return None;
    }
    let place = rng.below(call.names.len() as u64) as usize;
    call.names[place] = rng.pick(&[0, 9, 10, 31, 127, 128, 255]);
    Some(())
}

/// One name has a token more than the others.
fn token_counts_differ(call: &mut EncodeCall, rng: &mut Prng) -> Option<()> {
    let (read, start) = any_name(call, rng).filter(|_| call.name_ends.len() > 1)?;
    if call.name_ends[read] - start > 254 {
        return None;
    }
    let more = other_token(&call.names[start as usize..], rng);
    put_in(call, read, start as usize, &more);
    Some(())
}
