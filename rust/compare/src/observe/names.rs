//! Sees what is met in names: in sections that are accepted, in those that were written, and why
//! others are refused with 40, or names given to the encoder with 41. The first reason that fits is
//! taken; where none does, the refusal is a wrong one.

use crate::case::Writing;
use crate::paths::Path;
use crate::tally::Tally;
use second::header::{Header, NAMES};
use second::names::*;

/// The largest token count.
const MAX_TOKENS: usize = 255;

/// A column of a names section.
struct Column<'a> {
    kind: u8,
    set: &'a [u8],
}

/// The numbers of a column.
struct Numbers {
    width: usize,
    start: i64,
    steps: Vec<u64>,
}

impl<'a> Column<'a> {
    fn strings(&self) -> impl Iterator<Item = &'a [u8]> {
        let set = self.set.strip_suffix(&[0]).unwrap_or(self.set);
        set.split(|&byte| byte == 0)
    }

    /// None where the set has not a start and a step for each read but the first.
    fn numbers(&self, reads: usize) -> Option<Numbers> {
        let width = width(self.kind)?;
        let (start, steps) = self.set.split_first_chunk()?;
        let number = |step: &[u8]| {
            let mut bytes = [0; 8];
            bytes[..width].copy_from_slice(step);
            u64::from_le_bytes(bytes)
        };
        (steps.len() == (reads - 1) * width).then(|| Numbers {
            width,
            start: i64::from_le_bytes(*start),
            steps: steps.chunks(width).map(number).collect(),
        })
    }
}

/// The bytes of a step.
fn width(kind: u8) -> Option<usize> {
    match kind {
        STEPS_8 => Some(1),
        STEPS_16 => Some(2),
        STEPS_32 => Some(4),
        _ => None,
    }
}

fn all_digits(token: &[u8]) -> bool {
    token.iter().all(u8::is_ascii_digit)
}

fn has_leading_zero(token: &[u8]) -> bool {
    token.len() > 1 && token[0] == b'0' && all_digits(token)
}

/// The number that a token prints, of at most 18 digits.
fn number_of(token: &[u8]) -> Option<u64> {
    let short = all_digits(token) && !has_leading_zero(token) && token.len() <= 18;
    short.then(|| std::str::from_utf8(token).ok()?.parse().ok())?
}

/// The columns of a section of one read or more, or why there are none.
fn columns_of(section: &[u8]) -> Result<Vec<Column<'_>>, Path> {
    let Some((count, rest)) = section.split_first_chunk() else { return Err(Path::FrontCut) };
    let count = u32::from_le_bytes(*count) as usize;
    if count == 0 {
        return Err(Path::TokenCount0);
    }
    if count > MAX_TOKENS {
        return Err(Path::TokenCountAbove255);
    }
    if rest.len() < 9 * count {
        return Err(Path::FrontCut);
    }
    let (types, rest) = rest.split_at(count);
    let (sizes, mut sets) = rest.split_at(8 * count);
    if types.iter().any(|&kind| kind != STRINGS && width(kind).is_none()) {
        return Err(Path::TypeUnknown);
    }
    let mut columns = Vec::new();
    for (&kind, size) in types.iter().zip(sizes.chunks(8)) {
        let size = u64::from_le_bytes(size.try_into().unwrap());
        let cut = usize::try_from(size).ok().and_then(|size| sets.split_at_checked(size));
        let Some((set, after)) = cut else { return Err(Path::SizesWrong) };
        columns.push(Column { kind, set });
        sets = after;
    }
    if sets.is_empty() {
        Ok(columns)
    } else {
        Err(Path::SizesWrong)
    }
}

/// What is met in the names of an accepted block.
pub fn of_accepted(header: &Header, input: &[u8], names: &[Vec<u8>], tally: &mut Tally) {
    let section = header.section(input, NAMES);
    if !header.names_stored() {
        tally.path_if(Path::NamesUnread, !section.is_empty());
        return;
    }
    let Ok(columns) = columns_of(section) else {
        tally.path_if(Path::NamesOfNone, names.is_empty());
        return;
    };
    tally.path_if(Path::NamesOfOne, names.len() == 1);
    tally.path_if(Path::Name255, names.iter().any(|name| name.len() == MAX_NAME));
    tally.path_if(Path::Tokens255, columns.len() == MAX_TOKENS);
    for column in columns {
        match column.numbers(names.len()) {
            None => of_strings(&column, tally),
            Some(numbers) => of_numbers(&numbers, tally),
        }
    }
}

fn of_strings(column: &Column, tally: &mut Tally) {
    tally.path(Path::Strings);
    let tokens: Vec<&[u8]> = column.strings().collect();
    let numbers: Option<Vec<u64>> = tokens.iter().map(|token| number_of(token)).collect();
    let step = |pair: &[u64]| pair[1].checked_sub(pair[0]).is_some_and(|step| step >> 32 == 0);
    let rising = numbers.is_some_and(|numbers| numbers.windows(2).all(step));
    tally.path_if(Path::NumbersAsStrings, rising);
    let digits = tokens.iter().filter(|token| all_digits(token)).count();
    tally.path_if(Path::MixedStrings, (1..tokens.len()).contains(&digits));
    tally.path_if(Path::LeadingZero, tokens.iter().any(|token| has_leading_zero(token)));
    let long = tokens.iter().any(|token| all_digits(token) && token.len() > 18);
    tally.path_if(Path::Digits19, long);
}

fn of_numbers(numbers: &Numbers, tally: &mut Tally) {
    let Numbers { width, start, steps } = numbers;
    tally.path(match width {
        1 => Path::Steps8,
        2 => Path::Steps16,
        _ => Path::Steps32,
    });
    let widest = steps.iter().max().copied().unwrap_or(0);
    tally.path_if(Path::StepsWider, *width > 1 && widest >> (4 * width) == 0);
    for (path, met) in [
        (Path::NameStep255, 255),
        (Path::NameStep256, 256),
        (Path::NameStep65535, 65_535),
        (Path::NameStep65536, 65_536),
        (Path::NameStepMost, u32::MAX as u64),
    ] {
        tally.path_if(path, steps.contains(&met));
    }
    let last = *start as u64 + steps.iter().sum::<u64>();
    tally.path_if(Path::Digits18, last > MAX_NUMBER / 10);
    tally.path_if(Path::NumberMost, last == MAX_NUMBER);
}

/// What is met in a names section that was written.
pub fn of_written(section: &[u8], tally: &mut Tally) {
    for column in columns_of(section).into_iter().flatten() {
        tally.path(match column.kind {
            STEPS_8 => Path::WrittenSteps8,
            STEPS_16 => Path::WrittenSteps16,
            STEPS_32 => Path::WrittenSteps32,
            _ => Path::WrittenStrings,
        });
        if column.kind == STRINGS {
            of_written_strings(&column, tally);
        }
    }
}

/// Why a column with digits was written as strings.
fn of_written_strings(column: &Column, tally: &mut Tally) {
    let tokens: Vec<&[u8]> = column.strings().collect();
    let digits = tokens.iter().filter(|token| all_digits(token)).count();
    if digits < tokens.len() {
        tally.path_if(Path::WrittenMixed, digits > 0);
        return;
    }
    let Some(numbers) = tokens.iter().map(|token| number_of(token)).collect::<Option<Vec<u64>>>()
    else {
        let zero = tokens.iter().any(|token| has_leading_zero(token));
        tally.path(if zero { Path::WrittenZero } else { Path::WrittenDigits19 });
        return;
    };
    let falls = numbers.windows(2).any(|pair| pair[1] < pair[0]);
    tally.path(if falls { Path::WrittenFalling } else { Path::WrittenFar });
}

/// Why the names section of a block is refused.
pub fn of_refused(input: &[u8], tally: &mut Tally) {
    let Ok(header) = Header::read(input) else { return };
    let section = header.section(input, NAMES);
    let reads = header.reads as usize;
    if reads == 0 {
        tally.path(Path::NotEmpty);
        return;
    }
    let columns = match columns_of(section) {
        Ok(columns) => columns,
        Err(path) => return tally.path(path),
    };
    let mut rows: Vec<Vec<Vec<u8>>> = vec![Vec::new(); reads];
    for column in &columns {
        match tokens_of(column, reads, tally) {
            Err(path) => return tally.path(path),
            Ok(tokens) => rows.iter_mut().zip(tokens).for_each(|(row, token)| row.push(token)),
        }
    }
    let fault = rows.iter().find_map(|row| fault_of_row(row));
    tally.path(fault.expect("a names section is refused for some reason"));
}

/// One token for each read, or why there are none.
fn tokens_of(column: &Column, reads: usize, tally: &mut Tally) -> Result<Vec<Vec<u8>>, Path> {
    if column.kind == STRINGS {
        let tokens: Vec<Vec<u8>> = column.strings().map(<[u8]>::to_vec).collect();
        if column.set.last() != Some(&0) || tokens.len() != reads {
            return Err(Path::ZerosWrong);
        }
        return if tokens.contains(&Vec::new()) { Err(Path::TokenEmpty) } else { Ok(tokens) };
    }
    let Some(Numbers { start, steps, .. }) = column.numbers(reads) else {
        return Err(Path::StepsWrong);
    };
    if start < 0 {
        tally.path_if(Path::StartMinus1, start == -1);
        return Err(Path::StartNegative);
    }
    let mut number = start as u64;
    let mut tokens = vec![number];
    for step in steps {
        number += step;
        tokens.push(number);
    }
    if start as u64 > MAX_NUMBER {
        return Err(Path::StartAbove);
    }
    if number > MAX_NUMBER {
        tally.path_if(Path::SumOneAbove, number == MAX_NUMBER + 1);
        return Err(Path::SumAbove);
    }
    Ok(tokens.iter().map(|number| number.to_string().into_bytes()).collect())
}

/// What is wrong with the tokens of one read.
fn fault_of_row(row: &[Vec<u8>]) -> Option<Path> {
    let name = row.concat();
    if name.len() > MAX_NAME {
        Some(Path::NameAbove255)
    } else if !is_name(&name) {
        Some(Path::NameByte)
    } else if split(&name) != row {
        Some(Path::NameNotSplit)
    } else {
        None
    }
}

/// Why the names given to the encoder are refused.
pub fn of_refused_names(writing: &Writing, tally: &mut Tally) {
    tally.path(fault_of_names(&writing.names, &writing.name_ends, writing.ends.len()));
}

fn fault_of_names(names: &[u8], name_ends: &[u32], reads: usize) -> Path {
    if name_ends.len() != reads {
        return Path::GivenCount;
    }
    let (mut start, mut all_printable, mut counts) = (0, true, Vec::new());
    for end in name_ends.iter().map(|&end| end as usize) {
        if end <= start {
            return Path::GivenEnd;
        }
        if end - start > MAX_NAME {
            return Path::GivenAbove255;
        }
        let Some(name) = names.get(start..end) else { return Path::GivenPast };
        all_printable &= is_name(name);
        counts.push(split(name).len());
        start = end;
    }
    if start != names.len() {
        return Path::GivenLeft;
    }
    if !all_printable {
        return Path::GivenByte;
    }
    assert!(counts.windows(2).any(|pair| pair[0] != pair[1]), "names are refused for some reason");
    Path::GivenTokens
}
