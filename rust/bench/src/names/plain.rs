//! Names sections in plain safe Rust: the peer that the library is held against, also where the
//! hand-tuned code meets names.
use std::ops::Range;

const MAX_NAME: usize = 255;
const MAX_NUMBER: u64 = 999_999_999_999_999_999;
const MAX_DIGITS: usize = 18;
const START_BYTES: usize = 8;

const PRINTABLE: Range<u8> = 32..127;

/// The types of columns: strings, and numbers with steps of so many bytes.
const STRINGS: u8 = 0;
const STEPS: [(u8, usize); 3] = [(4, 1), (3, 2), (5, 4)];

/// The next token of a column.
enum Token<'a> {
    String(&'a [u8]),
    Number(u64),
}

/// Where the tokens of a section go.
trait Sink {
    fn token(&mut self, token: Token);
    fn end_name(&mut self);
}

struct Nowhere;

impl Sink for Nowhere {
    fn token(&mut self, _: Token) {}
    fn end_name(&mut self) {}
}

struct Joined<'a> {
    names: &'a mut Vec<u8>,
    ends: &'a mut Vec<u32>,
}

impl Sink for Joined<'_> {
    fn token(&mut self, token: Token) {
        match token {
            Token::String(bytes) => self.names.extend_from_slice(bytes),
            Token::Number(number) => push_number(self.names, number),
        }
    }

    fn end_name(&mut self) {
        self.ends.push(self.names.len() as u32);
    }
}

fn push_number(names: &mut Vec<u8>, mut number: u64) {
    let mut digits = [0; MAX_DIGITS];
    let mut at = MAX_DIGITS;
    loop {
        at -= 1;
        digits[at] = b'0' + (number % 10) as u8;
        number /= 10;
        if number == 0 {
            break;
        }
    }
    names.extend_from_slice(&digits[at..]);
}

/// What is left of a column.
enum Column<'a> {
    Strings(&'a [u8]),
    /// The next number, the steps after it, and the bytes of each.
    Numbers(u64, &'a [u8], usize),
}

/// The columns of a section with reads.
fn columns(section: &[u8], reads: usize) -> Option<Vec<Column<'_>>> {
    let (count, rest) = section.split_first_chunk()?;
    let count = u32::from_le_bytes(*count) as usize;
    if !(1..=MAX_NAME).contains(&count) {
        return None;
    }
    let (types, rest) = rest.split_at_checked(count)?;
    let (sizes, mut sets) = rest.split_at_checked(8 * count)?;
    let mut columns = Vec::with_capacity(count);
    for (kind, size) in types.iter().zip(sizes.chunks_exact(8)) {
        let size = usize::try_from(u64::from_le_bytes(size.try_into().ok()?)).ok()?;
        let (set, after) = sets.split_at_checked(size)?;
        sets = after;
        if *kind == STRINGS {
            columns.push(Column::Strings(set));
            continue;
        }
        let (_, width) = STEPS.into_iter().find(|(known, _)| known == kind)?;
        let (start, steps) = set.split_first_chunk()?;
        let start = u64::try_from(i64::from_le_bytes(*start)).ok()?;
        if steps.len() != (reads - 1) * width {
            return None;
        }
        columns.push(Column::Numbers(start, steps, width));
    }
    sets.is_empty().then_some(columns)
}

impl<'a> Column<'a> {
    fn next(&mut self) -> Option<Token<'a>> {
        match self {
            Column::Strings(rest) => {
                let end = rest.iter().position(|&byte| byte == 0)?;
                let token = &rest[..end];
                *rest = &rest[end + 1..];
                Some(Token::String(token))
            }
            Column::Numbers(next, steps, width) => {
                let number = *next;
                if let Some((step, after)) = steps.split_at_checked(*width) {
                    let mut bytes = [0; 8];
                    bytes[..*width].copy_from_slice(step);
                    *next += u64::from_le_bytes(bytes);
                    *steps = after;
                }
                (number <= MAX_NUMBER).then_some(Token::Number(number))
            }
        }
    }

    fn is_at_end(&self) -> bool {
        matches!(self, Column::Strings([]) | Column::Numbers(_, [], _))
    }
}

impl Token<'_> {
    fn len(&self) -> usize {
        match self {
            Token::String(bytes) => bytes.len(),
            Token::Number(number) => number.checked_ilog10().unwrap_or(0) as usize + 1,
        }
    }

    /// Whether it is digits, or others that are printable; None where it is neither.
    fn is_digits(&self) -> Option<bool> {
        let Token::String(bytes) = self else { return Some(true) };
        if bytes.first()?.is_ascii_digit() {
            bytes.iter().all(u8::is_ascii_digit).then_some(true)
        } else {
            let is_other = |byte: &u8| PRINTABLE.contains(byte) && !byte.is_ascii_digit();
            bytes.iter().all(is_other).then_some(false)
        }
    }
}

/// Hands on the tokens of a section, name by name; None where it stores no names.
fn walk(section: &[u8], reads: usize, sink: &mut impl Sink) -> Option<()> {
    if reads == 0 {
        return section.is_empty().then_some(());
    }
    let mut columns = columns(section, reads)?;
    for _ in 0..reads {
        let (mut length, mut before) = (0, None);
        for column in &mut columns {
            let token = column.next()?;
            let digits = token.is_digits()?;
            length += token.len();
            if before == Some(digits) || length > MAX_NAME {
                return None;
            }
            before = Some(digits);
            sink.token(token);
        }
        sink.end_name();
    }
    columns.iter().all(Column::is_at_end).then_some(())
}

/// Whether a section stores names.
#[inline(never)]
pub fn judge(section: &[u8], reads: usize) -> bool {
    walk(section, reads, &mut Nowhere).is_some()
}

/// Reads the names of a section in place of those before, and tells whether it stores any.
#[inline(never)]
pub fn read(section: &[u8], reads: usize, names: &mut Vec<u8>, ends: &mut Vec<u32>) -> bool {
    names.clear();
    ends.clear();
    walk(section, reads, &mut Joined { names, ends }).is_some()
}

/// What is known of a column after some names: the bytes that it takes as strings, and its numbers
/// as long as it can be stored as such.
#[derive(Clone, Copy)]
struct Seen {
    string_bytes: usize,
    numbers: Option<Numbers>,
}

#[derive(Clone, Copy)]
struct Numbers {
    last: u64,
    widest: u32,
}

impl Seen {
    fn first(token: &[u8]) -> Seen {
        let numbers = number(token).map(|last| Numbers { last, widest: 0 });
        Seen { string_bytes: token.len() + 1, numbers }
    }

    fn add(&mut self, token: &[u8]) {
        self.string_bytes += token.len() + 1;
        self.numbers = self.numbers.and_then(|numbers| numbers.with(number(token)?));
    }

    /// The type, and the bytes of a step; 0 for strings.
    fn kind(&self) -> (u8, usize) {
        match self.numbers {
            None => (STRINGS, 0),
            Some(Numbers { widest, .. }) if widest < 1 << 8 => STEPS[0],
            Some(Numbers { widest, .. }) if widest < 1 << 16 => STEPS[1],
            Some(_) => STEPS[2],
        }
    }
}

impl Numbers {
    fn with(self, number: u64) -> Option<Numbers> {
        let step = u32::try_from(number.checked_sub(self.last)?).ok()?;
        Some(Numbers { last: number, widest: self.widest.max(step) })
    }
}

/// The number that a token prints; None where it is to be a string.
fn number(token: &[u8]) -> Option<u64> {
    if token.len() > MAX_DIGITS || token.len() > 1 && token[0] == b'0' {
        return None;
    }
    token.iter().try_fold(0, |number, &byte| {
        byte.is_ascii_digit().then(|| 10 * number + (byte - b'0') as u64)
    })
}

fn tokens(name: &[u8]) -> impl Iterator<Item = &[u8]> {
    name.chunk_by(|before, after| before.is_ascii_digit() == after.is_ascii_digit())
}

/// The names that end at these places, in order; None for one that is none.
fn each<'a>(names: &'a [u8], ends: &'a [u32]) -> impl Iterator<Item = Option<&'a [u8]>> {
    let mut start = 0;
    ends.iter().map(move |&end| {
        let name = names.get(start..end as usize)?;
        start = end as usize;
        let printable = name.iter().all(|byte| PRINTABLE.contains(byte));
        ((1..=MAX_NAME).contains(&name.len()) && printable).then_some(name)
    })
}

/// Appends the section of these names; None where they are none.
#[inline(never)]
pub fn write(names: &[u8], ends: &[u32], section: &mut Vec<u8>) -> Option<()> {
    if ends.last().map_or(0, |&end| end as usize) != names.len() {
        return None;
    }
    let mut seen: Vec<Seen> = Vec::new();
    for (index, name) in each(names, ends).enumerate() {
        let mut count = 0;
        for token in tokens(name?) {
            if index == 0 {
                seen.push(Seen::first(token));
            } else {
                seen.get_mut(count)?.add(token);
            }
            count += 1;
        }
        if count != seen.len() {
            return None;
        }
    }
    if ends.is_empty() {
        return Some(());
    }
    section.extend((seen.len() as u32).to_le_bytes());
    section.extend(seen.iter().map(|column| column.kind().0));
    let mut places = Vec::with_capacity(seen.len());
    let mut end = section.len() + 8 * seen.len();
    for column in &seen {
        let size = match column.kind() {
            (STRINGS, _) => column.string_bytes,
            (_, width) => START_BYTES + width * (ends.len() - 1),
        };
        section.extend((size as u64).to_le_bytes());
        places.push(end);
        end += size;
    }
    section.resize(end, 0);
    put_sets(names, ends, &seen, &mut places, section);
    Some(())
}

/// Writes each column from its place on, name by name.
fn put_sets(names: &[u8], ends: &[u32], seen: &[Seen], places: &mut [usize], section: &mut [u8]) {
    // The last number of each column so far.
    let mut last: Vec<Option<u64>> = vec![None; seen.len()];
    for name in each(names, ends).flatten() {
        for (index, token) in tokens(name).enumerate() {
            let at = places[index];
            let written = match seen[index].kind() {
                (STRINGS, _) => {
                    section[at..at + token.len()].copy_from_slice(token);
                    token.len() + 1
                }
                (_, width) => {
                    let number = number(token).unwrap_or(0);
                    let (value, bytes) = match last[index] {
                        None => (number, START_BYTES),
                        Some(before) => (number - before, width),
                    };
                    last[index] = Some(number);
                    section[at..at + bytes].copy_from_slice(&value.to_le_bytes()[..bytes]);
                    bytes
                }
            };
            places[index] = at + written;
        }
    }
}
