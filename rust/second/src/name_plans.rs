//! Names for generated blocks and calls: rows of tokens in several styles, and
//! names sections that store a row's tokens in any coding that holds them.
//! Nothing here uses the decoder or the encoder: names are made of tokens and
//! never split. A `NamesPlan` keeps every field apart, so that faults can spoil
//! one.

use crate::prng::Prng;

/// For each name its tokens: digits and others by turns.
pub type Rows = Vec<Vec<Vec<u8>>>;

/// The numbers of a set end here.
const NUMBERS: u64 = 1_000_000_000_000_000_000;

/// A column as it is stored, and the tokens that it stores.
#[derive(Clone, Debug)]
pub struct ColumnPlan {
    pub kind: u8,
    /// What the section tells of the set's size.
    pub size: u64,
    pub set: Vec<u8>,
    pub tokens: Vec<Vec<u8>>,
}

/// A names section.
#[derive(Clone, Debug, Default)]
pub struct NamesPlan {
    /// The token count in four bytes; none without reads.
    pub count: Vec<u8>,
    pub columns: Vec<ColumnPlan>,
    pub extra: Vec<u8>,
    pub cut: Option<usize>,
}

impl ColumnPlan {
    /// Each token, and a zero byte.
    pub fn strings(tokens: Vec<Vec<u8>>) -> ColumnPlan {
        let mut set = Vec::new();
        for token in &tokens {
            set.extend(token);
            set.push(0);
        }
        ColumnPlan { kind: 0, size: set.len() as u64, set, tokens }
    }

    /// A start of 64 bits, and steps of `width` bytes.
    pub fn numbers(tokens: Vec<Vec<u8>>, start: u64, steps: &[u64], width: usize) -> ColumnPlan {
        let mut set = start.to_le_bytes().to_vec();
        for step in steps {
            set.extend(&step.to_le_bytes()[..width]);
        }
        let kind = match width {
            1 => 4,
            2 => 3,
            _ => 5,
        };
        ColumnPlan { kind, size: set.len() as u64, set, tokens }
    }

    /// The narrowest width, a wider one, or strings where numbers would do.
    fn drawn(rng: &mut Prng, tokens: Vec<Vec<u8>>) -> ColumnPlan {
        let Some((start, steps)) = rising(&tokens) else { return ColumnPlan::strings(tokens) };
        if rng.once_in(5) {
            return ColumnPlan::strings(tokens);
        }
        let widest = steps.iter().copied().max().unwrap_or(0);
        let widths: Vec<usize> = [(1, 1 << 8), (2, 1 << 16), (4, 1 << 32)]
            .into_iter()
            .filter(|&(_, bound)| widest < bound)
            .map(|(width, _)| width)
            .collect();
        let width = if rng.once_in(4) { rng.pick(&widths) } else { widths[0] };
        ColumnPlan::numbers(tokens, start, &steps, width)
    }

    pub fn is_strings(&self) -> bool {
        self.kind == 0
    }
}

/// Start and steps, where the tokens are numbers as they are printed, below
/// 10^18, that never fall and never rise by 2^32 or more.
fn rising(tokens: &[Vec<u8>]) -> Option<(u64, Vec<u64>)> {
    let number = |token: &Vec<u8>| {
        let text = std::str::from_utf8(token).ok()?;
        let number: u64 = text.parse().ok()?;
        (number < NUMBERS && number.to_string() == text).then_some(number)
    };
    let numbers: Vec<u64> = tokens.iter().map(number).collect::<Option<Vec<u64>>>()?;
    let mut steps = Vec::new();
    for pair in numbers.windows(2) {
        if pair[1] < pair[0] || pair[1] - pair[0] >= 1 << 32 {
            return None;
        }
        steps.push(pair[1] - pair[0]);
    }
    Some((numbers[0], steps))
}

impl NamesPlan {
    pub fn drawn(rng: &mut Prng, rows: &Rows) -> NamesPlan {
        let mut names = NamesPlan::default();
        let Some(first) = rows.first() else { return names };
        for token in 0..first.len() {
            let tokens = rows.iter().map(|row| row[token].clone()).collect();
            names.columns.push(ColumnPlan::drawn(rng, tokens));
        }
        names.recount();
        names
    }

    /// The token count is the number of columns.
    pub fn recount(&mut self) {
        self.count = (self.columns.len() as u32).to_le_bytes().to_vec();
    }

    pub fn section(&self) -> Vec<u8> {
        let mut section = self.count.clone();
        section.extend(self.columns.iter().map(|column| column.kind));
        for column in &self.columns {
            section.extend(column.size.to_le_bytes());
        }
        for column in &self.columns {
            section.extend(&column.set);
        }
        section.extend(&self.extra);
        if let Some(cut) = self.cut {
            section.truncate(cut);
        }
        section
    }
}

/// Names one after the other, and the end of each.
pub fn joined(rows: &Rows) -> (Vec<u8>, Vec<u32>) {
    let (mut names, mut ends) = (Vec::new(), Vec::new());
    for row in rows {
        names.extend(row.concat());
        ends.push(names.len() as u32);
    }
    (names, ends)
}

/// Rows of a style that fits into `max_name` bytes a name; all have one token
/// count.
pub fn draw_rows(rng: &mut Prng, reads: usize, max_name: u64) -> Rows {
    for _ in 0..4 {
        let rows = match rng.below(10) {
            0 | 1 => sequencer_names(rng, reads),
            2 => columns(rng, reads, &[Style::Rising]),
            3 => columns(rng, reads, &[Style::Word(6), Style::Rising]),
            4 => columns(rng, reads, &[Style::Word(4), Style::Falling, Style::Word(2)]),
            5 => columns(rng, reads, &[Style::Word(4), Style::Padded]),
            6 => many_tokens(rng, reads, max_name),
            7 => random_rows(rng, reads, max_name, true),
            8 => random_rows(rng, reads, max_name, false),
            _ => columns(rng, reads, &[Style::Rising, Style::Others(3), Style::Rising]),
        };
        if rows.iter().all(|row| row.concat().len() as u64 <= max_name) {
            return rows;
        }
    }
    let style = if rng.coin() { Style::Digits(1) } else { Style::Others(1) };
    columns(rng, reads, &[style])
}

/// How the tokens of a column are drawn.
#[derive(Clone, Copy)]
enum Style {
    /// Other characters, up to so many, the same in each name.
    Word(u64),
    /// Other characters, up to so many.
    Others(u64),
    /// Digits, up to so many; the first may be 0.
    Digits(u64),
    /// A number, the same in each name.
    Number(u64),
    Rising,
    Falling,
    /// Numbers with leading zeros.
    Padded,
}

/// The rows of columns that are drawn one by one.
fn columns(rng: &mut Prng, reads: usize, styles: &[Style]) -> Rows {
    let columns: Vec<Vec<Vec<u8>>> =
        styles.iter().map(|&style| draw_column(rng, reads, style)).collect();
    (0..reads).map(|read| columns.iter().map(|column| column[read].clone()).collect()).collect()
}

fn draw_column(rng: &mut Prng, reads: usize, style: Style) -> Vec<Vec<u8>> {
    let printed = |number: u64| number.to_string().into_bytes();
    match style {
        Style::Word(most) => {
            let length = rng.range(1, most);
            vec![others(rng, length); reads]
        }
        Style::Others(most) => (0..reads).map(|_| some(rng, most, others)).collect(),
        Style::Digits(most) => (0..reads).map(|_| some(rng, most, digits)).collect(),
        Style::Number(number) => vec![printed(number); reads],
        Style::Rising => rising_numbers(rng, reads).into_iter().map(printed).collect(),
        Style::Falling => {
            let mut numbers: Vec<u64> = (0..reads).map(|_| rng.below(200)).collect();
            numbers.sort();
            numbers.into_iter().rev().map(printed).collect()
        }
        Style::Padded => {
            let width = rng.range(2, 6) as usize;
            let numbers = rising_numbers(rng, reads).into_iter();
            numbers.map(|number| format!("{:0width$}", number % 1000).into_bytes()).collect()
        }
    }
}

fn some(rng: &mut Prng, most: u64, draw: fn(&mut Prng, u64) -> Vec<u8>) -> Vec<u8> {
    let length = rng.range(1, most);
    draw(rng, length)
}

/// Steps and starts around the edges of the widths and of 18 digits.
fn rising_numbers(rng: &mut Prng, reads: usize) -> Vec<u64> {
    let menu: &[u64] = rng.pick(&[
        [1].as_slice(),
        &[0],
        &[0, 1, 2],
        &[1, 254, 255],
        &[0, 255, 256],
        &[1, 65_534, 65_535],
        &[2, 65_535, 65_536],
        &[1, 4_294_967_294, 4_294_967_295],
        &[0, 4_294_967_295, 4_294_967_296],
    ]);
    let any = rng.below(NUMBERS);
    let near = NUMBERS - 1 - rng.below(6);
    let start = rng.pick(&[0, 0, 1, 9, 1_000, 99_998, 1 << 32, any, near, NUMBERS - 1, NUMBERS]);
    let mut numbers = vec![start];
    while numbers.len() < reads {
        numbers.push(numbers[numbers.len() - 1] + rng.pick(menu));
    }
    numbers.truncate(reads);
    numbers
}

/// Names such as A00123:45:HXYW:1:1101:1000:2000, and sometimes a rest after
/// a space.
fn sequencer_names(rng: &mut Prng, reads: usize) -> Rows {
    let machine = format!("{:05}", rng.below(2_000));
    let run = rng.range(1, 99).to_string();
    let cell = rng.pick(&[":HXYW:", ":FC:", ":C:"]);
    let lane = rng.range(1, 8).to_string();
    let rest: &[&str] = if rng.once_in(3) { &[" ", "1", ":N:", "0", ":ACGT"] } else { &[] };
    let mut tile = 1_101;
    let row = |_| {
        tile += rng.pick(&[0, 0, 0, 1]);
        let tile = tile.to_string();
        let [x, y] = [(); 2].map(|_| rng.range(1_000, 32_000).to_string());
        let front = ["A", &machine, ":", &run, cell, &lane, ":", &tile, ":", &x, ":", &y];
        front.iter().chain(rest).map(|token| token.as_bytes().to_vec()).collect()
    };
    (0..reads).map(row).collect()
}

/// Tokens of one byte each, up to 255 of them.
fn many_tokens(rng: &mut Prng, reads: usize, max_name: u64) -> Rows {
    let most = max_name.min(255);
    let any = rng.range(1, most);
    let count = rng.pick(&[any, any.min(12), most, most.saturating_sub(1).max(1)]);
    let first = rng.below(2);
    let styles: Vec<Style> = (0..count)
        .map(|token| match (first + token) % 2 {
            0 => Style::Word(1),
            _ if rng.coin() => Style::Digits(1),
            _ => Style::Number(rng.below(10)),
        })
        .collect();
    columns(rng, reads, &styles)
}

/// Any printable bytes. Where the names are not alike, one begins with digits
/// and the next with others.
fn random_rows(rng: &mut Prng, reads: usize, max_name: u64, alike: bool) -> Rows {
    let count = rng.range(1, max_name.min(5));
    let most = max_name / count;
    let length = rng.pick(&[1, most.min(3), most.min(20), most]).max(1);
    let begins_with_digits = rng.coin();
    let row = |rng: &mut Prng| {
        let begins = if alike { begins_with_digits } else { rng.coin() };
        let token = |token: u64| match (token % 2 == 0) == begins {
            true => some(rng, length, digits),
            false => some(rng, length, others),
        };
        (0..count).map(token).collect()
    };
    (0..reads).map(|_| row(rng)).collect()
}

pub fn digits(rng: &mut Prng, count: u64) -> Vec<u8> {
    (0..count).map(|_| rng.range(b'0' as u64, b'9' as u64) as u8).collect()
}

/// Printable ASCII without the digits: 32 to 47, 58 to 126.
pub fn others(rng: &mut Prng, count: u64) -> Vec<u8> {
    let other = |rng: &mut Prng| match rng.below(8) {
        0 => rng.pick(&[32, 47, 58, 126]),
        1 => rng.range(32, 47) as u8,
        _ => rng.range(58, 126) as u8,
    };
    (0..count).map(|_| other(rng)).collect()
}
