//! Measures how the library's time grows with a block: the same reads in eight blocks, in four, in
//! two and in one.
use crate::blocks::LARGE;
use crate::tuned::Tables;
use crate::ways::*;
use crate::works::{reference, Shape, Work};
use crate::{row, timed, title_row};
use second::prng::Prng;
use std::hint::black_box;
use std::time::Duration;

const PASSES: usize = 61;

/// Into how many blocks the reads are cut.
const COLUMNS: [(&str, usize); 4] =
    [("eight blocks", 8), ("four blocks", 4), ("two blocks", 2), ("one block", 1)];

const fn shape(title: &'static str, reads: usize, length: usize) -> Shape {
    Shape { title, reads, length, equal: true, bytes: LARGE }
}

const SHAPES: [Shape; 3] = [
    shape("50,000 reads of 150", 50_000, 150),
    shape("8,000 reads of 1,000", 8_000, 1_000),
    shape("80 reads of 100,000", 80, 100_000),
];

const WAYS: [Way; 4] = [
    way("copy", copy),
    way("validate", proved_validate),
    way("decode", proved_decode),
    way("encode", proved_encode),
];

/// The blocks of one column, each with its own buffers.
type Column<'a> = Vec<(Work<'a>, Buffers)>;

fn with_buffers(work: Work) -> (Work, Buffers) {
    let to = Buffers::new(&work);
    (work, to)
}

fn run(way: &Way, column: &mut Column, tables: &Tables) -> Duration {
    column.iter().for_each(|(work, _)| touch(work));
    column.iter_mut().for_each(|(work, to)| to.fill(work));
    timed(|| {
        for (work, to) in column {
            black_box((way.run)(black_box(work), tables, black_box(to)));
        }
    })
}

/// The best time of each way over all passes, column by column.
fn measure(columns: &mut [Column], tables: &Tables) -> Vec<[f64; WAYS.len()]> {
    let mut best = vec![[Duration::MAX; WAYS.len()]; columns.len()];
    for _ in 0..PASSES {
        for (column, best) in columns.iter_mut().zip(&mut best) {
            for (way, best) in WAYS.iter().zip(best) {
                *best = run(way, column, tables).min(*best);
            }
        }
    }
    best.into_iter().map(|times| times.map(|time| time.as_secs_f64())).collect()
}

pub fn print_table() {
    let random = &mut Prng::new(6);
    let tables = Tables::new();
    let padded = reference(LARGE, random);
    title_row(COLUMNS.iter().map(|column| column.0));
    for shape in &SHAPES {
        let whole = Work::new(shape, &padded, random);
        let mut columns: Vec<Column> = Vec::new();
        for (_, count) in COLUMNS {
            let works = whole.cut(shape.reads / count).into_iter();
            columns.push(works.map(with_buffers).collect());
        }
        for (work, _) in columns.iter().flatten() {
            WAYS.iter().for_each(|way| compare(shape.title, way, work, &tables));
        }
        let times = measure(&mut columns, &tables);
        for (number, way) in WAYS.iter().enumerate() {
            let title = format!("{}, {}", shape.title, way.title);
            row(&title, times.iter().map(|time| time[number] / times[0][number]));
        }
    }
}
