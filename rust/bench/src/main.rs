//! Prints the tables of docs/BENCHMARK.md. All ways that a table holds against each other are
//! compared for equality before anything is timed; where they differ the run fails. No speed makes
//! it fail.
mod blocks;
mod clock;
mod growth;
mod lengths;
mod names;
mod sizes;
mod stretches;
mod tuned;
mod ways;
mod works;
mod writers;

use std::time::Duration;

struct Random(u64);

impl Random {
    fn next(&mut self) -> u64 {
        self.0 ^= self.0 << 13;
        self.0 ^= self.0 >> 7;
        self.0 ^= self.0 << 17;
        self.0
    }

    fn below(&mut self, bound: usize) -> usize {
        (self.next() % bound as u64) as usize
    }
}

/// How long the thread ran meanwhile: the turns of other programs do not count.
fn timed(run: impl FnOnce()) -> Duration {
    let began = clock::thread_time();
    run();
    clock::thread_time() - began
}

/// The head of a table with these columns.
fn title_row<'a>(titles: impl Iterator<Item = &'a str>) {
    let titles: Vec<&str> = titles.collect();
    println!("| | {} |\n|---|{}", titles.join(" | "), "---|".repeat(titles.len()));
}

fn row(title: &str, cells: impl Iterator<Item = f64>) {
    print!("| {title} |");
    for cell in cells {
        print!(" {cell:.2} |");
    }
    println!();
}

fn main() {
    blocks::print_tables();
    println!();
    growth::print_table();
    println!();
    names::print_tables();
    println!();
    let random = &mut Random(0x9e37_79b9_7f4a_7c15);
    stretches::print_table(random);
    let kinds = lengths::Kind::all(random);
    println!();
    lengths::print_table(&kinds, random);
    println!();
    sizes::print_table(&kinds, random);
}
