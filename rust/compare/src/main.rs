//! Runs the comparison. Arguments, each with a number:
//!
//! - `--seed`: other cases; 1 if not given
//! - `--count`: how many, from `--first` on; a million from 0 on if not given
//! - `--case`: one case alone
//! - `--threads`: as many as there are cores if not given
//! - `--say 1`: print the number of each case before it is run; with one thread a case which
//!   ends the process can so be told
//!
//! Exit status: 0 if both sides agree on all cases and all that is asked for was met, 1 if not, 2
//! on wrong arguments.

use compare::library::Linked;
use compare::report::report;
use compare::run::{run, Settings};
use compare::stock::Stock;
use std::io::{stderr, IsTerminal, Write};
use std::process::ExitCode;
use std::time::Instant;

const COUNT: u64 = 1_000_000;

/// Of so many cases one must give each refusal of each call, and of so many each path.
const CASES_FOR_AN_ANSWER: u64 = 1_000;
const CASES_FOR_A_PATH: u64 = 20_000;

fn main() -> ExitCode {
    let Some(settings) = settings(std::env::args().skip(1)) else {
        eprintln!(
            "usage: compare [--seed N] [--count N] [--first N] [--case N] [--threads N] [--say 1]"
        );
        return ExitCode::from(2);
    };
    let began = Instant::now();
    let stock = Stock::new();
    let mut shown = Shown::new(settings.count, began);
    let (finding, tally) = run(&Linked, &stock, settings, |done| shown.show(done));
    shown.clear();
    if let Some(finding) = finding {
        print!("{}", report(&Linked, settings.seed, &finding));
        return ExitCode::from(1);
    }
    let Settings { seed, count, threads, .. } = settings;
    if count > 1 {
        println!("{}", tally.table());
    }
    let seconds = began.elapsed().as_secs_f64();
    println!("{count} cases of seed {seed} agree; {seconds:.0} s on {threads} threads");
    let missing = tally.missing(count / CASES_FOR_AN_ANSWER, count / CASES_FOR_A_PATH);
    for line in &missing {
        println!("too seldom: {line}");
    }
    ExitCode::from(!missing.is_empty() as u8)
}

fn settings(mut arguments: impl Iterator<Item = String>) -> Option<Settings> {
    let threads = std::thread::available_parallelism().map_or(1, |threads| threads.get());
    let mut settings = Settings { seed: 1, first: 0, count: COUNT, threads, say: false };
    while let Some(name) = arguments.next() {
        let value: u64 = arguments.next()?.parse().ok()?;
        match name.as_str() {
            "--seed" => settings.seed = value,
            "--count" => settings.count = value,
            "--first" => settings.first = value,
            "--case" => (settings.first, settings.count) = (value, 1),
            "--threads" => settings.threads = value.max(1) as usize,
            "--say" => settings.say = value != 0,
            _ => return None,
        }
    }
    Some(settings)
}

/// A line of progress on a terminal, and nothing elsewhere.
struct Shown {
    count: u64,
    began: Instant,
    last: u64,
    terminal: bool,
}

impl Shown {
    fn new(count: u64, began: Instant) -> Shown {
        Shown { count, began, last: 0, terminal: stderr().is_terminal() }
    }

    fn show(&mut self, done: u64) {
        let now = self.began.elapsed().as_millis() as u64 / 500;
        if self.terminal && now > self.last {
            self.last = now;
            let percent = 100 * done / self.count.max(1);
            eprint!("\r{done} of {} cases, {percent} %, {} s ", self.count, now / 2);
            let _ = stderr().flush();
        }
    }

    fn clear(&self) {
        if self.terminal {
            eprint!("\r{:60}\r", "");
        }
    }
}
