//! Runs many cases on all cores.

use crate::case::Case;
use crate::check::{check, Disagreement};
use crate::draw::draw;
use crate::library::Library;
use crate::stock::Stock;
use crate::tally::Tally;
use std::panic::{catch_unwind, AssertUnwindSafe};
use std::sync::atomic::{AtomicU64, Ordering::Relaxed};
use std::sync::Mutex;
use std::time::Duration;

/// Which cases are run, and by how many threads.
#[derive(Clone, Copy, Debug)]
pub struct Settings {
    pub seed: u64,
    pub first: u64,
    pub count: u64,
    pub threads: usize,
    /// Whether the number of each case is printed before it is run.
    pub say: bool,
}

/// A case on which the library and the second implementation differ.
pub struct Finding {
    pub number: u64,
    pub case: Case,
    pub disagreement: Disagreement,
}

/// Cases that a thread takes at a time.
const CHUNK: u64 = 64;

/// What the threads share.
struct Progress {
    /// The first case that no thread has taken.
    next: AtomicU64,
    done: AtomicU64,
    /// The lowest number of a case with a finding; cases past it are not run.
    end: AtomicU64,
    finding: Mutex<Option<Finding>>,
    tally: Mutex<Tally>,
}

/// Runs the cases. The answer is the finding with the lowest number, if there is one, and the tally
/// of all cases that were run. `show` is called now and then with the number of cases done so far.
pub fn run(
    library: &dyn Library,
    stock: &Stock,
    settings: Settings,
    mut show: impl FnMut(u64),
) -> (Option<Finding>, Tally) {
    let progress = Progress {
        next: AtomicU64::new(settings.first),
        done: AtomicU64::new(0),
        end: AtomicU64::new(settings.first.saturating_add(settings.count)),
        finding: Mutex::new(None),
        tally: Mutex::new(Tally::default()),
    };
    std::thread::scope(|scope| {
        let work = || run_chunks(library, stock, settings, &progress);
        let threads: Vec<_> = (0..settings.threads).map(|_| scope.spawn(work)).collect();
        while threads.iter().any(|thread| !thread.is_finished()) {
            std::thread::sleep(Duration::from_millis(20));
            show(progress.done.load(Relaxed));
        }
    });
    let finding = progress.finding.into_inner().unwrap();
    (finding, progress.tally.into_inner().unwrap())
}

fn run_chunks(library: &dyn Library, stock: &Stock, settings: Settings, progress: &Progress) {
    let mut tally = Tally::default();
    loop {
        let from = progress.next.fetch_add(CHUNK, Relaxed);
        for number in from..from.saturating_add(CHUNK) {
            if number >= progress.end.load(Relaxed) {
                progress.tally.lock().unwrap().add(&tally);
                return;
            }
            if settings.say {
                eprintln!("case {number}");
            }
            let case = draw(stock, settings.seed, number);
            if let Err(disagreement) = checked(library, &case, &mut tally) {
                progress.keep(Finding { number, case, disagreement });
            }
            progress.done.fetch_add(1, Relaxed);
        }
    }
}

/// A side that panics is a disagreement too.
fn checked(library: &dyn Library, case: &Case, tally: &mut Tally) -> Result<(), Disagreement> {
    let run = AssertUnwindSafe(|| check(library, case, tally));
    catch_unwind(run).unwrap_or_else(|panic| {
        let text = panic.downcast_ref::<String>().cloned();
        let text = text.or(panic.downcast_ref::<&str>().map(|text| text.to_string()));
        Err(Disagreement {
            call: "any",
            what: "panic".to_string(),
            library: text.unwrap_or_default(),
            second: String::new(),
        })
    })
}

impl Progress {
    fn keep(&self, finding: Finding) {
        let mut kept = self.finding.lock().unwrap();
        if kept.as_ref().is_none_or(|before| finding.number < before.number) {
            self.end.fetch_min(finding.number, Relaxed);
            *kept = Some(finding);
        }
    }
}
