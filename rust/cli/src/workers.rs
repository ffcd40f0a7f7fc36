//! Work side by side, with what comes of it in order, and only so much of it under way at once.

use crate::failure::Failure;
use rayon::{Scope, ThreadPool, ThreadPoolBuilder};
use std::collections::VecDeque;
use std::num::NonZeroUsize;
use std::sync::atomic::{AtomicBool, Ordering};
use std::sync::mpsc::{sync_channel, Receiver};

/// How many bytes the jobs under way may take together; a job that takes more is done alone.
const BYTES_UNDER_WAY: u64 = 1 << 29;

/// A piece of work, and about how many bytes it takes while it is under way.
pub struct Job<Work> {
    pub work: Work,
    pub bytes: u64,
}

/// The threads that work; the one that calls reads and writes.
pub struct Workers {
    // None: the one that calls works too.
    pool: Option<ThreadPool>,
}

impl Workers {
    /// So many threads, or one for each core.
    pub fn new(threads: Option<u16>) -> Result<Workers, Failure> {
        let cores = || std::thread::available_parallelism().map_or(1, NonZeroUsize::get);
        let threads = threads.map_or_else(cores, usize::from);
        if threads <= 1 {
            return Ok(Workers { pool: None });
        }
        match ThreadPoolBuilder::new().num_threads(threads).build() {
            Ok(pool) => Ok(Workers { pool: Some(pool) }),
            Err(error) => {
                Err(Failure::Unusable(format!("cannot start {threads} threads: {error}")))
            }
        }
    }

    /// Does all work that `next` gives, until it gives none. What comes of it is handed to `take`
    /// in the order of the jobs. The first failure in that order ends it, so that all before it is
    /// taken, with any number of threads.
    pub fn in_order<Work: Send, Done: Send>(
        &self,
        mut next: impl FnMut() -> Result<Option<Job<Work>>, Failure>,
        work: impl Fn(Work) -> Result<Done, Failure> + Sync,
        mut take: impl FnMut(Done) -> Result<(), Failure>,
    ) -> Result<(), Failure> {
        let Some(pool) = &self.pool else {
            while let Some(job) = next()? {
                take(work(job.work)?)?;
            }
            return Ok(());
        };
        let most = pool.current_num_threads() + 2;
        let stopped = AtomicBool::new(false);
        pool.in_place_scope(|scope| {
            let mut queue = Queue { work: &work, stopped: &stopped, under_way: VecDeque::new() };
            let result = queue.run(scope, most, &mut next, &mut take);
            stopped.store(true, Ordering::Relaxed);
            result
        })
    }
}

/// The jobs under way, the oldest first.
struct Queue<'a, Run, Done> {
    work: &'a Run,
    // Set where nothing more is wanted: what has not begun is left.
    stopped: &'a AtomicBool,
    under_way: VecDeque<UnderWay<Done>>,
}

struct UnderWay<Done> {
    result: Receiver<Result<Done, Failure>>,
    bytes: u64,
}

impl<'a, Run, Done: Send + 'a> Queue<'a, Run, Done> {
    fn run<Work: Send + 'a>(
        &mut self,
        scope: &Scope<'a>,
        most: usize,
        next: &mut impl FnMut() -> Result<Option<Job<Work>>, Failure>,
        take: &mut impl FnMut(Done) -> Result<(), Failure>,
    ) -> Result<(), Failure>
    where
        Run: Fn(Work) -> Result<Done, Failure> + Sync,
    {
        let mut given = next();
        loop {
            match given {
                Ok(Some(job)) if self.has_room(most, job.bytes) => {
                    self.start(scope, job);
                    given = next();
                }
                // A job waits for room, or there are no more: the oldest is taken.
                _ => match self.under_way.pop_front() {
                    Some(oldest) => take(finished(oldest)?)?,
                    None => return given.map(|_| ()),
                },
            }
        }
    }

    fn has_room(&self, most: usize, bytes: u64) -> bool {
        let taken: u64 = self.under_way.iter().map(|job| job.bytes).sum();
        let count = self.under_way.len();
        count == 0 || count < most && taken.saturating_add(bytes) <= BYTES_UNDER_WAY
    }

    fn start<Work: Send + 'a>(&mut self, scope: &Scope<'a>, job: Job<Work>)
    where
        Run: Fn(Work) -> Result<Done, Failure> + Sync,
    {
        let (sender, result) = sync_channel(1);
        let (work, stopped) = (self.work, self.stopped);
        scope.spawn(move |_| {
            if !stopped.load(Ordering::Relaxed) {
                // Nobody waits for it after a failure.
                let _ = sender.send(work(job.work));
            }
        });
        self.under_way.push_back(UnderWay { result, bytes: job.bytes });
    }
}

/// Waits for a job.
fn finished<Done>(job: UnderWay<Done>) -> Result<Done, Failure> {
    match job.result.recv() {
        Ok(result) => result,
        // The thread has panicked, which its scope passes on.
        Err(_) => Err(Failure::Unusable("a thread has ended too soon".to_string())),
    }
}

#[cfg(test)]
mod tests {
    use super::*;

    /// Squares 0 to 99 and fails where told.
    fn squares(
        threads: u16,
        bytes: u64,
        fails_at: u64,
        ends_at: u64,
    ) -> (Vec<u64>, Option<String>) {
        let workers = Workers::new(Some(threads)).unwrap();
        let (mut given, mut taken) = (0, Vec::new());
        let next = || {
            given += 1;
            match given - 1 {
                n if n == ends_at => Err(Failure::Unusable("no next".to_string())),
                100 => Ok(None),
                n => Ok(Some(Job { work: n, bytes })),
            }
        };
        let work = |n: u64| {
            if n == fails_at {
                return Err(Failure::Unusable(format!("fails at {n}")));
            }
            std::thread::sleep(std::time::Duration::from_micros((100 - n) * 10));
            Ok(n * n)
        };
        let take = |square| {
            taken.push(square);
            Ok(())
        };
        match workers.in_order(next, work, take) {
            Ok(()) => (taken, None),
            Err(Failure::Unusable(what)) => (taken, Some(what)),
            Err(failure) => panic!("{failure:?}"),
        }
    }

    #[test]
    fn results_come_in_order() {
        let all: Vec<u64> = (0..100).map(|n| n * n).collect();
        for threads in [1, 2, 7] {
            for bytes in [0, 1 << 28, 1 << 30, u64::MAX] {
                assert_eq!(squares(threads, bytes, 1000, 1000), (all.clone(), None));
            }
        }
    }

    #[test]
    fn all_before_the_first_failure_is_taken() {
        for threads in [1, 2, 7] {
            let (taken, failure) = squares(threads, 0, 50, 53);
            assert_eq!((taken.len(), failure.as_deref()), (50, Some("fails at 50")));
            let (taken, failure) = squares(threads, 0, 53, 50);
            assert_eq!((taken.len(), failure.as_deref()), (50, Some("no next")));
        }
    }
}
