//! What a row did, and since when.
use std::hint::spin_loop;
use std::rt::Clock;
use std::sync::Wait;
use std::sync::atomic::{AtomicU64, Ordering};
use std::time::{Duration, Instant};

/// What a row did.
#[derive(Debug, Clone, Copy)]
pub struct Ran {
    /// How many operations did what they were to do.
    pub count: u64,
    /// How long all took.
    pub time: Duration,
}

impl Ran {
    /// This many operations ran since then. `None` if the time is refused.
    pub fn since(rt: &impl Clock, start: Instant, count: u64) -> Option<Ran> {
        let time = start.elapsed(rt).ok()?;
        Some(Ran { count, time })
    }
}

/// Where the threads of a row wait for one another, so that all begin together.
#[derive(Drop)]
pub struct Barrier {
    threads: u64,
    there: AtomicU64,
}

impl Barrier {
    /// A `Barrier` for so many threads.
    pub fn new(threads: u64) -> Barrier {
        Barrier {
            threads,
            there: AtomicU64::new(0),
        }
    }

    /// Waits until all threads are there, and gives the time then or later. `None` if the time is refused.
    pub fn wait(&self, rt: &(impl Wait + Clock)) -> Option<Instant> {
        self.leave();
        self.wait_for(rt, self.threads);
        Instant::now(rt).ok()
    }

    /// As `wait` for one of the threads, which is the last one there: so none begins before the time that it
    /// gives.
    pub fn open(&self, rt: &(impl Wait + Clock)) -> Option<Instant> {
        self.wait_for(rt, self.threads.saturating_sub(1));
        let start = Instant::now(rt).ok();
        self.leave();
        start
    }

    // Waits until so many threads are there.
    fn wait_for(&self, rt: &impl Wait, threads: u64) {
        for _ in rt.forever() {
            if self.there.load(Ordering::SeqCst) >= threads {
                break;
            }
            spin_loop();
        }
    }

    /// Has nobody wait for this thread, which may have been there.
    pub fn leave(&self) {
        self.there.fetch_add(1, Ordering::SeqCst);
    }
}
