//! Two threads that wait for each other.
//!
//! The one that goes on while the other halts is watched: if it waits for a lock, the other one has it, and
//! halts no longer. So a test that fails does so at once, and one that passes has all the time that it needs.
use super::waiting::turns;
use executor_core::halts::{is_thread_waiting, watch_thread};
use std::alloc::{AllocError, Global};
use std::sync::atomic::{AtomicBool, AtomicU64, Ordering};
use std::sync::{Arc, Wait};
use std::thread::{self, Threads, yield_now};

#[derive(Drop)]
struct Counts {
    halts: AtomicU64,
    releases: AtomicU64,
    misses: AtomicU64,
    // Whether the thread that goes on is watched.
    watches: AtomicBool,
}

/// A point where one thread halts, once or several times, until another one lets it go on.
#[derive(Drop)]
pub struct Halt {
    counts: Arc<Counts>,
}

impl Halt {
    pub fn new(alloc: Global) -> Result<Halt, AllocError> {
        let counts = Counts {
            halts: AtomicU64::new(0),
            releases: AtomicU64::new(0),
            misses: AtomicU64::new(0),
            watches: AtomicBool::new(false),
        };
        Ok(Halt {
            counts: Arc::new(alloc, counts)?,
        })
    }

    /// The same point.
    pub fn share(&self) -> Result<Halt, AllocError> {
        Ok(Halt {
            counts: Arc::try_clone(&self.counts)?,
        })
    }

    /// Halts here until another thread lets it go on, or waits for a lock, or the turns are over.
    pub fn halt(&self) {
        let before = self.counts.halts.fetch_add(1, Ordering::SeqCst);
        if !self.is_released(before) {
            self.counts.misses.fetch_add(1, Ordering::SeqCst);
        }
    }

    // Whether more than so many halts are let go on. While the other thread is watched, no turn is counted.
    fn is_released(&self, before: u64) -> bool {
        let mut left = turns();
        while left > 0 && is_thread_waiting() == 0 {
            if self.counts.releases.load(Ordering::SeqCst) > before {
                return true;
            }
            if !self.counts.watches.load(Ordering::SeqCst) {
                left -= 1;
            }
            yield_now();
        }
        false
    }

    // Watches this thread, or does so no longer.
    fn watch(&self, watches: bool) {
        watch_thread(u32::from(watches));
        self.counts.watches.store(watches, Ordering::SeqCst);
    }

    /// Waits until a thread halts here, and says whether one did so in time. From then on this thread is
    /// watched, until it lets that one go on.
    pub fn await_other(&self) -> bool {
        let released = self.counts.releases.load(Ordering::SeqCst);
        let halts = is_above(&self.counts.halts, released);
        self.watch(halts);
        halts
    }

    /// Lets those go on that halt here now.
    pub fn release(&self) {
        self.watch(false);
        let halts = self.counts.halts.load(Ordering::SeqCst);
        self.counts.releases.store(halts, Ordering::SeqCst);
    }

    /// Lets another thread go on that halts here, and waits until it halts again, or the turns are
    /// over.
    pub fn pass_on(&self) {
        self.release();
        if !self.await_other() {
            self.counts.misses.fetch_add(1, Ordering::SeqCst);
        }
    }

    /// Lets those go on that halt here, now or later.
    pub fn open(&self) {
        self.watch(false);
        self.counts.releases.store(u64::MAX, Ordering::SeqCst);
    }

    /// Whether nobody waited here in vain.
    pub fn was_passed(&self) -> bool {
        self.counts.misses.load(Ordering::SeqCst) == 0
    }
}

/// Has a use be made while another thread halts at this point in a step. Says whether it halted there, and
/// nobody waited in vain.
pub fn is_used_meanwhile<R: Wait + Threads + Sync + Send + Clone + Drop>(
    rt: &R,
    halt: &Halt,
    step: impl FnOnce() + Send,
    uses: impl FnOnce(),
) -> bool {
    let ((), came) = thread::join(
        rt,
        move || step(),
        move || {
            let came = halt.await_other();
            uses();
            halt.open();
            came
        },
    );
    came && halt.was_passed()
}

// Waits until the number is above this one, and says whether it was so in time.
fn is_above(number: &AtomicU64, limit: u64) -> bool {
    for _ in 0..turns() {
        if number.load(Ordering::SeqCst) > limit {
            return true;
        }
        yield_now();
    }
    false
}
