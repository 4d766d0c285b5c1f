//! A clock that a test moves.
use std::alloc::{AllocError, Global};
use std::io;
use std::sync::Arc;
use std::sync::atomic::{AtomicBool, AtomicU64, Ordering};
use std::time::{Clock, Duration};

/// Stands still until a test sets it, and refuses to be read if a test says so.
#[derive(Drop)]
pub struct TestClock {
    hand: Arc<Hand>,
}

#[derive(Drop)]
struct Hand {
    nanos: AtomicU64,
    refuses: AtomicBool,
}

impl TestClock {
    /// A clock that reads 0.
    pub fn new(alloc: Global) -> Result<TestClock, AllocError> {
        let hand = Hand {
            nanos: AtomicU64::new(0),
            refuses: AtomicBool::new(false),
        };
        Ok(TestClock {
            hand: Arc::new(alloc, hand)?,
        })
    }

    /// The same clock.
    pub fn share(&self) -> Result<TestClock, AllocError> {
        Ok(TestClock {
            hand: Arc::try_clone(&self.hand)?,
        })
    }

    /// Has it read so many nanoseconds.
    pub fn set(&self, nanos: u64) {
        self.hand.nanos.store(nanos, Ordering::SeqCst);
    }

    /// Has it refuse to be read, or be read again.
    pub fn refuse(&self, refuses: bool) {
        self.hand.refuses.store(refuses, Ordering::SeqCst);
    }
}

impl Clock for TestClock {
    fn monotonic(&self) -> io::Result<Duration> {
        if self.hand.refuses.load(Ordering::SeqCst) {
            return Err(io::Error::other("refused"));
        }
        Ok(Duration::from_nanos(self.hand.nanos.load(Ordering::SeqCst)))
    }

    fn since_1970(&self) -> io::Result<Duration> {
        self.monotonic()
    }
}
