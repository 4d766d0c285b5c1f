//! Who is woken, in order.
use executor_core::task::{OutOfMemory, Wake};
use std::alloc::{AllocError, Global};
use std::sync::Arc;
use std::sync::atomic::{AtomicU64, Ordering};

/// Those who were woken, in order, and how many wakers there are.
#[derive(Drop)]
pub struct Wakes {
    counts: Arc<Counts>,
}

#[derive(Drop)]
struct Counts {
    // Two digits of each one, those of the last one last.
    woken: AtomicU64,
    wakers: AtomicU64,
}

impl Wakes {
    /// Nobody was woken.
    pub fn new(alloc: Global) -> Result<Wakes, AllocError> {
        let counts = Counts {
            woken: AtomicU64::new(0),
            wakers: AtomicU64::new(0),
        };
        Ok(Wakes {
            counts: Arc::new(alloc, counts)?,
        })
    }

    /// A waker with this number, of two digits.
    pub fn waker(&self, number: u64) -> Result<NumberedWaker, AllocError> {
        let counts = Arc::try_clone(&self.counts)?;
        counts.wakers.fetch_add(1, Ordering::SeqCst);
        Ok(NumberedWaker {
            wakes: Wakes { counts },
            number,
        })
    }

    /// One with this number is woken.
    pub fn add(&self, number: u64) {
        let before = self.counts.woken.load(Ordering::SeqCst);
        let after = before.wrapping_mul(100).wrapping_add(number);
        self.counts.woken.store(after, Ordering::SeqCst);
    }

    /// Those who were woken since the last time: two digits of each one, those of the last one last. It
    /// has room for nine.
    pub fn take(&self) -> u64 {
        self.counts.woken.swap(0, Ordering::SeqCst)
    }

    /// How many wakers there are.
    pub fn wakers(&self) -> u64 {
        self.counts.wakers.load(Ordering::SeqCst)
    }
}

/// Has its number written down each time that it or a copy is woken.
pub struct NumberedWaker {
    wakes: Wakes,
    number: u64,
}

impl Wake for NumberedWaker {
    fn wake(&self) {
        self.wakes.add(self.number);
    }

    fn copy(&self) -> Result<Self, OutOfMemory> {
        Ok(self.wakes.waker(self.number)?)
    }
}

impl Drop for NumberedWaker {
    fn drop(self) {
        let NumberedWaker { wakes, number: _ } = self;
        wakes.counts.wakers.fetch_sub(1, Ordering::SeqCst);
    }
}
