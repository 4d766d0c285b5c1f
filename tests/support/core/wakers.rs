//! Wakers that count.
use executor_core::task::{OutOfMemory, Wake, Wakeup};
use std::alloc::Global;
use std::cell::Cell;
use std::rc::Rc;
use std::test::Fail;

/// Counts its wakes.
#[derive(Drop)]
pub struct Counter {
    wakes: Rc<Cell<u32>>,
}

impl Wake for Counter {
    fn wake(&self) {
        self.wakes.set(self.wakes.get().saturating_add(1));
    }

    fn copy(&self) -> Result<Self, OutOfMemory> {
        match self.wakes.clone() {
            Ok(wakes) => Ok(Counter { wakes }),
            Err(_) => Err(OutOfMemory),
        }
    }
}

/// Makes wakers, and keeps their counts.
#[derive(Drop)]
pub struct Wakers {
    counts: Vec<Rc<Cell<u32>>>,
    alloc: Global,
}

impl Wakers {
    /// No waker was made yet.
    pub fn new(alloc: Global) -> Wakers {
        Wakers {
            counts: Vec::new(alloc),
            alloc,
        }
    }

    /// A waker that was not woken yet.
    pub fn make(&mut self) -> Result<Counter, Fail> {
        let wakes = Rc::new(self.alloc, Cell::new(0))?;
        self.counts.push(wakes.clone()?)?;
        Ok(Counter { wakes })
    }

    /// How often the waker was woken before which so many were made.
    pub fn wakes(&self, waker: usize) -> Option<u32> {
        match self.counts.get(waker) {
            Some(count) => Some(count.get()),
            None => None,
        }
    }
}

/// Whether there was somebody to be woken, which is done.
pub fn is_woken(wakeup: Option<Wakeup<Counter>>) -> bool {
    match wakeup {
        Some(wakeup) => {
            wakeup.wake();
            true
        }
        None => false,
    }
}
