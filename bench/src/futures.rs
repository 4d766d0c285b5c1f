//! The futures that are run, and a waker that does nothing.
use async_executor::{Future, OutOfMemory, Poll, TaskWaker, Wake};
use std::alloc::{AllocError, Global};
use std::sync::{Arc, Mutex, Wait};

/// Wakes nobody.
#[derive(Drop)]
pub struct IdleWaker;

impl Wake for IdleWaker {
    fn wake(&self) {}

    fn copy(&self) -> Result<Self, OutOfMemory> {
        Ok(IdleWaker)
    }
}

/// Wakes itself and stays pending for a number of polls, and is then ready with 7.
#[derive(Clone, Copy)]
pub struct Yields {
    left: u64,
}

impl Yields {
    /// Ready at its first poll.
    pub const READY: Yields = Yields { left: 0 };

    /// Ready after this number of polls.
    pub fn after(left: u64) -> Yields {
        Yields { left }
    }
}

impl<W: Wake, R: Wait + Clone + Drop> Future<TaskWaker<W, R>> for Yields {
    type Output = u64;

    fn poll(&mut self, w: &TaskWaker<W, R>) -> Poll<u64> {
        if self.left == 0 {
            return Poll::Ready(7);
        }
        self.left -= 1;
        w.wake();
        Poll::Pending
    }
}

/// Works in each poll, wakes itself and stays pending for a number of polls, and is then ready.
#[derive(Clone, Copy)]
pub struct Works {
    left: u64,
    steps: u32,
    number: u64,
}

impl Works {
    /// Ready after this number of polls, each of which takes so many steps.
    pub fn after(left: u64, steps: u32) -> Works {
        Works {
            left,
            steps,
            number: left,
        }
    }

    // Each step waits for the one before, and no compiler folds them.
    fn work(&mut self) {
        let mut number = self.number;
        for _ in 0..self.steps {
            number = (number ^ (number >> 32)).wrapping_mul(6_364_136_223_846_793_005);
        }
        self.number = number;
    }
}

impl<W: Wake, R: Wait + Clone + Drop> Future<TaskWaker<W, R>> for Works {
    type Output = u64;

    fn poll(&mut self, w: &TaskWaker<W, R>) -> Poll<u64> {
        self.work();
        if self.left == 0 {
            return Poll::Ready(self.number);
        }
        self.left -= 1;
        w.wake();
        Poll::Pending
    }
}

/// Where tasks leave their wakers.
pub type LeftWakers<W, R> = Arc<Mutex<Vec<TaskWaker<W, R>>>>;

/// Leaves a copy of its waker where others find it, once, and is never ready.
#[derive(Drop)]
pub struct LeavesWaker<W, R> {
    place: LeftWakers<W, R>,
    is_left: bool,
}

impl<W: Wake, R: Wait + Clone + Drop> LeavesWaker<W, R> {
    /// The waker is left here.
    pub fn at(place: &LeftWakers<W, R>) -> Result<LeavesWaker<W, R>, AllocError> {
        Ok(LeavesWaker {
            place: Arc::try_clone(place)?,
            is_left: false,
        })
    }
}

impl<W: Wake, R: Wait + Clone + Drop> Future<TaskWaker<W, R>> for LeavesWaker<W, R> {
    type Output = u64;

    fn poll(&mut self, w: &TaskWaker<W, R>) -> Poll<u64> {
        if self.is_left {
            return Poll::Pending;
        }
        if let (Ok(copy), Some(mut place)) = (w.copy(), self.place.try_lock()) {
            let _ = place.push(copy);
        }
        self.is_left = true;
        Poll::Pending
    }
}

/// Wakes its partner at each poll, and is ready with 7 after a number of polls.
#[derive(Drop)]
pub struct Rally<W, R> {
    own: Arc<Mutex<Option<TaskWaker<W, R>>>>,
    partner: Arc<Mutex<Option<TaskWaker<W, R>>>>,
    is_left: bool,
    left: u64,
}

impl<W: Wake, R: Wait + Clone + Drop> Rally<W, R> {
    /// Two futures that wake each other, each of which is ready after this number of polls.
    pub fn pair(alloc: Global, left: u64) -> Result<(Rally<W, R>, Rally<W, R>), AllocError> {
        let one = Arc::new(alloc, Mutex::new(None))?;
        let two = Arc::new(alloc, Mutex::new(None))?;
        let first = Rally {
            own: Arc::try_clone(&one)?,
            partner: Arc::try_clone(&two)?,
            is_left: false,
            left,
        };
        let second = Rally {
            own: two,
            partner: one,
            is_left: false,
            left,
        };
        Ok((first, second))
    }

    // Leaves a copy of the waker where the partner finds it.
    fn leave(&mut self, w: &TaskWaker<W, R>) {
        let before = match (w.copy(), self.own.try_lock()) {
            (Ok(copy), Some(mut place)) => place.replace(copy),
            _ => None,
        };
        drop(before);
        self.is_left = true;
    }

    fn wake_partner(&self) {
        if let Some(place) = self.partner.try_lock() {
            if let Some(waker) = &*place {
                waker.wake();
            }
        }
    }
}

impl<W: Wake, R: Wait + Clone + Drop> Future<TaskWaker<W, R>> for Rally<W, R> {
    type Output = u64;

    fn poll(&mut self, w: &TaskWaker<W, R>) -> Poll<u64> {
        if !self.is_left {
            self.leave(w);
        }
        self.wake_partner();
        if self.left == 0 {
            return Poll::Ready(7);
        }
        self.left -= 1;
        Poll::Pending
    }
}

/// The size of a large future.
const LARGE: usize = 4_096;

/// Ready at its first poll, and large.
#[derive(Drop)]
pub struct Large {
    bytes: [u8; LARGE],
}

impl Large {
    pub fn new() -> Large {
        Large { bytes: [7; LARGE] }
    }

    /// On the heap.
    pub fn boxed(alloc: Global) -> Result<Box<Large>, AllocError> {
        Ok(Box::new(alloc, Large::new())?)
    }
}

impl<W> Future<W> for Large {
    type Output = u64;

    fn poll(&mut self, _w: &W) -> Poll<u64> {
        Poll::Ready(u64::from(self.bytes[0]))
    }
}
