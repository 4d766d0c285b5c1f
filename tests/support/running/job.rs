//! A task of an executor that is made of executors.
use super::record::{Moment, Record};
use super::waker::TestWaker;
use async_executor::{Future, Poll, TaskWaker, Wake};
use std::alloc::{AllocError, Global};
use std::sync::atomic::{AtomicU64, Ordering};
use std::sync::{Arc, Mutex, Wait};

/// Where a task leaves its waker, and another one finds it.
pub type Left<R> = Arc<Mutex<Option<TaskWaker<TestWaker, R>>>>;

/// What a task of a test does.
#[derive(Drop)]
pub enum Job<R> {
    /// Puts its digit behind those of the others that ran, and is ready.
    Digit(u64, Arc<AtomicU64>),
    /// Leaves its waker at its first poll, and is ready at the second.
    Leaves(Left<R>, bool),
    /// Wakes the one that left its waker, and keeps how often this record was woken by then.
    Wakes(Left<R>, Record, Arc<AtomicU64>),
    /// Wakes itself, and is never ready.
    Busy,
}

impl<R: Wait + Clone + Drop> Future<TaskWaker<TestWaker, R>> for Job<R> {
    type Output = ();

    fn poll(&mut self, w: &TaskWaker<TestWaker, R>) -> Poll<()> {
        match self {
            Job::Busy => {
                w.wake();
                return Poll::Pending;
            }
            Job::Digit(digit, ran) => {
                let before = ran.load(Ordering::SeqCst);
                ran.store(before.wrapping_mul(10).wrapping_add(*digit), Ordering::SeqCst);
            }
            Job::Leaves(place, has_left) => {
                if !*has_left {
                    *has_left = true;
                    if let (Ok(copy), Some(mut place)) = (w.copy(), place.try_lock()) {
                        *place = Some(copy);
                    }
                    return Poll::Pending;
                }
            }
            Job::Wakes(place, record, woken) => {
                if let Some(place) = place.try_lock() {
                    if let Some(waker) = &*place {
                        waker.wake();
                    }
                }
                woken.store(record.times(Moment::WakerWake), Ordering::SeqCst);
            }
        }
        Poll::Ready(())
    }
}

/// A waker, and the record of it and of its copies.
pub fn waker(alloc: Global) -> Result<(TestWaker, Record), AllocError> {
    let record = Record::new(alloc)?;
    Ok((TestWaker::new(&record)?, record))
}

/// Puts its digit behind those of the others that ran.
pub fn digit<R>(digit: u64, ran: &Arc<AtomicU64>) -> Result<Job<R>, AllocError> {
    Ok(Job::Digit(digit, Arc::try_clone(ran)?))
}
