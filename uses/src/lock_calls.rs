//! The calls of a mutex and a semaphore, each in a whole example. What it gives is what the tests compare.
use async_utilities::{Mutex, Semaphore, ThreadWaker, Unavailable, block_on};
use std::alloc::Global;
use std::sync::Wait;

/// Why a try did not lock it, and the number that the guard left.
pub fn locks<R: Wait + Clone + Drop>(rt: &R, alloc: Global) -> Option<(Unavailable, u64)> {
    let mutex: Mutex<u64, ThreadWaker, R> = Mutex::new(rt.clone().ok()?, alloc, 1).ok()?;
    let mut guard = block_on(rt, alloc, mutex.lock().ok()?).ok()?;
    *guard = 7;
    let unavailable = mutex.try_lock().err()?;
    drop(guard);
    let guard = mutex.try_lock().ok()?;
    // (Taken, 7)
    Some((unavailable, *guard))
}

/// How many permits are left, one of two being taken, and then both.
pub fn acquires<R: Wait + Clone + Drop>(rt: &R, alloc: Global) -> Option<[usize; 2]> {
    let right = rt.clone().ok()?;
    let semaphore: Semaphore<ThreadWaker, R> = Semaphore::new(right, alloc, 2).ok()?;
    let one = semaphore.try_acquire().ok()?;
    let left = semaphore.permits();
    drop(one);
    let _both = block_on(rt, alloc, semaphore.acquire_many(2).ok()?).ok()?;
    // [1, 0]
    Some([left, semaphore.permits()])
}
