//! What tasks and threads await each other by.
use async_utilities::{
    Barrier, Event, Mutex, OnceCell, Ready, Semaphore, ThreadWaker, TooManyPermits, Unavailable,
    block_on,
};
use std::alloc::Global;
use std::sync::Wait;
use std::thread::{self, Threads};

/// Takes permits of a semaphore that has two, and has a third one added. Gives how many are left, after
/// one and then all were taken, how many one guard had, how many there are in the end, why a try took
/// none, and that no more can be counted.
pub fn takes_permits<R: Wait + Clone + Drop>(
    rt: &R,
    alloc: Global,
) -> Option<([usize; 4], Unavailable, TooManyPermits)> {
    let semaphore: Semaphore<ThreadWaker, R> = Semaphore::new(rt.clone().ok()?, alloc, 2).ok()?;
    let permit = semaphore.try_acquire().ok()?;
    let first = semaphore.permits();
    let unavailable = semaphore.try_acquire_many(2).err()?;
    let other = semaphore.copy().ok()?;
    other.add_permits(1).ok()?;
    let too_many = semaphore.add_permits(usize::MAX).err()?;
    let both = block_on(rt, alloc, semaphore.acquire_many(2).ok()?).ok()?;
    let second = semaphore.permits();
    drop(permit);
    let one = block_on(rt, alloc, semaphore.acquire().ok()?).ok()?;
    let count = both.permits();
    drop((one, both));
    Some((
        [first, second, count, semaphore.permits()],
        unavailable,
        too_many,
    ))
}

/// Adds to a number from two threads, each of which waits for its turn. Gives the sum, and why a try did
/// not lock it.
pub fn takes_turns<R: Wait + Threads + Clone + Drop + Send + Sync>(
    rt: &R,
    alloc: Global,
) -> Option<(u64, Unavailable)> {
    let mutex: Mutex<u64, ThreadWaker, R> = Mutex::new(rt.clone().ok()?, alloc, 0).ok()?;
    let other = mutex.copy().ok()?;
    let (one, two) = thread::join(
        rt,
        || adds(rt, alloc, &mutex, 100),
        || adds(rt, alloc, &other, 200),
    );
    one?;
    two?;
    let guard = mutex.try_lock().ok()?;
    let unavailable = other.try_lock().err()?;
    Some((*guard, unavailable))
}

// Adds one, so often.
fn adds<R: Wait + Clone + Drop>(
    rt: &R,
    alloc: Global,
    mutex: &Mutex<u64, ThreadWaker, R>,
    count: u64,
) -> Option<()> {
    for _ in 0..count {
        let mut guard = block_on(rt, alloc, mutex.lock().ok()?).ok()?;
        *guard = guard.wrapping_add(1);
        drop(guard);
    }
    Some(())
}

/// Listens for an event, looks whether there is something to wait for, and awaits the listener. Gives how
/// many were told by each call.
pub fn hears<R: Wait + Clone + Drop>(rt: &R, alloc: Global) -> Option<[usize; 3]> {
    let event: Event<ThreadWaker, R> = Event::new(rt.clone().ok()?, alloc).ok()?;
    let other = event.copy().ok()?;
    let (first, second) = (event.listen().ok()?, event.listen().ok()?);
    let third = event.listen().ok()?;
    let one = other.notify(1);
    let more = other.notify_additional(1);
    let all = other.notify_all();
    block_on(rt, alloc, first).ok()?;
    block_on(rt, alloc, second).ok()?;
    block_on(rt, alloc, third).ok()?;
    // [1, 1, 1]
    Some([one, more, all])
}

/// Has two threads meet at a barrier. Says of each whether it came last.
pub fn meets<R: Wait + Threads + Clone + Drop + Send + Sync>(
    rt: &R,
    alloc: Global,
) -> Option<[bool; 2]> {
    let barrier: Barrier<ThreadWaker, R> = Barrier::new(rt.clone().ok()?, alloc, 2).ok()?;
    let other = barrier.copy().ok()?;
    let (here, there) = (barrier.wait().ok()?, other.wait().ok()?);
    let (one, two) = thread::join(
        rt,
        move || block_on(rt, alloc, here).ok(),
        move || block_on(rt, alloc, there).ok(),
    );
    // [false, true] or [true, false]
    Some([one?.is_leader(), two?.is_leader()])
}

/// Has the value of a cell made by a future. Gives it, whether it was there before, whether that future
/// made it, and the value that came too late.
pub fn makes_once<R: Wait + Clone + Drop>(rt: &R, alloc: Global) -> Option<(u64, [bool; 2], u64)> {
    let cell: OnceCell<u64, ThreadWaker, R> = OnceCell::new(rt, alloc).ok()?;
    let was_set = cell.is_initialized();
    let is_own = block_on(rt, alloc, cell.get_or_init(Ready::new(1)).ok()?).ok()?;
    let other = cell.copy().ok()?;
    let back = other.set(2).err()?;
    block_on(rt, alloc, cell.wait().ok()?).ok()?;
    let value = *cell.get()?;
    // (1, [false, true], 2)
    Some((value, [was_set, is_own], back))
}
