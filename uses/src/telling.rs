//! A signal that two threads share.
use async_utilities::{Signal, ThreadWaker, block_on};
use std::alloc::Global;
use std::io;
use std::sync::Wait;
use std::thread::{self, Threads};

/// Has one thread set a signal, of which it has a copy, and another one wait for that. Says whether
/// it was set before, and whether it is in the end.
pub fn tells<R: Wait + Threads + Clone + Drop + Send + Sync>(
    rt: &R,
    alloc: Global,
) -> io::Result<(bool, bool)> {
    let told: Signal<ThreadWaker, R> = Signal::new(rt.clone()?, alloc)?;
    let other = told.copy()?;
    let waiting = told.waiting()?;
    let was_set = told.is_set();
    let (_, waited) = thread::join(
        rt,
        move || other.set(),
        move || block_on(rt, alloc, waiting),
    );
    waited?;
    // (false, true)
    Ok((was_set, told.is_set()))
}
