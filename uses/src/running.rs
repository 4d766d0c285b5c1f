//! A task that one thread runs to its end, and an executor that goes before its task has run.
use async_executor::{Cancelled, Executor, Future, Poll};
use async_utilities::{NoopWaker, Ready};
use std::alloc::Global;
use std::io;
use std::sync::Wait;

/// Runs tasks until nothing is scheduled, and asks a handle for the output.
pub fn runs<R: Wait + Clone + Drop + Send + Sync>(
    rt: &R,
    alloc: Global,
) -> io::Result<Poll<Result<u64, Cancelled>>> {
    let executor = Executor::new(rt.clone()?, alloc)?;
    let mut task = executor.spawn(Ready::new(1 + 2))?;
    for _ in rt.forever() {
        if !executor.try_tick() {
            break;
        }
    }
    // Ready(Ok(3))
    Ok(task.poll(&NoopWaker))
}

/// Drops an executor before it has run its task: the future is dropped, and the handle says
/// `Cancelled`.
pub fn closes<R: Wait + Clone + Drop + Send + Sync>(
    rt: &R,
    alloc: Global,
) -> io::Result<Poll<Result<u64, Cancelled>>> {
    let executor = Executor::new(rt.clone()?, alloc)?;
    let mut task = executor.spawn(Ready::new(3))?;
    drop(executor);
    // Ready(Err(Cancelled))
    Ok(task.poll(&NoopWaker))
}
