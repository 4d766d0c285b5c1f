//! The calls of a task's handle, each in a whole example. What it gives is what the tests compare.
use async_executor::{Cancelled, Executor, Future, Poll};
use async_utilities::{NoopWaker, Ready, YieldNow};
use std::alloc::Global;
use std::io;
use std::sync::Wait;

/// The output, which goes out once, and then `Cancelled`.
pub fn asks_twice<R: Wait + Clone + Drop + Send + Sync>(
    rt: &R,
    alloc: Global,
) -> io::Result<[Poll<Result<u64, Cancelled>>; 2]> {
    let executor = Executor::new(rt.clone()?, alloc)?;
    let mut task = executor.spawn(Ready::new(7))?;
    executor.try_tick();
    let first = task.poll(&NoopWaker);
    // [Ready(Ok(7)), Ready(Err(Cancelled))]
    Ok([first, task.poll(&NoopWaker)])
}

/// Whether the tick found the task, whose future it dropped, and whether there is none after that.
pub fn drops_handle<R: Wait + Clone + Drop + Send + Sync>(
    rt: &R,
    alloc: Global,
) -> io::Result<[bool; 2]> {
    let executor: Executor<Ready<u64>, NoopWaker, R> = Executor::new(rt.clone()?, alloc)?;
    let task = executor.spawn(Ready::new(7))?;
    drop(task);
    // [true, true]
    Ok([executor.try_tick(), executor.is_empty()])
}

/// Whether the tick found the task, which it ran, and whether there is none after that.
pub fn lets_run_on<R: Wait + Clone + Drop + Send + Sync>(
    rt: &R,
    alloc: Global,
) -> io::Result<[bool; 2]> {
    let executor: Executor<Ready<u64>, NoopWaker, R> = Executor::new(rt.clone()?, alloc)?;
    let task = executor.spawn(Ready::new(7))?;
    task.detach();
    // [true, true]
    Ok([executor.try_tick(), executor.is_empty()])
}

/// Pending while the future is there, and then no output: the tick dropped it.
pub fn cancels_and_awaits<R: Wait + Clone + Drop + Send + Sync>(
    rt: &R,
    alloc: Global,
) -> io::Result<[Poll<Option<u64>>; 2]> {
    let executor = Executor::new(rt.clone()?, alloc)?;
    let mut cancel = executor.spawn(Ready::new(7))?.cancel();
    let before = cancel.poll(&NoopWaker);
    executor.try_tick();
    // [Pending, Ready(None)]
    Ok([before, cancel.poll(&NoopWaker)])
}

/// Whether the task has finished, before and after its poll.
pub fn finishes<R: Wait + Clone + Drop + Send + Sync>(
    rt: &R,
    alloc: Global,
) -> io::Result<[bool; 2]> {
    let executor: Executor<Ready<u64>, NoopWaker, R> = Executor::new(rt.clone()?, alloc)?;
    let task = executor.spawn(Ready::new(7))?;
    let before = task.is_finished();
    executor.try_tick();
    // [false, true]
    Ok([before, task.is_finished()])
}

/// No output, since the executor was dropped.
pub fn has_no_output<R: Wait + Clone + Drop + Send + Sync>(
    rt: &R,
    alloc: Global,
) -> io::Result<Poll<Option<u64>>> {
    let executor = Executor::new(rt.clone()?, alloc)?;
    let mut task = executor.spawn(Ready::new(7))?.fallible();
    drop(executor);
    // Ready(None)
    Ok(task.poll(&NoopWaker))
}

/// Whether the task has finished, before and after the tick that drops its future.
pub fn finishes_fallibly<R: Wait + Clone + Drop + Send + Sync>(
    rt: &R,
    alloc: Global,
) -> io::Result<[bool; 2]> {
    let executor: Executor<Ready<u64>, NoopWaker, R> = Executor::new(rt.clone()?, alloc)?;
    let task = executor.spawn(Ready::new(7))?.fallible();
    let before = task.is_finished();
    executor.try_tick();
    // [false, true]
    Ok([before, task.is_finished()])
}

/// The answer of a task that was cancelled, beside one that was let go. Both have run, or were dropped.
pub fn ends_fallibly<R: Wait + Clone + Drop + Send + Sync>(
    rt: &R,
    alloc: Global,
) -> io::Result<(bool, Poll<Option<u64>>)> {
    let executor = Executor::new(rt.clone()?, alloc)?;
    executor.spawn(Ready::new(1))?.fallible().detach();
    let mut cancel = executor.spawn(Ready::new(2))?.fallible().cancel();
    executor.try_tick();
    executor.try_tick();
    // (true, Ready(None))
    Ok((executor.is_empty(), cancel.poll(&NoopWaker)))
}

/// The answers of a task that was cancelled between its first poll and its second: no output, once the
/// next tick has dropped its future.
pub fn cancels_half_way<R: Wait + Clone + Drop + Send + Sync>(
    rt: &R,
    alloc: Global,
) -> io::Result<[Poll<Option<()>>; 2]> {
    let executor = Executor::new(rt.clone()?, alloc)?;
    let task = executor.spawn(YieldNow::new())?;
    executor.try_tick();
    let mut cancel = task.cancel();
    let before = cancel.poll(&NoopWaker);
    executor.try_tick();
    // [Pending, Ready(None)]
    Ok([before, cancel.poll(&NoopWaker)])
}
