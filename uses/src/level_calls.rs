//! The calls of an executor with levels, each in a whole example. What it gives is what the tests compare.
use async_executor::{Cancelled, Future, Poll};
use async_utilities::{NoopWaker, Ready};
use priority_executor::PriorityExecutor;
use std::alloc::Global;
use std::io;
use std::sync::Wait;

type Levels<R> = PriorityExecutor<Ready<u64>, NoopWaker, R, 2>;

/// The answers of an urgent task, which ran, and of one that was spawned before it and did not.
pub fn goes_first<R: Wait + Clone + Drop + Send + Sync>(
    rt: &R,
    alloc: Global,
) -> io::Result<[Poll<Result<u64, Cancelled>>; 2]> {
    let executor: Levels<R> = PriorityExecutor::new(rt.clone()?, alloc)?;
    let mut later = executor.spawn(1, Ready::new(1))?;
    let mut urgent = executor.spawn(0, Ready::new(2))?;
    executor.try_tick();
    // [Ready(Ok(2)), Pending]
    Ok([urgent.poll(&NoopWaker), later.poll(&NoopWaker)])
}

/// Pending while no level has a task that is scheduled, and then ready: the spawn woke it.
pub fn ticks_any_level<R: Wait + Clone + Drop + Send + Sync>(
    rt: &R,
    alloc: Global,
) -> io::Result<[Poll<()>; 2]> {
    let executor: Levels<R> = PriorityExecutor::new(rt.clone()?, alloc)?;
    let mut tick = executor.tick()?;
    let asleep = tick.poll(&NoopWaker);
    executor.spawn(1, Ready::new(7))?.detach();
    // [Pending, Ready(())]
    Ok([asleep, tick.poll(&NoopWaker)])
}
