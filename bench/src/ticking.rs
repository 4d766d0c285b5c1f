//! Rows whose tasks are run by ticks.
//!
//! Their executors have a type of their own, and so code of their own: `try_tick` and a tick of one
//! type would share the code that runs a task, and each would call it.
use crate::futures::Yields;
use async_executor::{Executor, Future, OutOfMemory, Poll, Wake};
use std::alloc::Global;
use std::sync::Wait;

/// Wakes nobody, and is a tick's.
#[derive(Drop)]
struct IdleTicker;

impl Wake for IdleTicker {
    fn wake(&self) {}

    fn copy(&self) -> Result<Self, OutOfMemory> {
        Ok(IdleTicker)
    }
}

type Ticked<R> = Executor<Yields, IdleTicker, R>;

// Whether one poll of a new tick runs a task. `None` if memory was refused.
fn runs_one<R: Wait + Clone + Drop + Send + Sync>(ex: &Ticked<R>) -> Option<bool> {
    Some(ex.tick().ok()?.poll(&IdleTicker) == Poll::Ready(()))
}

/// Spawns, detaches and runs a task, by a tick of its own.
pub fn spawn_tick<R: Wait + Clone + Drop + Send + Sync>(
    rt: &R,
    alloc: Global,
    operations: u64,
) -> Option<u64> {
    let ex: Ticked<R> = Executor::new(rt.clone().ok()?, alloc).ok()?;
    let mut count = 0u64;
    for _ in 0..operations {
        ex.spawn(Yields::READY).ok()?.detach();
        if runs_one(&ex)? {
            count = count.saturating_add(1);
        }
    }
    Some(count)
}

/// Runs one task that wakes itself, by a tick for each of its polls.
pub fn yield_tick<R: Wait + Clone + Drop + Send + Sync>(
    rt: &R,
    alloc: Global,
    operations: u64,
) -> Option<u64> {
    let ex: Ticked<R> = Executor::new(rt.clone().ok()?, alloc).ok()?;
    ex.spawn(Yields::after(operations)).ok()?.detach();
    let mut count = 0u64;
    for _ in 0..operations {
        if runs_one(&ex)? {
            count = count.saturating_add(1);
        }
    }
    Some(count)
}

/// Puts a tick to sleep, wakes it by a spawn, and has it run the task.
pub fn sleep_wake<R: Wait + Clone + Drop + Send + Sync>(
    rt: &R,
    alloc: Global,
    operations: u64,
) -> Option<u64> {
    let ex: Ticked<R> = Executor::new(rt.clone().ok()?, alloc).ok()?;
    let mut count = 0u64;
    for _ in 0..operations {
        let mut tick = ex.tick().ok()?;
        let asleep = tick.poll(&IdleTicker) == Poll::Pending;
        ex.spawn(Yields::READY).ok()?.detach();
        if asleep && tick.poll(&IdleTicker) == Poll::Ready(()) {
            count = count.saturating_add(1);
        }
    }
    Some(count)
}
