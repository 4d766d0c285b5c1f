//! Rows of local and static executors, each of the shape of one of a shared executor; and that of a
//! shared one whose run has an own future of the same kind.
//!
//! Each row has a type of its own for its wakers, and so code of its own.
use crate::futures::Yields;
use async_executor::{
    Executor, Future, LocalExecutor, OutOfMemory, Poll, StaticExecutor, StaticLocalExecutor, Wake,
};
use std::alloc::Global;
use std::sync::Wait;

/// Wakes nobody, and is that of one row.
#[derive(Drop)]
struct Idle<const ROW: usize>;

impl<const ROW: usize> Wake for Idle<ROW> {
    fn wake(&self) {}

    fn copy(&self) -> Result<Self, OutOfMemory> {
        Ok(Idle)
    }
}

// Looks for so many tasks, and gives how many it ran.
macro_rules! ticks {
    ($ex:expr, $operations:expr) => {{
        let mut count = 0u64;
        for _ in 0..$operations {
            if $ex.try_tick() {
                count = count.saturating_add(1);
            }
        }
        count
    }};
}

// Spawns, detaches and runs a task, over and over.
macro_rules! spawn_try_tick {
    ($ex:expr, $operations:expr) => {{
        let ex = $ex;
        let mut count = 0u64;
        for _ in 0..$operations {
            ex.spawn(Yields::READY).ok()?.detach();
            if ex.try_tick() {
                count = count.saturating_add(1);
            }
        }
        Some(count)
    }};
}

// Spawns all tasks, then runs them.
macro_rules! spawn_drain {
    ($ex:expr, $operations:expr) => {{
        let ex = $ex;
        for _ in 0..$operations {
            ex.spawn(Yields::READY).ok()?.detach();
        }
        Some(ticks!(ex, $operations))
    }};
}

// Has a run run so many tasks that wake themselves, all of which are polled this often together. It
// awaits the handle of the last one, which ends last. Gives the number of polls.
macro_rules! yield_run {
    ($rt:expr, $ex:expr, $tasks:expr, $operations:expr) => {{
        let ex = $ex;
        let tasks: u64 = $tasks;
        let yields = $operations.saturating_sub(1) / tasks;
        for _ in 1..tasks {
            ex.spawn(Yields::after(yields)).ok()?.detach();
        }
        let mut run = ex.run(ex.spawn(Yields::after(yields)).ok()?).ok()?;
        for _ in $rt.forever() {
            if run.poll(&Idle) != Poll::Pending {
                break;
            }
        }
        Some(yields.saturating_add(1).saturating_mul(tasks))
    }};
}

/// Spawns, detaches and runs a task of a local executor, over and over.
pub fn local_spawn_try_tick<R: Wait + Clone + Drop>(
    rt: &R,
    alloc: Global,
    operations: u64,
) -> Option<u64> {
    let ex: LocalExecutor<Yields, Idle<0>, R> = LocalExecutor::new(rt.clone().ok()?, alloc).ok()?;
    spawn_try_tick!(ex, operations)
}

/// Spawns all tasks of a local executor, then runs them.
pub fn local_spawn_drain<R: Wait + Clone + Drop>(
    rt: &R,
    alloc: Global,
    operations: u64,
) -> Option<u64> {
    let ex: LocalExecutor<Yields, Idle<1>, R> = LocalExecutor::new(rt.clone().ok()?, alloc).ok()?;
    spawn_drain!(ex, operations)
}

/// Runs a task of a local executor, which wakes itself.
pub fn local_yield_try_tick<R: Wait + Clone + Drop>(
    rt: &R,
    alloc: Global,
    operations: u64,
) -> Option<u64> {
    let ex: LocalExecutor<Yields, Idle<2>, R> = LocalExecutor::new(rt.clone().ok()?, alloc).ok()?;
    ex.spawn(Yields::after(operations)).ok()?.detach();
    Some(ticks!(ex, operations))
}

/// Has a local run run so many tasks that wake themselves.
pub fn local_yield_run<R: Wait + Clone + Drop>(
    rt: &R,
    alloc: Global,
    tasks: u64,
    operations: u64,
) -> Option<u64> {
    let ex: LocalExecutor<Yields, Idle<3>, R> = LocalExecutor::new(rt.clone().ok()?, alloc).ok()?;
    yield_run!(rt, ex, tasks.max(1), operations)
}

/// Spawns, detaches and runs a task of a static executor, over and over.
pub fn static_spawn_try_tick<R: Wait + Clone + Drop + Send + Sync>(
    rt: &R,
    alloc: Global,
    operations: u64,
) -> Option<u64> {
    let ex: StaticExecutor<Yields, Idle<4>, R> = StaticExecutor::new(rt.clone().ok()?, alloc).ok()?;
    spawn_try_tick!(ex, operations)
}

/// Spawns all tasks of a static executor, then runs them.
pub fn static_spawn_drain<R: Wait + Clone + Drop + Send + Sync>(
    rt: &R,
    alloc: Global,
    operations: u64,
) -> Option<u64> {
    let ex: StaticExecutor<Yields, Idle<5>, R> = StaticExecutor::new(rt.clone().ok()?, alloc).ok()?;
    spawn_drain!(ex, operations)
}

/// Has a run of a static executor run a task that wakes itself.
pub fn static_yield_run<R: Wait + Clone + Drop + Send + Sync>(
    rt: &R,
    alloc: Global,
    operations: u64,
) -> Option<u64> {
    let ex: StaticExecutor<Yields, Idle<6>, R> = StaticExecutor::new(rt.clone().ok()?, alloc).ok()?;
    yield_run!(rt, ex, 1, operations)
}

/// Has a run of a shared executor run a task that wakes itself.
pub fn awaited_yield_run<R: Wait + Clone + Drop + Send + Sync>(
    rt: &R,
    alloc: Global,
    operations: u64,
) -> Option<u64> {
    let ex: Executor<Yields, Idle<8>, R> = Executor::new(rt.clone().ok()?, alloc).ok()?;
    yield_run!(rt, ex, 1, operations)
}

/// Spawns, detaches and runs a task of a static local executor, over and over.
pub fn static_local_spawn_try_tick<R: Wait + Clone + Drop>(
    rt: &R,
    alloc: Global,
    operations: u64,
) -> Option<u64> {
    let ex: StaticLocalExecutor<Yields, Idle<7>, R> = StaticLocalExecutor::new(
        rt.clone().ok()?,
        alloc,
    ).ok()?;
    spawn_try_tick!(ex, operations)
}
