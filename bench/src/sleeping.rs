//! Rows with runs that sleep.
//!
//! Their executors have a type of their own, and so code of their own.
use crate::futures::Yields;
use crate::running::{Never, run_all};
use async_executor::{Executor, Future, OutOfMemory, Poll, Run, Wake};
use std::alloc::Global;
use std::sync::Wait;

/// Wakes nobody, and is a sleeping run's.
#[derive(Drop)]
struct IdleSleeper;

impl Wake for IdleSleeper {
    fn wake(&self) {}

    fn copy(&self) -> Result<Self, OutOfMemory> {
        Ok(IdleSleeper)
    }
}

type Slept<R> = Executor<Yields, IdleSleeper, R>;

type Sleeper<'a, R> = Run<'a, Yields, IdleSleeper, R, Never>;

// Polls the run this often, and counts the polls that were pending.
fn pending<R: Wait + Clone + Drop + Send + Sync>(run: &mut Sleeper<'_, R>, polls: u64) -> u64 {
    let mut count = 0u64;
    for _ in 0..polls {
        if run.poll(&IdleSleeper) == Poll::Pending {
            count = count.saturating_add(1);
        }
    }
    count
}

// So many runs that sleep. `None` if memory was refused.
fn sleepers<'a, R: Wait + Clone + Drop + Send + Sync>(
    alloc: Global,
    ex: &'a Slept<R>,
    runs: usize,
) -> Option<Vec<Sleeper<'a, R>>> {
    let mut sleepers = Vec::new(alloc);
    for _ in 0..runs {
        let mut run = ex.run(Never).ok()?;
        pending(&mut run, 1);
        sleepers.push(run).ok()?;
    }
    Some(sleepers)
}

/// Polls a run that finds nothing, over and over, while so many others sleep.
pub fn idle_run<R: Wait + Clone + Drop + Send + Sync>(
    rt: &R,
    alloc: Global,
    others: usize,
    operations: u64,
) -> Option<u64> {
    let ex = Executor::new(rt.clone().ok()?, alloc).ok()?;
    let _others = sleepers(alloc, &ex, others)?;
    let mut run = ex.run(Never).ok()?;
    Some(pending(&mut run, operations))
}

/// Has a run run a task that wakes itself, while so many other runs sleep. Gives the number of
/// polls.
pub fn yield_beside_runs<R: Wait + Clone + Drop + Send + Sync>(
    rt: &R,
    alloc: Global,
    others: usize,
    operations: u64,
) -> Option<u64> {
    let ex = Executor::new(rt.clone().ok()?, alloc).ok()?;
    let _others = sleepers(alloc, &ex, others)?;
    ex.spawn(Yields::after(operations.saturating_sub(1)))
        .ok()?
        .detach();
    run_all(rt, &ex, &IdleSleeper)?;
    Some(operations)
}
