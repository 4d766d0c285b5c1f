//! Rows that close cells, and drop executors.
use crate::searching::{Tasks, runner, search_once, spend_if, take_all, tasks};
use crate::timing::Ran;
use crate::waking::{Idle, idle_tasks};
use async_executor::Executor;
use std::alloc::Global;
use std::rt::Clock;
use std::sync::Wait;
use std::time::Instant;

/// Drops an executor with so many idle tasks, which are spawned and run before. Gives how many were
/// idle.
pub fn drop_idle<R: Wait + Clone + Drop + Send + Sync + Clock>(
    rt: &R,
    alloc: Global,
    operations: u64,
) -> Option<Ran> {
    let ex: Idle<R> = Executor::new(rt.clone().ok()?, alloc).ok()?;
    let left = idle_tasks(rt, alloc, &ex, usize::try_from(operations).ok()?)?;
    let start = Instant::now(rt).ok()?;
    drop(ex);
    Ran::since(rt, start, left.len() as u64)
}

// Closes the cells. Gives how many tasks are queued then.
fn close(rt: &impl Clock, mut cells: Tasks) -> Option<Ran> {
    let start = Instant::now(rt).ok()?;
    spend_if(cells.close());
    Ran::since(rt, start, cells.global_len() as u64)
}

/// Closes cells with so many idle tasks.
pub fn close_idle(rt: &impl Clock, alloc: Global, operations: u64) -> Option<Ran> {
    let (mut cells, _) = tasks(alloc, usize::try_from(operations).ok()?)?;
    let key = runner(&mut cells, alloc)?;
    for _ in 0..operations {
        search_once(&mut cells, key, 0);
    }
    close(rt, cells)
}

/// Closes cells with so many scheduled tasks, as many of which stand in the queues of four runners as
/// these have room for.
pub fn close_queued(rt: &impl Clock, alloc: Global, operations: u64) -> Option<Ran> {
    let (mut cells, _) = tasks(alloc, usize::try_from(operations).ok()?)?;
    for _ in 0..4 {
        let key = runner(&mut cells, alloc)?;
        take_all(&mut cells, key);
    }
    close(rt, cells)
}
