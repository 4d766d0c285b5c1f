//! A row whose tasks stand in the levels of a priority executor.
//!
//! Its executors have a type of their own, and so code of their own.
use crate::futures::Yields;
use async_executor::{OutOfMemory, Wake};
use priority_executor::PriorityExecutor;
use std::alloc::Global;
use std::sync::Wait;

/// Wakes nobody, and awaits tasks of levels.
#[derive(Drop)]
struct IdleLevel;

impl Wake for IdleLevel {
    fn wake(&self) {}

    fn copy(&self) -> Result<Self, OutOfMemory> {
        Ok(IdleLevel)
    }
}

/// Runs one task of the last of three levels, which wakes itself.
pub fn priority_try_tick<R: Wait + Clone + Drop + Send + Sync>(
    rt: &R,
    alloc: Global,
    operations: u64,
) -> Option<u64> {
    let ex: PriorityExecutor<Yields, IdleLevel, R, 3> = PriorityExecutor::new(
        rt.clone().ok()?,
        alloc,
    ).ok()?;
    ex.spawn(2, Yields::after(operations)).ok()?.detach();
    let mut count = 0u64;
    for _ in 0..operations {
        if ex.try_tick() {
            count = count.saturating_add(1);
        }
    }
    Some(count)
}
