//! Rows that wake idle tasks.
use crate::futures::{IdleWaker, LeavesWaker};
use crate::timing::Ran;
use async_executor::{Executor, TaskWaker, Wake};
use std::alloc::Global;
use std::rt::Clock;
use std::sync::{Arc, Mutex, Wait};
use std::time::Instant;

/// An executor whose tasks leave their wakers.
pub type Idle<R> = Executor<LeavesWaker<IdleWaker, R>, IdleWaker, R>;

/// The wakers that tasks left.
pub type Wakers<R> = Vec<TaskWaker<IdleWaker, R>>;

/// Spawns so many tasks, runs them until all are idle, and gives their wakers.
pub fn idle_tasks<R: Wait + Clone + Drop + Send + Sync>(
    rt: &R,
    alloc: Global,
    ex: &Idle<R>,
    tasks: usize,
) -> Option<Wakers<R>> {
    let place = Arc::new(alloc, Mutex::new(Vec::new(alloc))).ok()?;
    for _ in 0..tasks {
        ex.spawn(LeavesWaker::at(&place).ok()?).ok()?.detach();
    }
    for _ in 0..tasks {
        ex.try_tick();
    }
    let left = std::mem::replace(&mut *place.lock(rt), Vec::new(alloc));
    Some(left)
}

/// Wakes an idle task and runs it, over and over.
pub fn wake_idle<R: Wait + Clone + Drop + Send + Sync>(
    rt: &R,
    alloc: Global,
    operations: u64,
) -> Option<u64> {
    let ex: Idle<R> = Executor::new(rt.clone().ok()?, alloc).ok()?;
    let left = idle_tasks(rt, alloc, &ex, 1)?;
    let waker = left.first()?;
    let mut count = 0u64;
    for _ in 0..operations {
        waker.wake();
        if ex.try_tick() {
            count = count.saturating_add(1);
        }
    }
    Some(count)
}

// The next number of a walk in which each follows from the one before.
fn step(number: u64) -> u64 {
    number
        .wrapping_mul(6_364_136_223_846_793_005)
        .wrapping_add(1_442_695_040_888_963_407)
}

/// Wakes one of so many idle tasks, at random, and runs it, over and over. The tasks are spawned
/// before.
#[inline(always)]
pub fn wake_one_of<R: Wait + Clone + Drop + Send + Sync + Clock>(
    rt: &R,
    alloc: Global,
    tasks: usize,
    operations: u64,
) -> Option<Ran> {
    let ex: Idle<R> = Executor::new(rt.clone().ok()?, alloc).ok()?;
    let left = idle_tasks(rt, alloc, &ex, tasks)?;
    let start = Instant::now(rt).ok()?;
    let mut walk = 0x9E37_79B9_7F4A_7C15u64;
    let mut count = 0u64;
    for _ in 0..operations {
        walk = step(walk);
        let place = ((walk >> 33) as usize).checked_rem(tasks)?;
        left.get(place)?.wake();
        if ex.try_tick() {
            count = count.saturating_add(1);
        }
    }
    Ran::since(rt, start, count)
}
