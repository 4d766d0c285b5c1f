//! Rows on several threads.
use crate::futures::{IdleWaker, Yields};
use async_executor::Executor;
use std::alloc::Global;
use std::sync::Wait;
use std::sync::atomic::{AtomicU64, Ordering};
use std::thread;
use std::thread::Threads;

const TASKS: u64 = 1_000;

// Runs tasks until all have ended, and adds how many polls that were.
fn tick_until_empty<R: Wait + Clone + Drop + Send + Sync>(
    rt: &R,
    ex: &Executor<Yields, IdleWaker, R>,
    polls: &AtomicU64,
) {
    let mut count = 0u64;
    for _ in rt.forever() {
        if ex.try_tick() {
            count = count.saturating_add(1);
        } else if ex.is_empty() {
            break;
        }
    }
    polls.fetch_add(count, Ordering::SeqCst);
}

/// Has this many threads run 1,000 tasks that wake themselves, each of which is polled as often, so
/// that all together are polled this often or a little more. Gives the number of polls.
pub fn threads_try_tick<R: Wait + Clone + Drop + Send + Sync + Threads>(
    rt: &R,
    alloc: Global,
    threads: u32,
    operations: u64,
) -> Option<u64> {
    let ex = Executor::new(rt.clone().ok()?, alloc).ok()?;
    for _ in 0..TASKS {
        let after = Yields::after(operations.saturating_sub(1) / TASKS);
        ex.spawn(after).ok()?.detach();
    }
    let polls = AtomicU64::new(0);
    let (shared, sum) = (&ex, &polls);
    thread::scope(thread::scope_env(), rt, |scope| {
        for _ in 1..threads {
            let _ = scope.spawn(move || tick_until_empty(rt, shared, sum));
        }
        tick_until_empty(rt, shared, sum);
    });
    Some(polls.load(Ordering::SeqCst))
}
