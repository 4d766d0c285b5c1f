//! Rows whose tasks are run by runs.
//!
//! Their executors have a type of their own, and so code of their own.
use crate::futures::{Rally, Yields};
use crate::timing::{Barrier, Ran};
use async_executor::{Executor, Future, OutOfMemory, Poll, TaskWaker, Wake};
use std::alloc::Global;
use std::rt::Clock;
use std::sync::Wait;
use std::thread::{self, Threads};
use std::time::Instant;

/// How many tasks a row of many tasks has.
const TASKS: u64 = 1_000;

/// Wakes nobody, and is a run's.
#[derive(Drop)]
pub struct IdleRunner;

impl Wake for IdleRunner {
    fn wake(&self) {}

    fn copy(&self) -> Result<Self, OutOfMemory> {
        Ok(IdleRunner)
    }
}

/// Is never ready.
#[derive(Drop)]
pub struct Never;

impl<W> Future<W> for Never {
    type Output = ();

    fn poll(&mut self, _w: &W) -> Poll<()> {
        Poll::Pending
    }
}

/// Polls a run with this waker until all tasks have ended. `None` if memory was refused.
pub fn run_all<F, W, R>(rt: &R, ex: &Executor<F, W, R>, w: &W) -> Option<()>
where
    F: Future<TaskWaker<W, R>, Output = u64> + Send,
    W: Wake + Send,
    R: Wait + Clone + Drop + Send + Sync,
{
    let mut run = ex.run(Never).ok()?;
    for _ in rt.forever() {
        run.poll(w);
        if ex.is_empty() {
            break;
        }
    }
    Some(())
}

/// Has a run on each of this many threads run so many tasks with copies of this future, each of which is
/// polled this often. `None` if memory or the time was refused.
pub fn run_copies<F, R>(
    rt: &R,
    alloc: Global,
    threads: u32,
    tasks: u64,
    future: &F,
    polls: u64,
) -> Option<Ran>
where
    F: Future<TaskWaker<IdleRunner, R>, Output = u64> + Copy + Send + Sync,
    R: Wait + Clone + Drop + Send + Sync + Threads + Clock,
{
    let ex = Executor::new(rt.clone().ok()?, alloc).ok()?;
    for _ in 0..tasks {
        ex.spawn(*future).ok()?.detach();
    }
    let start = on_threads(rt, threads, &ex, 0, future)?;
    Ran::since(rt, start, tasks.saturating_mul(polls))
}

/// Has a run on each of this many threads run so many tasks that wake themselves, each of which is
/// polled as often, so that all together are polled this often or a little more. They were spawned before.
pub fn run_yields<R: Wait + Clone + Drop + Send + Sync + Threads + Clock>(
    rt: &R,
    alloc: Global,
    threads: u32,
    tasks: u64,
    operations: u64,
) -> Option<Ran> {
    let yields = operations.saturating_sub(1) / tasks.max(1);
    let polls = yields.saturating_add(1);
    run_copies(rt, alloc, threads, tasks, &Yields::after(yields), polls)
}

/// Has 1,000 tasks that wake themselves run on this many threads.
pub fn threads_yield<R: Wait + Clone + Drop + Send + Sync + Threads + Clock>(
    rt: &R,
    alloc: Global,
    threads: u32,
    operations: u64,
) -> Option<Ran> {
    run_yields(rt, alloc, threads, TASKS, operations)
}

/// Spawns and detaches this many tasks that are ready at their first poll, the same number on each
/// of this many threads, and has a run on each of them run tasks.
pub fn threads_spawn<R: Wait + Clone + Drop + Send + Sync + Threads + Clock>(
    rt: &R,
    alloc: Global,
    threads: u32,
    operations: u64,
) -> Option<Ran> {
    let ex = Executor::new(rt.clone().ok()?, alloc).ok()?;
    let each = operations / u64::from(threads.max(1));
    let start = on_threads(rt, threads, &ex, each, &Yields::READY)?;
    Ran::since(rt, start, each.saturating_mul(u64::from(threads)))
}

// Has each of this many threads spawn so many copies of this future and then run tasks. Gives when they
// began.
fn on_threads<F, R>(
    rt: &R,
    threads: u32,
    ex: &Executor<F, IdleRunner, R>,
    spawns: u64,
    future: &F,
) -> Option<Instant>
where
    F: Future<TaskWaker<IdleRunner, R>, Output = u64> + Copy + Send + Sync,
    R: Wait + Clone + Drop + Send + Sync + Threads + Clock,
{
    let barrier = &Barrier::new(u64::from(threads));
    thread::scope(thread::scope_env(), rt, |scope| {
        for _ in 1..threads {
            let work = move || {
                barrier.wait(rt)?;
                spawn_and_run(rt, ex, spawns, future)
            };
            if scope.spawn(work).is_err() {
                barrier.leave();
            }
        }
        let start = barrier.open(rt)?;
        spawn_and_run(rt, ex, spawns, future)?;
        Some(start)
    })
}

// Spawns so many copies of this future and then runs tasks.
fn spawn_and_run<F, R>(
    rt: &R,
    ex: &Executor<F, IdleRunner, R>,
    spawns: u64,
    future: &F,
) -> Option<()>
where
    F: Future<TaskWaker<IdleRunner, R>, Output = u64> + Copy + Send,
    R: Wait + Clone + Drop + Send + Sync,
{
    for _ in 0..spawns {
        ex.spawn(*future).ok()?.detach();
    }
    run_all(rt, ex, &IdleRunner)
}

/// Has a run run two tasks that wake each other. Gives the number of polls.
pub fn ping_pong<R: Wait + Clone + Drop + Send + Sync>(
    rt: &R,
    alloc: Global,
    operations: u64,
) -> Option<u64> {
    let ex = Executor::new(rt.clone().ok()?, alloc).ok()?;
    let each = operations.saturating_sub(1) / 2;
    let (one, two) = Rally::pair(alloc, each).ok()?;
    ex.spawn(one).ok()?.detach();
    ex.spawn(two).ok()?.detach();
    run_all(rt, &ex, &IdleRunner)?;
    Some(each.saturating_add(1).saturating_mul(2))
}
