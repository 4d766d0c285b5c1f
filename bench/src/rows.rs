//! What is measured.
use crate::awaiting::{spawn_all_await_run, spawn_await_run, spawn_many_run};
use crate::busy::Busy;
use crate::closing::{close_idle, close_queued, drop_idle};
use crate::crossing::Crossing;
use crate::futures::{IdleWaker, Large, Yields};
use crate::jobs::{spawner_job, spawner_jobs};
use crate::locking::Locking;
use crate::messaging::Messaging;
use crate::names;
use crate::parking::{one_spawner, parked_yield, wake_latency};
use crate::priorities::priority_try_tick;
use crate::running::{ping_pong, run_yields, threads_spawn, threads_yield};
use crate::searching::{search_empty, search_own, search_steal};
use crate::sharding::Sharded;
use crate::sleeping::{idle_run, yield_beside_runs};
use crate::staying::{
    awaited_yield_run, local_spawn_drain, local_spawn_try_tick, local_yield_run,
    local_yield_try_tick, static_local_spawn_try_tick, static_spawn_drain, static_spawn_try_tick,
    static_yield_run,
};
use crate::threads::threads_try_tick;
use crate::ticking::{sleep_wake, spawn_tick, yield_tick};
use crate::timers::Times;
use crate::timing::Ran;
use crate::waking::{wake_idle, wake_one_of};
use async_executor::{Executor, Future, Poll, TaskWaker};
use std::alloc::Global;
use std::rt::Clock;
use std::sync::Wait;
use std::thread::Threads;
use std::time::Instant;

/// One kind of measured operation.
#[derive(Debug, Clone, Copy, PartialEq, Eq)]
pub enum Row {
    /// Spawn, detach and run a task.
    SpawnTryTick,
    /// Spawn all tasks, then run them.
    SpawnDrain,
    /// Run one task that wakes itself.
    YieldTryTick,
    /// Look for a task when there is none.
    EmptyTryTick,
    /// Spawn a task, drop its handle and run it.
    SpawnDrop,
    /// Spawn a task, cancel it, run it and ask for its output.
    SpawnCancel,
    /// Poll the handle of a task that is not run.
    PollHandlePending,
    /// Wake an idle task, and run it.
    WakeIdle,
    /// Wake one of so many idle tasks, at random, and run it.
    WakeOneOf(usize),
    /// Spawn, detach and run a task, by a tick of its own.
    SpawnTick,
    /// Hand in a job by a spawner, and run the task of it.
    SpawnerJob,
    /// Hand in all jobs by a spawner, then run their tasks.
    SpawnerJobs,
    /// Run one task that wakes itself, by a tick for each of its polls.
    YieldTick,
    /// Put a tick to sleep, wake it by a spawn, and have it run the task.
    SleepWake,
    /// Run one task of the last of three levels, which wakes itself.
    PriorityTryTick,
    /// Run one task that wakes itself, by a run.
    YieldRun,
    /// The same, while so many other runs sleep.
    YieldBesideRuns(usize),
    /// Run two tasks that wake each other, by a run.
    PingPong,
    /// Poll a run that finds nothing, while so many other runs sleep.
    IdleRun(usize),
    /// Spawn a task, which a run's own future awaits, one after another.
    SpawnAwaitRun,
    /// Spawn all tasks, then await them in the own future of a run.
    SpawnAllAwaitRun,
    /// The same, but they are spawned by one call.
    SpawnManyRun,
    /// Drop an executor whose tasks are idle.
    DropIdle,
    /// Close cells whose tasks are idle.
    CloseIdle,
    /// Close cells whose tasks are queued, some of them for four runners.
    CloseQueued,
    /// Search as a runner whose own queue has tasks.
    SearchOwn,
    /// Search as a runner that steals 300 tasks of another by halves.
    SearchSteal,
    /// Search as one of four runners, with all queues empty.
    SearchEmpty4,
    /// Spawn, detach and run a task whose future has 4,096 bytes.
    SpawnTryTick4k,
    /// The same, with the future in a box.
    SpawnTryTick4kBoxed,
    /// Run 1,000 tasks that wake themselves, on so many threads.
    ThreadsTryTick(u32),
    /// The same by a run on each of so many threads, which never park.
    ThreadsYield(u32),
    /// Spawn tasks, and run them by a run, on each of so many threads.
    ThreadsSpawn(u32),
    /// Run 10,000 tasks that wake themselves, by a run on each of so many threads, which park.
    ParkedYield(usize),
    /// Spawn tasks on one thread, and run them by a run on each of so many others, which park.
    OneSpawner(usize),
    /// From a spawn to the poll of its task by a run on another thread, which was parked.
    WakeLatency,
    /// A row whose tasks work in each poll.
    Busy(Busy),
    /// A row of a local or static executor.
    Staying(Staying),
    /// A row of timers, or of a thread that waits.
    Times(Times),
    /// A row of a sharded executor.
    Sharded(Sharded),
    /// A row of a channel.
    Messaging(Messaging),
    /// A row of a channel between threads.
    Crossing(Crossing),
    /// A row of a lock, or of a signal.
    Locking(Locking),
}

/// A row of a local or static executor, of the shape of one of a shared executor, or that one.
#[derive(Debug, Clone, Copy, PartialEq, Eq)]
pub enum Staying {
    LocalSpawnTryTick,
    LocalSpawnDrain,
    LocalYieldTryTick,
    /// So many tasks.
    LocalYieldRun(u64),
    StaticSpawnTryTick,
    StaticSpawnDrain,
    StaticYieldRun,
    AwaitedYieldRun,
    StaticLocalSpawnTryTick,
}

impl Staying {
    fn run<R: Wait + Clone + Drop + Send + Sync>(
        self,
        rt: &R,
        alloc: Global,
        operations: u64,
    ) -> Option<u64> {
        match self {
            Staying::LocalSpawnTryTick => local_spawn_try_tick(rt, alloc, operations),
            Staying::LocalSpawnDrain => local_spawn_drain(rt, alloc, operations),
            Staying::LocalYieldTryTick => local_yield_try_tick(rt, alloc, operations),
            Staying::LocalYieldRun(tasks) => local_yield_run(rt, alloc, tasks, operations),
            Staying::StaticSpawnTryTick => static_spawn_try_tick(rt, alloc, operations),
            Staying::StaticSpawnDrain => static_spawn_drain(rt, alloc, operations),
            Staying::StaticYieldRun => static_yield_run(rt, alloc, operations),
            Staying::AwaitedYieldRun => awaited_yield_run(rt, alloc, operations),
            Staying::StaticLocalSpawnTryTick => static_local_spawn_try_tick(rt, alloc, operations),
        }
    }
}

impl Row {
    /// The row of this name. `None` if there is none, or memory was refused.
    pub fn from_name(alloc: Global, name: &str) -> Option<Row> {
        for (known, row) in names::all(alloc).ok()? {
            if known == name {
                return Some(row);
            }
        }
        Some(Row::Busy(Busy::from_name(name)?))
    }

    /// The same, with no more than 1,000 idle tasks and ten that wait, so that it soon ends.
    pub fn small(self) -> Row {
        match self {
            Row::WakeOneOf(_) => Row::WakeOneOf(1_000),
            Row::Times(row) => Row::Times(row.small()),
            Row::Messaging(Messaging::Waits(_)) => Row::Messaging(Messaging::Waits(10)),
            Row::Locking(Locking::SignalWaits(_)) => Row::Locking(Locking::SignalWaits(10)),
            row => row,
        }
    }

    /// Runs this many operations on a new executor. `None` if memory, a thread or the time was
    /// refused.
    pub fn run<R: Wait + Clone + Drop + Send + Sync + Threads + Clock>(
        self,
        rt: &R,
        alloc: Global,
        operations: u64,
    ) -> Option<Ran> {
        match self {
            Row::WakeOneOf(tasks) => wake_one_of(rt, alloc, tasks, operations),
            Row::YieldRun => run_yields(rt, alloc, 1, 1, operations),
            Row::ThreadsYield(threads) => threads_yield(rt, alloc, threads, operations),
            Row::ThreadsSpawn(threads) => threads_spawn(rt, alloc, threads, operations),
            Row::ParkedYield(threads) => parked_yield(rt, alloc, threads, operations),
            Row::OneSpawner(threads) => one_spawner(rt, alloc, threads, operations),
            Row::Busy(row) => row.run(rt, alloc, operations),
            Row::WakeLatency => wake_latency(rt, alloc, operations),
            Row::Sharded(row) => row.run(rt, alloc, operations),
            Row::DropIdle => drop_idle(rt, alloc, operations),
            Row::CloseIdle => close_idle(rt, alloc, operations),
            Row::CloseQueued => close_queued(rt, alloc, operations),
            Row::Times(row) => row.run(rt, alloc, operations),
            _ => {
                let start = Instant::now(rt).ok()?;
                let count = self.run_whole(rt, alloc, operations)?;
                Ran::since(rt, start, count)
            }
        }
    }

    // The rows that are measured as a whole. Gives the number of operations that did what they were
    // to do.
    fn run_whole<R: Wait + Clone + Drop + Send + Sync + Threads>(
        self,
        rt: &R,
        alloc: Global,
        operations: u64,
    ) -> Option<u64> {
        match self {
            Row::Staying(row) => row.run(rt, alloc, operations),
            Row::Messaging(row) => row.run(rt, alloc, operations),
            Row::Crossing(row) => row.run(rt, alloc, operations),
            Row::Locking(row) => row.run(rt, alloc, operations),
            Row::WakeIdle => wake_idle(rt, alloc, operations),
            Row::SpawnTick => spawn_tick(rt, alloc, operations),
            Row::SpawnerJob => spawner_job(rt, alloc, operations),
            Row::SpawnerJobs => spawner_jobs(rt, alloc, operations),
            Row::YieldTick => yield_tick(rt, alloc, operations),
            Row::SleepWake => sleep_wake(rt, alloc, operations),
            Row::PriorityTryTick => priority_try_tick(rt, alloc, operations),
            Row::YieldBesideRuns(others) => yield_beside_runs(rt, alloc, others, operations),
            Row::PingPong => ping_pong(rt, alloc, operations),
            Row::IdleRun(others) => idle_run(rt, alloc, others, operations),
            Row::SpawnAwaitRun => spawn_await_run(rt, alloc, operations),
            Row::SpawnAllAwaitRun => spawn_all_await_run(rt, alloc, operations),
            Row::SpawnManyRun => spawn_many_run(rt, alloc, operations),
            Row::SearchOwn => search_own(alloc, operations),
            Row::SearchSteal => search_steal(alloc, operations),
            Row::SearchEmpty4 => search_empty(alloc, operations),
            Row::SpawnTryTick4k => spawn_large(rt, alloc, operations),
            Row::SpawnTryTick4kBoxed => spawn_boxed(rt, alloc, operations),
            Row::ThreadsTryTick(threads) => threads_try_tick(rt, alloc, threads, operations),
            _ => self.run_by_ticks(rt, alloc, operations),
        }
    }

    // The rows of `try_tick` and of handles on one thread whose futures are `Yields`.
    fn run_by_ticks<R: Wait + Clone + Drop + Send + Sync>(
        self,
        rt: &R,
        alloc: Global,
        operations: u64,
    ) -> Option<u64> {
        let ex = Executor::new(rt.clone().ok()?, alloc).ok()?;
        match self {
            Row::SpawnTryTick => spawn_try_tick(&ex, operations),
            Row::SpawnDrain => spawn_drain(&ex, operations),
            Row::YieldTryTick => yield_try_tick(&ex, operations),
            Row::EmptyTryTick => Some(empty_try_tick(&ex, operations)),
            Row::SpawnDrop => spawn_drop(&ex, operations),
            Row::SpawnCancel => spawn_cancel(&ex, operations),
            Row::PollHandlePending => poll_handle_pending(&ex, operations),
            _ => None,
        }
    }
}

fn ticks<F, R>(ex: &Executor<F, IdleWaker, R>, times: u64) -> u64
where
    F: Future<TaskWaker<IdleWaker, R>, Output = u64> + Send,
    R: Wait + Clone + Drop + Send + Sync,
{
    let mut count = 0u64;
    for _ in 0..times {
        if ex.try_tick() {
            count = count.saturating_add(1);
        }
    }
    count
}

fn spawn_try_tick<R: Wait + Clone + Drop + Send + Sync>(
    ex: &Executor<Yields, IdleWaker, R>,
    operations: u64,
) -> Option<u64> {
    let mut count = 0u64;
    for _ in 0..operations {
        ex.spawn(Yields::READY).ok()?.detach();
        if ex.try_tick() {
            count = count.saturating_add(1);
        }
    }
    Some(count)
}

fn spawn_drain<R: Wait + Clone + Drop + Send + Sync>(
    ex: &Executor<Yields, IdleWaker, R>,
    operations: u64,
) -> Option<u64> {
    for _ in 0..operations {
        ex.spawn(Yields::READY).ok()?.detach();
    }
    Some(ticks(ex, operations))
}

fn yield_try_tick<R: Wait + Clone + Drop + Send + Sync>(
    ex: &Executor<Yields, IdleWaker, R>,
    operations: u64,
) -> Option<u64> {
    ex.spawn(Yields::after(operations)).ok()?.detach();
    Some(ticks(ex, operations))
}

fn empty_try_tick<R: Wait + Clone + Drop + Send + Sync>(
    ex: &Executor<Yields, IdleWaker, R>,
    operations: u64,
) -> u64 {
    operations.saturating_sub(ticks(ex, operations))
}

fn spawn_drop<R: Wait + Clone + Drop + Send + Sync>(
    ex: &Executor<Yields, IdleWaker, R>,
    operations: u64,
) -> Option<u64> {
    let mut count = 0u64;
    for _ in 0..operations {
        drop(ex.spawn(Yields::READY).ok()?);
        if ex.try_tick() {
            count = count.saturating_add(1);
        }
    }
    Some(count)
}

fn spawn_cancel<R: Wait + Clone + Drop + Send + Sync>(
    ex: &Executor<Yields, IdleWaker, R>,
    operations: u64,
) -> Option<u64> {
    let mut count = 0u64;
    for _ in 0..operations {
        let mut cancel = ex.spawn(Yields::READY).ok()?.cancel();
        if ex.try_tick() && cancel.poll(&IdleWaker) == Poll::Ready(None) {
            count = count.saturating_add(1);
        }
    }
    Some(count)
}

fn poll_handle_pending<R: Wait + Clone + Drop + Send + Sync>(
    ex: &Executor<Yields, IdleWaker, R>,
    operations: u64,
) -> Option<u64> {
    let mut task = ex.spawn(Yields::READY).ok()?;
    let mut count = 0u64;
    for _ in 0..operations {
        if task.poll(&IdleWaker) == Poll::Pending {
            count = count.saturating_add(1);
        }
    }
    Some(count)
}

fn spawn_large<R: Wait + Clone + Drop + Send + Sync>(
    rt: &R,
    alloc: Global,
    operations: u64,
) -> Option<u64> {
    let ex: Executor<Large, IdleWaker, R> = Executor::new(rt.clone().ok()?, alloc).ok()?;
    let mut count = 0u64;
    for _ in 0..operations {
        ex.spawn(Large::new()).ok()?.detach();
        if ex.try_tick() {
            count = count.saturating_add(1);
        }
    }
    Some(count)
}

fn spawn_boxed<R: Wait + Clone + Drop + Send + Sync>(
    rt: &R,
    alloc: Global,
    operations: u64,
) -> Option<u64> {
    let ex: Executor<Box<Large>, IdleWaker, R> = Executor::new(rt.clone().ok()?, alloc).ok()?;
    let mut count = 0u64;
    for _ in 0..operations {
        ex.spawn(Large::boxed(alloc).ok()?).ok()?.detach();
        if ex.try_tick() {
            count = count.saturating_add(1);
        }
    }
    Some(count)
}
