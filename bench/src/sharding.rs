//! Rows of a sharded executor, each of which is a row of one executor that all threads share, or shows
//! what the shards cost.
//!
//! Its executors have types of their own, and so code of their own.
use crate::futures::Yields;
use crate::parking::{Left, Stop, Stopped, ThreadWaker, block_on, pause};
use crate::running::Never;
use crate::timing::{Barrier, Ran};
use async_executor::{Future, OutOfMemory, Poll, TaskWaker, Wake};
use sharded_executor::ShardedExecutor;
use std::alloc::Global;
use std::hint::spin_loop;
use std::rt::Clock;
use std::sync::Wait;
use std::sync::atomic::{AtomicU64, Ordering};
use std::thread::{self, Threads};
use std::time::{Duration, Instant};

/// How many tasks wake themselves, while threads do not park.
const TASKS: u64 = 1_000;

/// How many wake themselves while runs park.
const PARKED_TASKS: u64 = 10_000;

/// So many steps of a chain of multiplications take some 100 nanoseconds.
const STEPS: u32 = 60;

/// What a row of a sharded executor measures, on so many threads.
#[derive(Debug, Clone, Copy, PartialEq, Eq)]
pub enum Sharded {
    /// 1,000 tasks wake themselves. Threads do not park.
    Yield(usize),
    /// Each thread spawns tasks on its own shard and runs them. Threads do not park.
    Spawn(usize),
    /// 10,000 tasks wake themselves, while runs are driven that park.
    Parked(usize),
    /// One thread spawns tasks on the shards in turn, while runs are driven that park.
    OneSpawner(usize),
    /// The same, all on the first shard.
    OneShard(usize),
    /// 1,000 tasks wake themselves, all on the first shard, and work for so many tenths of a microsecond in
    /// each poll.
    Unbalanced(u32, usize),
    /// From a spawn to the poll of its task, while so many runs are parked.
    WakeLatency(usize),
    /// A run of so many shards is woken by a spawn on its own one, runs that task, and sleeps again.
    Cycle(usize),
}

/// Wakes nobody, and is a run's.
#[derive(Drop)]
struct IdleShard;

impl Wake for IdleShard {
    fn wake(&self) {}

    fn copy(&self) -> Result<Self, OutOfMemory> {
        Ok(IdleShard)
    }
}

/// Wakes itself for a number of polls, in each of which it works, and then says that one task less is
/// left.
#[derive(Drop)]
struct Works<'a> {
    yields: u64,
    steps: u32,
    left: &'a Left,
}

impl<W: Wake, R: Wait + Clone + Drop> Future<TaskWaker<W, R>> for Works<'_> {
    type Output = ();

    fn poll(&mut self, w: &TaskWaker<W, R>) -> Poll<()> {
        if self.steps > 0 && !has_worked(self.yields, self.steps) {
            return Poll::Pending;
        }
        if self.yields == 0 {
            self.left.one_less();
            return Poll::Ready(());
        }
        self.yields -= 1;
        w.wake();
        Poll::Pending
    }
}

// Goes so many steps of a chain, in which each waits for the one before. Each step takes no other number
// than 0 to 0, so its end is never 0, which the compiler does not know. It is one body for all places that
// poll a task, so that a poll works as long by a run as by one who helps.
#[inline(never)]
fn has_worked(seed: u64, steps: u32) -> bool {
    let mut word = seed | 1;
    for _ in 0..steps {
        word = (word ^ (word >> 29)).wrapping_mul(0x9E37_79B9_7F4A_7C15);
    }
    word != 0
}

// An executor with so many shards, of which there has to be one.
fn executor<F, W, R>(rt: &R, alloc: Global, shards: usize) -> Option<ShardedExecutor<F, W, R>>
where
    F: Future<TaskWaker<W, R>> + Send,
    F::Output: Send,
    W: Wake + Send,
    R: Wait + Clone + Drop + Send + Sync,
{
    if shards == 0 {
        return None;
    }
    ShardedExecutor::new(rt.clone().ok()?, alloc, shards).ok()
}

/// What the threads of a row tell one another.
#[derive(Drop)]
struct Told {
    // They begin once all are there.
    barrier: Barrier,
    // How many have seen their own shard empty.
    ended: AtomicU64,
}

impl Told {
    // Has nobody wait for this thread, which does nothing more.
    fn give_up(&self) {
        self.barrier.leave();
        self.ended.fetch_add(1, Ordering::SeqCst);
    }
}

// Spawns so many tasks on the shard of this number, and polls its run until that shard and those of the
// other threads are empty. Gives when the threads began. `None` if there is no such shard, or memory or the
// time is refused.
fn run_all<R: Wait + Clone + Drop + Send + Sync + Clock>(
    rt: &R,
    ex: &ShardedExecutor<Yields, IdleShard, R>,
    number: usize,
    spawns: u64,
    told: &Told,
) -> Option<Instant> {
    if number >= ex.shards() {
        return None;
    }
    let shard = ex.shard(number);
    let mut run = ex.run(number, Never).ok()?;
    let start = if number == 0 {
        told.barrier.open(rt)?
    } else {
        told.barrier.wait(rt)?
    };
    for _ in 0..spawns {
        shard.spawn(Yields::READY).ok()?.detach();
    }
    for _ in rt.forever() {
        run.poll(&IdleShard);
        if shard.is_empty() {
            break;
        }
    }
    // Each thread asks its own shard alone: to ask the others again and again would take their locks.
    told.ended.fetch_add(1, Ordering::SeqCst);
    for _ in rt.forever() {
        if told.ended.load(Ordering::SeqCst) >= ex.shards() as u64 {
            break;
        }
        run.poll(&IdleShard);
    }
    Some(start)
}

// Has each of so many threads spawn so many tasks on a shard of its own and run tasks. Gives when they began.
fn on_threads<R: Wait + Clone + Drop + Send + Sync + Threads + Clock>(
    rt: &R,
    ex: &ShardedExecutor<Yields, IdleShard, R>,
    spawns: u64,
) -> Option<Instant> {
    let told = &Told {
        barrier: Barrier::new(ex.shards() as u64),
        ended: AtomicU64::new(0),
    };
    let work = move |number| {
        let start = run_all(rt, ex, number, spawns, told);
        if start.is_none() {
            told.give_up();
        }
        start
    };
    thread::scope(thread::scope_env(), rt, |scope| {
        for number in 1..ex.shards() {
            if scope.spawn(move || work(number)).is_err() {
                told.give_up();
            }
        }
        work(0)
    })
}

fn yields<R: Wait + Clone + Drop + Send + Sync + Threads + Clock>(
    rt: &R,
    alloc: Global,
    threads: usize,
    operations: u64,
) -> Option<Ran> {
    let ex = executor(rt, alloc, threads)?;
    let each = operations.saturating_sub(1) / TASKS;
    for _ in 0..TASKS {
        ex.spawn(Yields::after(each)).ok()?.detach();
    }
    let start = on_threads(rt, &ex, 0)?;
    Ran::since(rt, start, each.saturating_add(1).saturating_mul(TASKS))
}

fn spawns<R: Wait + Clone + Drop + Send + Sync + Threads + Clock>(
    rt: &R,
    alloc: Global,
    threads: usize,
    operations: u64,
) -> Option<Ran> {
    let ex = executor(rt, alloc, threads)?;
    let each = operations.checked_div(threads as u64).unwrap_or(0);
    let start = on_threads(rt, &ex, each)?;
    Ran::since(rt, start, each.saturating_mul(threads as u64))
}

fn cycles<R: Wait + Clone + Drop + Send + Sync>(
    rt: &R,
    alloc: Global,
    shards: usize,
    operations: u64,
) -> Option<u64> {
    let ex = executor(rt, alloc, shards)?;
    let mut run = ex.run(0, Never).ok()?;
    run.poll(&IdleShard);
    for _ in 0..operations {
        ex.shard(0).spawn(Yields::READY).ok()?.detach();
        run.poll(&IdleShard);
    }
    if ex.is_empty() {
        Some(operations)
    } else {
        None
    }
}

/// What one thread does while runs on others run its tasks.
#[derive(Debug, Clone, Copy)]
enum Work {
    /// Spawns so many tasks, each of which wakes itself so often and works in each poll, and waits for all.
    All {
        tasks: u64,
        yields: u64,
        steps: u32,
        is_on_one: bool,
    },
    /// Spawns so many tasks, and waits for each. Before a spawn the runs have time to fall asleep.
    Each {
        tasks: u64,
    },
}

type Shards<'a, R> = ShardedExecutor<Works<'a>, ThreadWaker, R>;

impl Work {
    fn tasks(self) -> u64 {
        match self {
            Work::All { tasks, .. } | Work::Each { tasks } => tasks,
        }
    }

    // Does the work. `None` if memory or the time was refused.
    fn done<'a, R: Wait + Clone + Drop + Send + Sync + Clock>(
        self,
        rt: &R,
        ex: &Shards<'a, R>,
        left: &'a Left,
    ) -> Option<Ran> {
        match self {
            Work::All {
                tasks,
                yields,
                steps,
                is_on_one,
            } => {
                let start = Instant::now(rt).ok()?;
                for _ in 0..tasks {
                    let task = Works {
                        yields,
                        steps,
                        left,
                    };
                    let spawned = if is_on_one {
                        ex.shard(0).spawn(task)
                    } else {
                        ex.spawn(task)
                    };
                    spawned.ok()?.detach();
                }
                left.wait(rt);
                Ran::since(rt, start, tasks.saturating_mul(yields.saturating_add(1)))
            }
            Work::Each { tasks } => spawn_each(rt, ex, left, tasks),
        }
    }
}

fn spawn_each<'a, R: Wait + Clone + Drop + Send + Sync + Clock>(
    rt: &R,
    ex: &Shards<'a, R>,
    left: &'a Left,
    tasks: u64,
) -> Option<Ran> {
    let mut time = Duration::ZERO;
    for after in (0..tasks).rev() {
        pause(rt)?;
        let start = Instant::now(rt).ok()?;
        let task = Works {
            yields: 0,
            steps: 0,
            left,
        };
        ex.spawn(task).ok()?.detach();
        for _ in rt.forever() {
            if left.count() == after {
                break;
            }
            spin_loop();
        }
        time = time.saturating_add(start.elapsed(rt).ok()?);
    }
    Some(Ran { count: tasks, time })
}

// Does the work while each of so many other threads drives the run of its shard, which was parked before.
fn beside_runs<R: Wait + Clone + Drop + Send + Sync + Threads + Clock>(
    rt: &R,
    alloc: Global,
    threads: usize,
    work: Work,
) -> Option<Ran> {
    let stop = Stop::new(alloc, threads)?;
    let left = Left::new(alloc, work.tasks()).ok()?;
    if threads == 0 {
        return None;
    }
    let ex: Shards<'_, R> = ShardedExecutor::new(rt.clone().ok()?, alloc, threads).ok()?;
    let mut runs = Vec::new(alloc);
    for number in 0..threads {
        let run = ex.run(number, Stopped { stop: &stop }).ok()?;
        runs.push(run).ok()?;
    }
    thread::scope(thread::scope_env(), rt, |scope| {
        let mut are_there = true;
        for (mut run, waker) in runs.into_iter().zip(&stop.threads) {
            let started = scope.spawn(move || block_on(rt, waker, &mut run));
            are_there = are_there && started.is_ok();
        }
        thread::sleep(rt, Duration::from_millis(20));
        let ran = if are_there {
            work.done(rt, &ex, &left)
        } else {
            None
        };
        stop.tell();
        ran
    })
}

/// Spawns so many tasks on the shards in turn, each of which wakes itself so often and goes so many steps in
/// each poll, while each of so many other threads drives the run of its shard.
pub fn working_copies<R: Wait + Clone + Drop + Send + Sync + Threads + Clock>(
    rt: &R,
    alloc: Global,
    threads: usize,
    tasks: u64,
    yields: u64,
    steps: u32,
) -> Option<Ran> {
    let work = Work::All {
        tasks,
        yields,
        steps,
        is_on_one: false,
    };
    beside_runs(rt, alloc, threads, work)
}

impl Sharded {
    /// Runs this row.
    pub fn run<R: Wait + Clone + Drop + Send + Sync + Threads + Clock>(
        self,
        rt: &R,
        alloc: Global,
        operations: u64,
    ) -> Option<Ran> {
        let all = |tasks: u64, steps: u32, is_on_one: bool| Work::All {
            tasks,
            yields: operations.saturating_sub(1) / tasks.max(1),
            steps,
            is_on_one,
        };
        match self {
            Sharded::Yield(threads) => yields(rt, alloc, threads, operations),
            Sharded::Spawn(threads) => spawns(rt, alloc, threads, operations),
            Sharded::Cycle(shards) => {
                let start = Instant::now(rt).ok()?;
                let count = cycles(rt, alloc, shards, operations)?;
                Ran::since(rt, start, count)
            }
            Sharded::Parked(threads) => {
                beside_runs(rt, alloc, threads, all(PARKED_TASKS, 0, false))
            }
            Sharded::OneSpawner(threads) => {
                beside_runs(rt, alloc, threads, all(operations, 0, false))
            }
            Sharded::OneShard(threads) => beside_runs(rt, alloc, threads, all(operations, 0, true)),
            Sharded::Unbalanced(tenths, threads) => {
                let steps = STEPS.saturating_mul(tenths);
                beside_runs(rt, alloc, threads, all(TASKS, steps, true))
            }
            Sharded::WakeLatency(threads) => {
                beside_runs(rt, alloc, threads, Work::Each { tasks: operations })
            }
        }
    }
}
