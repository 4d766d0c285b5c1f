//! Rows on threads that park while there is nothing to run.
use crate::futures::Yields;
use crate::timing::Ran;
use async_executor::{Executor, Future, OutOfMemory, Poll, Run, TaskWaker, Wake};
use std::alloc::{AllocError, Global};
use std::hint::spin_loop;
use std::rt::Clock;
use std::sync::atomic::{AtomicBool, AtomicU64, Ordering};
use std::sync::{Arc, Wait};
use std::thread::{self, Parker, Threads};
use std::time::{Duration, Instant};

/// How many tasks wake themselves.
const TASKS: u64 = 10_000;

/// Where a thread parks, on cache lines of its own: a run that is busy wakes itself, and then takes that
/// back, with each of its turns.
#[derive(Drop)]
struct Lone {
    _before: [u64; 16],
    parker: Parker,
    _behind: [u64; 16],
}

/// Unparks the thread that parks here.
#[derive(Drop)]
pub struct ThreadWaker {
    lone: Arc<Lone>,
}

impl ThreadWaker {
    pub fn new(alloc: Global) -> Result<ThreadWaker, AllocError> {
        let lone = Lone {
            _before: [0; 16],
            parker: Parker::new(),
            _behind: [0; 16],
        };
        Ok(ThreadWaker {
            lone: Arc::new(alloc, lone)?,
        })
    }

    /// Parks, unless it was woken since the thread parked last.
    pub fn park(&self, rt: &impl Wait) {
        self.lone.parker.park(rt);
    }
}

impl Wake for ThreadWaker {
    fn wake(&self) {
        self.lone.parker.unpark();
    }

    fn copy(&self) -> Result<Self, OutOfMemory> {
        let lone = Arc::try_clone(&self.lone)?;
        Ok(ThreadWaker { lone })
    }
}

/// Polls the future until it is ready. While it is not, the thread parks.
pub fn block_on<G: Future<ThreadWaker>>(
    rt: &impl Wait,
    mine: &ThreadWaker,
    future: &mut G,
) -> G::Output {
    for _ in rt.forever() {
        if let Poll::Ready(output) = future.poll(mine) {
            return output;
        }
        mine.park(rt);
    }
    unreachable!()
}

/// Tells the running threads to stop.
#[derive(Drop)]
pub struct Stop {
    is_told: AtomicBool,
    pub threads: Vec<ThreadWaker>,
}

impl Stop {
    pub fn new(alloc: Global, count: usize) -> Option<Stop> {
        let mut threads = Vec::new(alloc);
        for _ in 0..count {
            threads.push(ThreadWaker::new(alloc).ok()?).ok()?;
        }
        Some(Stop {
            is_told: AtomicBool::new(false),
            threads,
        })
    }

    pub fn tell(&self) {
        self.is_told.store(true, Ordering::SeqCst);
        for waker in &self.threads {
            waker.wake();
        }
    }
}

/// Ready once the threads are told to stop.
#[derive(Drop)]
pub struct Stopped<'a> {
    pub stop: &'a Stop,
}

impl<W> Future<W> for Stopped<'_> {
    type Output = ();

    fn poll(&mut self, _w: &W) -> Poll<()> {
        if self.stop.is_told.load(Ordering::SeqCst) {
            Poll::Ready(())
        } else {
            Poll::Pending
        }
    }
}

/// How many tasks are left, and where the thread parks that waits for them. The number has cache
/// lines of its own, since all threads write it.
#[derive(Drop)]
pub struct Left {
    _before: [u64; 16],
    tasks: AtomicU64,
    _behind: [u64; 16],
    waiting: ThreadWaker,
}

impl Left {
    pub fn new(alloc: Global, tasks: u64) -> Result<Left, AllocError> {
        Ok(Left {
            _before: [0; 16],
            tasks: AtomicU64::new(tasks),
            _behind: [0; 16],
            waiting: ThreadWaker::new(alloc)?,
        })
    }

    pub fn count(&self) -> u64 {
        self.tasks.load(Ordering::SeqCst)
    }

    pub fn one_less(&self) {
        if self.tasks.fetch_sub(1, Ordering::SeqCst) == 1 {
            self.waiting.wake();
        }
    }

    /// Parks until no task is left.
    pub fn wait(&self, rt: &impl Wait) {
        for _ in rt.forever() {
            if self.count() == 0 {
                break;
            }
            self.waiting.park(rt);
        }
    }
}

/// A task's future, which says at its end that one task less is left.
#[derive(Drop)]
struct Counted<'a, F> {
    future: F,
    left: &'a Left,
}

impl<F, W, R> Future<TaskWaker<W, R>> for Counted<'_, F>
where
    F: Future<TaskWaker<W, R>, Output = u64>,
    W: Wake,
    R: Wait + Clone + Drop,
{
    type Output = ();

    fn poll(&mut self, w: &TaskWaker<W, R>) -> Poll<()> {
        match self.future.poll(w) {
            Poll::Ready(_) => {
                self.left.one_less();
                Poll::Ready(())
            }
            Poll::Pending => Poll::Pending,
        }
    }
}

type Pool<'a, F, R> = Executor<Counted<'a, F>, ThreadWaker, R>;

type Worker<'e, 'a, F, R> = Run<'e, Counted<'a, F>, ThreadWaker, R, Stopped<'e>>;

/// What one thread does while runs on others run its tasks.
#[derive(Clone, Copy)]
enum Work<'f, F> {
    /// Spawns so many tasks of copies of this future, each of which is polled so often, and waits
    /// for all.
    All {
        tasks: u64,
        future: &'f F,
        polls: u64,
    },
    /// Spawns so many tasks of copies of this future, which is ready at its first poll, and waits
    /// for each. Before a spawn the runs have time to fall asleep.
    Each {
        tasks: u64,
        future: &'f F,
    },
}

impl<F> Work<'_, F> {
    fn tasks(self) -> u64 {
        match self {
            Work::All { tasks, .. } | Work::Each { tasks, .. } => tasks,
        }
    }

    // Does the work. `None` if memory or the time was refused.
    fn done<'a, R>(self, rt: &R, ex: &Pool<'a, F, R>, left: &'a Left) -> Option<Ran>
    where
        F: Future<TaskWaker<ThreadWaker, R>, Output = u64> + Copy + Send + Sync,
        R: Wait + Clone + Drop + Send + Sync + Clock,
    {
        match self {
            Work::All {
                tasks,
                future,
                polls,
            } => spawn_all(rt, ex, left, tasks, future, polls),
            Work::Each { tasks, future } => spawn_each(rt, ex, left, tasks, future),
        }
    }
}

// A run for each thread. `None` if memory was refused.
fn workers<'e, 'a, F, R>(
    alloc: Global,
    ex: &'e Pool<'a, F, R>,
    stop: &'e Stop,
) -> Option<Vec<Worker<'e, 'a, F, R>>>
where
    F: Future<TaskWaker<ThreadWaker, R>, Output = u64> + Drop + Send,
    R: Wait + Clone + Drop + Send + Sync,
{
    let mut runs = Vec::new(alloc);
    for _ in &stop.threads {
        runs.push(ex.run(Stopped { stop }).ok()?).ok()?;
    }
    Some(runs)
}

// Does the work while each run is driven on a thread of its own.
fn drives<'a, F, R>(
    rt: &R,
    ex: &Pool<'a, F, R>,
    stop: &Stop,
    left: &'a Left,
    runs: Vec<Worker<'_, 'a, F, R>>,
    work: Work<'_, F>,
) -> Option<Ran>
where
    F: Future<TaskWaker<ThreadWaker, R>, Output = u64> + Copy + Send + Sync,
    R: Wait + Clone + Drop + Send + Sync + Threads + Clock,
{
    thread::scope(thread::scope_env(), rt, |scope| {
        let mut are_there = true;
        for (mut run, waker) in runs.into_iter().zip(&stop.threads) {
            let started = scope.spawn(move || block_on(rt, waker, &mut run));
            are_there = are_there && started.is_ok();
        }
        thread::sleep(rt, Duration::from_millis(20));
        let ran = if are_there {
            work.done(rt, ex, left)
        } else {
            None
        };
        stop.tell();
        ran
    })
}

// Does the work while each of so many other threads drives a run, which was parked before.
fn beside_runs<F, R>(rt: &R, alloc: Global, threads: usize, work: Work<'_, F>) -> Option<Ran>
where
    F: Future<TaskWaker<ThreadWaker, R>, Output = u64> + Copy + Send + Sync,
    R: Wait + Clone + Drop + Send + Sync + Threads + Clock,
{
    let stop = Stop::new(alloc, threads)?;
    let left = Left::new(alloc, work.tasks()).ok()?;
    let ex: Pool<'_, F, R> = Executor::new(rt.clone().ok()?, alloc).ok()?;
    let runs = workers(alloc, &ex, &stop)?;
    drives(rt, &ex, &stop, &left, runs, work)
}

fn spawn_all<'a, F, R>(
    rt: &R,
    ex: &Pool<'a, F, R>,
    left: &'a Left,
    tasks: u64,
    future: &F,
    polls: u64,
) -> Option<Ran>
where
    F: Future<TaskWaker<ThreadWaker, R>, Output = u64> + Copy + Send + Sync,
    R: Wait + Clone + Drop + Send + Sync + Clock,
{
    let start = Instant::now(rt).ok()?;
    for _ in 0..tasks {
        ex.spawn(Counted {
            future: *future,
            left,
        })
        .ok()?
        .detach();
    }
    left.wait(rt);
    Ran::since(rt, start, tasks.saturating_mul(polls))
}

fn spawn_each<'a, F, R>(
    rt: &R,
    ex: &Pool<'a, F, R>,
    left: &'a Left,
    tasks: u64,
    future: &F,
) -> Option<Ran>
where
    F: Future<TaskWaker<ThreadWaker, R>, Output = u64> + Copy + Send + Sync,
    R: Wait + Clone + Drop + Send + Sync + Clock,
{
    let mut time = Duration::ZERO;
    for after in (0..tasks).rev() {
        pause(rt)?;
        let start = Instant::now(rt).ok()?;
        ex.spawn(Counted {
            future: *future,
            left,
        })
        .ok()?
        .detach();
        for _ in rt.forever() {
            if left.count() == after {
                break;
            }
            spin_loop();
        }
        time = time.saturating_add(start.elapsed(rt).ok()?);
    }
    Some(Ran { count: tasks, time })
}

/// Waits for 100 microseconds, awake.
pub fn pause<R: Wait + Clock>(rt: &R) -> Option<()> {
    let start = Instant::now(rt).ok()?;
    for _ in rt.forever() {
        if start.elapsed(rt).ok()? > Duration::from_micros(100) {
            break;
        }
        spin_loop();
    }
    Some(())
}

/// Spawns so many tasks of copies of this future, each of which is polled so often, while each of
/// so many other threads drives a run.
pub fn parked_copies<F, R>(
    rt: &R,
    alloc: Global,
    threads: usize,
    tasks: u64,
    future: &F,
    polls: u64,
) -> Option<Ran>
where
    F: Future<TaskWaker<ThreadWaker, R>, Output = u64> + Copy + Send + Sync,
    R: Wait + Clone + Drop + Send + Sync + Threads + Clock,
{
    let work = Work::All {
        tasks,
        future,
        polls,
    };
    beside_runs(rt, alloc, threads, work)
}

/// Spawns 10,000 tasks that wake themselves, all as often, while each of so many other threads
/// drives a run.
pub fn parked_yield<R: Wait + Clone + Drop + Send + Sync + Threads + Clock>(
    rt: &R,
    alloc: Global,
    threads: usize,
    operations: u64,
) -> Option<Ran> {
    let yields = operations / TASKS;
    let future = &Yields::after(yields);
    parked_copies(rt, alloc, threads, TASKS, future, yields.saturating_add(1))
}

/// Spawns tasks that are ready at their first poll, while each of so many other threads drives a
/// run.
pub fn one_spawner<R: Wait + Clone + Drop + Send + Sync + Threads + Clock>(
    rt: &R,
    alloc: Global,
    threads: usize,
    operations: u64,
) -> Option<Ran> {
    parked_copies(rt, alloc, threads, operations, &Yields::READY, 1)
}

/// From a spawn to the poll of its task, while the only run is parked on another thread.
pub fn wake_latency<R: Wait + Clone + Drop + Send + Sync + Threads + Clock>(
    rt: &R,
    alloc: Global,
    operations: u64,
) -> Option<Ran> {
    let work = Work::Each {
        tasks: operations,
        future: &Yields::READY,
    };
    beside_runs(rt, alloc, 1, work)
}
