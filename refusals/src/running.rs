//! The calls of a running executor that take memory.
use crate::outcome::{Outcome, count};
use async_executor::executor::{
    Executor, Limits, NewError, Run, RunError, RunnerError, Task, TaskWaker, Tick,
};
use executor_core::task::{Future, OutOfMemory, Poll, SpawnError, Wake};
use std::alloc::Global;
use std::sync::Wait;
use std::sync::atomic::{AtomicU64, Ordering};

/// So many tasks, and so many ticks or runs, that each table grows more than once.
const TASKS: u64 = 5;

/// Counts how often it and its copies are woken.
#[derive(Drop)]
pub struct CountingWaker<'a> {
    wakes: &'a AtomicU64,
}

impl Wake for CountingWaker<'_> {
    fn wake(&self) {
        self.wakes.fetch_add(1, Ordering::SeqCst);
    }

    fn copy(&self) -> Result<Self, OutOfMemory> {
        Ok(CountingWaker { wakes: self.wakes })
    }
}

/// Adds its number to a sum.
#[derive(Drop)]
pub struct Adds<'a> {
    number: u64,
    sum: &'a AtomicU64,
}

impl<W> Future<W> for Adds<'_> {
    type Output = ();

    fn poll(&mut self, _w: &W) -> Poll<()> {
        self.sum.fetch_add(self.number, Ordering::SeqCst);
        Poll::Ready(())
    }
}

pub type AddingExecutor<'a, R> = Executor<Adds<'a>, CountingWaker<'a>, R>;

/// An executor, made again if that is refused.
pub fn made<F, W, R>(rt: &R, alloc: Global, outcome: &mut Outcome) -> Option<Executor<F, W, R>>
where
    F: Future<TaskWaker<W, R>> + Send,
    F::Output: Send,
    W: Wake + Send,
    R: Wait + Clone + Drop + Send + Sync,
{
    if let Ok(ex) = Executor::new(rt.clone().ok()?, alloc) {
        return Some(ex);
    }
    count(&mut outcome.executor_new);
    Executor::new(rt.clone().ok()?, alloc).ok()
}

/// Makes an executor with limits, and again if that is refused.
pub fn make_with<R: Wait + Clone + Drop + Send + Sync>(
    rt: &R,
    alloc: Global,
    outcome: &mut Outcome,
) {
    let made = made_with(rt, alloc, Limits::default());
    if made.is_err() {
        count(&mut outcome.executor_new_with);
        outcome.expect(matches!(&made, Err(NewError::OutOfMemory)));
        outcome.expect(made_with(rt, alloc, Limits::default()).is_ok());
    }
}

/// An executor with these limits.
pub fn made_with<'a, R: Wait + Clone + Drop + Send + Sync>(
    rt: &R,
    alloc: Global,
    limits: Limits,
) -> Result<AddingExecutor<'a, R>, NewError> {
    match rt.clone() {
        Ok(rt) => Executor::new_with(rt, alloc, limits),
        Err(_) => Err(NewError::OutOfMemory),
    }
}

// Spawns a task, each second one by `try_spawn`, which waits for nobody, since nobody else is there.
fn spawn_one<'a, R: Wait + Clone + Drop + Send + Sync>(
    ex: &AddingExecutor<'a, R>,
    future: Adds<'a>,
    outcome: &mut Outcome,
) -> Result<Task<Adds<'a>, CountingWaker<'a>, R>, SpawnError<Adds<'a>>> {
    if future.number % 2 == 0 {
        return ex.spawn(future);
    }
    match ex.try_spawn(future) {
        Ok(spawned) => spawned,
        Err(future) => {
            outcome.expect(false);
            ex.spawn(future)
        }
    }
}

// Spawns a task, and again if that is refused.
fn spawned<'a, R: Wait + Clone + Drop + Send + Sync>(
    ex: &AddingExecutor<'a, R>,
    future: Adds<'a>,
    outcome: &mut Outcome,
) {
    let number = future.number;
    let refusal = match spawn_one(ex, future, outcome) {
        Ok(task) => return task.detach(),
        Err(refusal) => refusal,
    };
    count(&mut outcome.executor_spawn);
    outcome.expect(matches!(&refusal, SpawnError::OutOfMemory(_)));
    outcome.expect(ex.is_empty() == (number == 0));
    let future = refusal.into_inner();
    outcome.expect(future.number == number);
    match spawn_one(ex, future, outcome) {
        Ok(task) => task.detach(),
        Err(_) => outcome.expect(false),
    }
}

/// Spawns tasks, each again if that is refused.
pub fn spawn_all<'a, R: Wait + Clone + Drop + Send + Sync>(
    ex: &AddingExecutor<'a, R>,
    sum: &'a AtomicU64,
    outcome: &mut Outcome,
) {
    for number in 0..TASKS {
        spawned(ex, Adds { number, sum }, outcome);
    }
}

// Runs all tasks, which have to be those that were spawned, and no more.
fn run_all<R: Wait + Clone + Drop + Send + Sync>(
    ex: &AddingExecutor<'_, R>,
    sum: &AtomicU64,
    outcome: &mut Outcome,
) {
    let mut numbers = 0u64;
    for number in 0..TASKS {
        outcome.expect(sum.load(Ordering::SeqCst) == numbers);
        outcome.expect(ex.try_tick());
        numbers = numbers.saturating_add(number);
    }
    outcome.expect(sum.load(Ordering::SeqCst) == numbers);
    outcome.expect(!ex.try_tick());
    outcome.expect(ex.is_empty());
}

/// Spawns tasks on a new executor and runs them. A call that is refused is made again.
pub fn spawn_and_run<R: Wait + Clone + Drop + Send + Sync>(
    rt: &R,
    alloc: Global,
    outcome: &mut Outcome,
) {
    let sum = AtomicU64::new(0);
    let Some(ex) = made(rt, alloc, outcome) else {
        return outcome.expect(false);
    };
    spawn_all(&ex, &sum, outcome);
    run_all(&ex, &sum, outcome);
}

// So many futures that each table and the handles grow more than once.
const MANY: u64 = 10;

type Handles<'a, R> = Vec<Task<Adds<'a>, CountingWaker<'a>, R>>;

// Spawns the futures from this number on many at once. An iterator that gives so many was asked for
// no more than were spawned and the one that comes back. Says how many were spawned.
fn spawned_from<'a, R: Wait + Clone + Drop + Send + Sync>(
    ex: &AddingExecutor<'a, R>,
    first: u64,
    sum: &'a AtomicU64,
    tasks: &mut Handles<'a, R>,
    outcome: &mut Outcome,
) -> u64 {
    let asked = AtomicU64::new(0);
    let futures = (first..MANY).map(|number| {
        asked.fetch_add(1, Ordering::SeqCst);
        Adds { number, sum }
    });
    // It does not say how many futures it gives, so no room is made for them before.
    let futures = futures.filter(|_| true);
    let refusal = match ex.spawn_many(futures, tasks) {
        Ok(spawned) => return spawned as u64,
        Err(refusal) => refusal,
    };
    count(&mut outcome.executor_spawn_many);
    outcome.expect(refusal.cause == RunnerError::OutOfMemory);
    let spawned = refusal.spawned as u64;
    let asked = asked.load(Ordering::SeqCst);
    match refusal.into_inner() {
        Some(future) => {
            outcome.expect(asked == spawned.saturating_add(1));
            outcome.expect(future.number == first.saturating_add(spawned));
        }
        None => outcome.expect(asked == spawned),
    }
    spawned
}

/// Spawns tasks many at once on a new executor, and runs them. Those that were not spawned at the
/// first call are spawned at a second one.
pub fn spawn_many_and_run<R: Wait + Clone + Drop + Send + Sync>(
    rt: &R,
    alloc: Global,
    outcome: &mut Outcome,
) {
    let sum = AtomicU64::new(0);
    let Some(ex) = made(rt, alloc, outcome) else {
        return outcome.expect(false);
    };
    let mut tasks = Vec::new(alloc);
    let first = spawned_from(&ex, 0, &sum, &mut tasks, outcome);
    outcome.expect(tasks.len() as u64 == first);
    let second = spawned_from(&ex, first, &sum, &mut tasks, outcome);
    outcome.expect(first.saturating_add(second) == MANY);
    outcome.expect(tasks.len() as u64 == MANY);
    for _ in 0..MANY {
        outcome.expect(ex.try_tick());
    }
    outcome.expect(!ex.try_tick() && ex.is_empty());
    outcome.expect(sum.load(Ordering::SeqCst) == MANY * (MANY - 1) / 2);
    outcome.expect(tasks.iter().all(|task| task.is_finished()));
}

// A tick, made again if it is refused.
fn ticked<'x, 'a, R: Wait + Clone + Drop + Send + Sync>(
    ex: &'x AddingExecutor<'a, R>,
    outcome: &mut Outcome,
) -> Option<Tick<'x, Adds<'a>, CountingWaker<'a>, R>> {
    if let Ok(tick) = ex.tick() {
        return Some(tick);
    }
    count(&mut outcome.executor_tick);
    ex.tick().ok()
}

/// A future beside which a run runs tasks. It is never ready.
#[derive(Drop)]
pub struct Beside {
    number: u64,
}

impl Beside {
    pub fn new() -> Beside {
        Beside { number: 7 }
    }
}

impl<W> Future<W> for Beside {
    type Output = ();

    fn poll(&mut self, _w: &W) -> Poll<()> {
        Poll::Pending
    }
}

// A run, made again if it is refused.
fn run_made<'x, 'a, R: Wait + Clone + Drop + Send + Sync>(
    ex: &'x AddingExecutor<'a, R>,
    outcome: &mut Outcome,
) -> Option<Run<'x, Adds<'a>, CountingWaker<'a>, R, Beside>> {
    let refusal = match ex.run(Beside::new()) {
        Ok(run) => return Some(run),
        Err(refusal) => refusal,
    };
    count(&mut outcome.executor_run);
    outcome.expect(matches!(&refusal, RunError::OutOfMemory(_)));
    let future = refusal.into_inner();
    outcome.expect(future.number == 7);
    ex.run(future).ok()
}

// Whether a poll answers this.
fn answers<W, T: Future<W, Output = ()>>(
    ticker: &mut Option<T>,
    waker: &W,
    answer: Poll<()>,
) -> bool {
    match ticker {
        Some(ticker) => ticker.poll(waker) == answer,
        None => false,
    }
}

// Makes so many ticks and runs, which go to sleep. Then tasks are spawned, and each tick runs one of
// them. A tick or a run that finds no place among the sleepers or the runners wakes its waker.
fn sleep_and_run<'a, R: Wait + Clone + Drop + Send + Sync>(
    ex: &AddingExecutor<'a, R>,
    sum: &'a AtomicU64,
    wakes: &'a AtomicU64,
    left: u64,
    outcome: &mut Outcome,
) {
    let waker = CountingWaker { wakes };
    if left == 0 {
        outcome.expect(wakes.load(Ordering::SeqCst) == 0);
        spawn_all(ex, sum, outcome);
        return outcome.expect(wakes.load(Ordering::SeqCst) == 1);
    }
    let mut tick = ticked(ex, outcome);
    let mut run = run_made(ex, outcome);
    outcome.expect(answers(&mut tick, &waker, Poll::Pending));
    outcome.expect(answers(&mut run, &waker, Poll::Pending));
    sleep_and_run(ex, sum, wakes, left - 1, outcome);
    outcome.expect(answers(&mut tick, &waker, Poll::Ready(())));
}

// Runs tasks by one run.
fn run_by_run<'a, R: Wait + Clone + Drop + Send + Sync>(
    ex: &AddingExecutor<'a, R>,
    sum: &'a AtomicU64,
    wakes: &'a AtomicU64,
    outcome: &mut Outcome,
) {
    let mut run = run_made(ex, outcome);
    spawn_all(ex, sum, outcome);
    outcome.expect(answers(&mut run, &CountingWaker { wakes }, Poll::Pending));
}

/// Makes ticks and runs on a new executor, which sleep and then run tasks. A call that is refused is
/// made again, and has taken no place from the others.
pub fn tick_and_run<R: Wait + Clone + Drop + Send + Sync>(
    rt: &R,
    alloc: Global,
    outcome: &mut Outcome,
) {
    let (sum, wakes) = (AtomicU64::new(0), AtomicU64::new(0));
    let Some(ex) = made(rt, alloc, outcome) else {
        return outcome.expect(false);
    };
    sleep_and_run(&ex, &sum, &wakes, TASKS, outcome);
    outcome.expect(sum.swap(0, Ordering::SeqCst) == TASKS * (TASKS - 1) / 2);
    run_by_run(&ex, &sum, &wakes, outcome);
    outcome.expect(sum.load(Ordering::SeqCst) == TASKS * (TASKS - 1) / 2);
    outcome.expect(ex.is_empty());
}
