//! Rows whose runs have an own future that awaits tasks.
//!
//! Their executors have a type of their own, and so code of their own.
use crate::futures::Yields;
use crate::parking::{ThreadWaker, block_on};
use async_executor::{Executor, Future, Poll, Task};
use std::alloc::Global;
use std::cell::Cell;
use std::sync::Wait;

type Awaited<R> = Executor<Yields, ThreadWaker, R>;

type Handle<R> = Task<Yields, ThreadWaker, R>;

/// Where the next task's handle is left.
type Next<R> = Cell<Option<Handle<R>>>;

/// Awaits one task after another, each of which is left at a place. It is ready with the number of
/// outputs once none is there.
#[derive(Drop)]
struct OneByOne<'a, R: Wait + Clone + Drop> {
    next: &'a Next<R>,
    task: Option<Handle<R>>,
    outputs: u64,
}

impl<R: Wait + Clone + Drop> Future<ThreadWaker> for OneByOne<'_, R> {
    type Output = u64;

    fn poll(&mut self, w: &ThreadWaker) -> Poll<u64> {
        for _ in 0..u64::MAX {
            if let Some(task) = &mut self.task {
                match task.poll(w) {
                    Poll::Pending => return Poll::Pending,
                    Poll::Ready(Ok(_)) => self.outputs = self.outputs.saturating_add(1),
                    Poll::Ready(Err(_)) => {}
                }
            }
            self.task = self.next.replace(None);
            if self.task.is_none() {
                break;
            }
        }
        Poll::Ready(self.outputs)
    }
}

/// Awaits tasks in their order. It is ready with the number of outputs.
#[derive(Drop)]
struct All<R: Wait + Clone + Drop + Send + Sync> {
    tasks: Vec<Handle<R>>,
    answered: usize,
    outputs: u64,
}

impl<R: Wait + Clone + Drop + Send + Sync> Future<ThreadWaker> for All<R> {
    type Output = u64;

    fn poll(&mut self, w: &ThreadWaker) -> Poll<u64> {
        for place in self.answered..self.tasks.len() {
            let Some(task) = self.tasks.get_mut(place) else {
                break;
            };
            match task.poll(w) {
                Poll::Pending => return Poll::Pending,
                Poll::Ready(Ok(_)) => self.outputs = self.outputs.saturating_add(1),
                Poll::Ready(Err(_)) => {}
            }
            self.answered = place + 1;
        }
        Poll::Ready(self.outputs)
    }
}

// Spawns so many tasks, one before each poll of the run, whose own future finds it at the place.
// The own future's poll cannot spawn: it is a trait's, and has no proof that R may be sent.
fn outputs<G, R>(
    rt: &R,
    mine: &ThreadWaker,
    (ex, next): (&Awaited<R>, &Next<R>),
    run: &mut G,
    tasks: u64,
) -> u64
where
    G: Future<ThreadWaker, Output = u64>,
    R: Wait + Clone + Drop + Send + Sync,
{
    for _ in 0..tasks {
        let Ok(task) = ex.spawn(Yields::READY) else {
            break;
        };
        next.set(Some(task));
        if let Poll::Ready(outputs) = run.poll(mine) {
            return outputs;
        }
        mine.park(rt);
    }
    block_on(rt, mine, run)
}

/// Spawns a task, which a run's own future awaits, over and over. Gives the number of outputs.
pub fn spawn_await_run<R: Wait + Clone + Drop + Send + Sync>(
    rt: &R,
    alloc: Global,
    operations: u64,
) -> Option<u64> {
    let mine = ThreadWaker::new(alloc).ok()?;
    let ex: Awaited<R> = Executor::new(rt.clone().ok()?, alloc).ok()?;
    let next = Cell::new(None);
    let own = OneByOne {
        next: &next,
        task: None,
        outputs: 0,
    };
    let mut run = ex.run(own).ok()?;
    Some(outputs(rt, &mine, (&ex, &next), &mut run, operations))
}

/// Spawns all tasks, and has a run's own future await them. Gives the number of outputs.
pub fn spawn_all_await_run<R: Wait + Clone + Drop + Send + Sync>(
    rt: &R,
    alloc: Global,
    operations: u64,
) -> Option<u64> {
    let mine = ThreadWaker::new(alloc).ok()?;
    let ex: Awaited<R> = Executor::new(rt.clone().ok()?, alloc).ok()?;
    let mut tasks = Vec::new(alloc);
    for _ in 0..operations {
        tasks.push(ex.spawn(Yields::READY).ok()?).ok()?;
    }
    await_all(rt, &mine, &ex, tasks)
}

/// Spawns all tasks by one call, and has a run's own future await them. Gives the number of outputs.
pub fn spawn_many_run<R: Wait + Clone + Drop + Send + Sync>(
    rt: &R,
    alloc: Global,
    operations: u64,
) -> Option<u64> {
    let mine = ThreadWaker::new(alloc).ok()?;
    let ex: Awaited<R> = Executor::new(rt.clone().ok()?, alloc).ok()?;
    let mut tasks = Vec::new(alloc);
    ex.spawn_many((0..operations).map(|_| Yields::READY), &mut tasks)
        .ok()?;
    await_all(rt, &mine, &ex, tasks)
}

// Has a run's own future await these tasks.
fn await_all<R: Wait + Clone + Drop + Send + Sync>(
    rt: &R,
    mine: &ThreadWaker,
    ex: &Awaited<R>,
    tasks: Vec<Handle<R>>,
) -> Option<u64> {
    let own = All {
        tasks,
        answered: 0,
        outputs: 0,
    };
    let mut run = ex.run(own).ok()?;
    Some(block_on(rt, mine, &mut run))
}
