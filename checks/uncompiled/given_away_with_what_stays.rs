//! Executors, handles, ticks, runs and wakers that go to another thread with what may not go there.
#![tactic(auto)]

use async_executor::{
    Executor, Future, OutOfMemory, Poll, Run, Task, TaskWaker, Tick, Wake,
};
use std::rc::Rc;
use std::sync::Wait;

/// A waker that stays on its thread.
#[derive(Drop)]
pub struct Near {
    wakes: Rc<u64>,
}

impl Wake for Near {
    fn wake(&self) {}

    fn copy(&self) -> Result<Self, OutOfMemory> {
        Err(OutOfMemory)
    }
}

/// A waker that may go anywhere.
#[derive(Drop)]
pub struct Far;

impl Wake for Far {
    fn wake(&self) {}

    fn copy(&self) -> Result<Self, OutOfMemory> {
        Ok(Far)
    }
}

/// A future that stays on its thread.
#[derive(Drop)]
pub struct Stays {
    count: Rc<u64>,
}

impl<W> Future<W> for Stays {
    type Output = ();

    fn poll(&mut self, _w: &W) -> Poll<()> {
        Poll::Ready(())
    }
}

/// A future whose output stays on its thread.
#[derive(Drop)]
pub struct GivesStaying;

impl<W> Future<W> for GivesStaying {
    type Output = Option<Rc<u64>>;

    fn poll(&mut self, _w: &W) -> Poll<Option<Rc<u64>>> {
        Poll::Ready(None)
    }
}

/// A future that may go anywhere.
#[derive(Drop)]
pub struct Goes;

impl<W> Future<W> for Goes {
    type Output = ();

    fn poll(&mut self, _w: &W) -> Poll<()> {
        Poll::Ready(())
    }
}

fn is_sent<T: Send>(_value: &T) {}

fn is_shared<T: Sync>(_value: &T) {}

pub fn sent<R: Wait + Clone + Drop + Send + Sync>(tick: &Tick<'_, Goes, Far, R>) { is_sent(tick); }
pub fn shared<R: Wait + Clone + Drop + Send + Sync>(tick: &Tick<'_, Goes, Far, R>) { is_shared(tick); }

pub fn sent_with_a_future<R: Wait + Clone + Drop + Send + Sync>(tick: &Tick<'_, Stays, Far, R>) { is_sent(tick); } //~ unsatisfied-bound
pub fn sent_with_an_output<R: Wait + Clone + Drop + Send + Sync>(tick: &Tick<'_, GivesStaying, Far, R>) { is_sent(tick); } //~ unsatisfied-bound
pub fn sent_with_a_waker<R: Wait + Clone + Drop + Send + Sync>(tick: &Tick<'_, Goes, Near, R>) { is_sent(tick); } //~ unsatisfied-bound
pub fn shared_with_a_waker<R: Wait + Clone + Drop + Send + Sync>(tick: &Tick<'_, Goes, Near, R>) { is_shared(tick); } //~ unsatisfied-bound
pub fn sent_with_a_right_that_is_not_shared<R: Wait + Clone + Drop + Send>(tick: &Tick<'_, Goes, Far, R>) { is_sent(tick); } //~ unsatisfied-bound
pub fn shared_with_a_right_that_is_not_sent<R: Wait + Clone + Drop + Sync>(tick: &Tick<'_, Goes, Far, R>) { is_shared(tick); } //~ unsatisfied-bound
pub fn copied<R: Wait + Clone + Drop + Send + Sync>(tick: &Tick<'_, Goes, Far, R>) { let _other = tick.clone(); } //~ unsupported-method

pub fn run_sent<R: Wait + Clone + Drop + Send + Sync>(run: &Run<'_, Goes, Far, R, Goes>) { is_sent(run); }
pub fn run_shared<R: Wait + Clone + Drop + Send + Sync>(run: &Run<'_, Goes, Far, R, Goes>) { is_shared(run); }

pub fn run_sent_with_an_own_future<R: Wait + Clone + Drop + Send + Sync>(run: &Run<'_, Goes, Far, R, Stays>) { is_sent(run); } //~ unsatisfied-bound
pub fn run_shared_with_an_own_future<R: Wait + Clone + Drop + Send + Sync>(run: &Run<'_, Goes, Far, R, Stays>) { is_shared(run); } //~ unsatisfied-bound
pub fn run_sent_with_a_future<R: Wait + Clone + Drop + Send + Sync>(run: &Run<'_, Stays, Far, R, Goes>) { is_sent(run); } //~ unsatisfied-bound
pub fn run_sent_with_an_output<R: Wait + Clone + Drop + Send + Sync>(run: &Run<'_, GivesStaying, Far, R, Goes>) { is_sent(run); } //~ unsatisfied-bound
pub fn run_sent_with_a_waker<R: Wait + Clone + Drop + Send + Sync>(run: &Run<'_, Goes, Near, R, Goes>) { is_sent(run); } //~ unsatisfied-bound
pub fn run_shared_with_a_waker<R: Wait + Clone + Drop + Send + Sync>(run: &Run<'_, Goes, Near, R, Goes>) { is_shared(run); } //~ unsatisfied-bound
pub fn run_sent_with_a_right_that_is_not_shared<R: Wait + Clone + Drop + Send>(run: &Run<'_, Goes, Far, R, Goes>) { is_sent(run); } //~ unsatisfied-bound
pub fn run_shared_with_a_right_that_is_not_sent<R: Wait + Clone + Drop + Sync>(run: &Run<'_, Goes, Far, R, Goes>) { is_shared(run); } //~ unsatisfied-bound
pub fn run_copied<R: Wait + Clone + Drop + Send + Sync>(run: &Run<'_, Goes, Far, R, Goes>) { let _other = run.clone(); } //~ unsupported-method

pub fn executor_sent<F: Future<TaskWaker<W, R>> + Send, W: Wake + Send, R: Wait + Clone + Drop + Send + Sync>(ex: &Executor<F, W, R>) where F::Output: Send { is_sent(ex); }
pub fn task_sent<F: Future<TaskWaker<W, R>> + Send, W: Wake + Send, R: Wait + Clone + Drop + Send + Sync>(task: &Task<F, W, R>) where F::Output: Send { is_sent(task); }

pub fn executor_sent_with_a_future<F: Future<TaskWaker<W, R>>, W: Wake + Send, R: Wait + Clone + Drop + Send + Sync>(ex: &Executor<F, W, R>) where F::Output: Send { is_sent(ex); } //~ unsatisfied-bound
pub fn executor_sent_with_an_output<F: Future<TaskWaker<W, R>> + Send, W: Wake + Send, R: Wait + Clone + Drop + Send + Sync>(ex: &Executor<F, W, R>) { is_sent(ex); } //~ unsatisfied-bound
pub fn task_sent_with_a_waker<F: Future<TaskWaker<W, R>> + Send, W: Wake, R: Wait + Clone + Drop + Send + Sync>(task: &Task<F, W, R>) where F::Output: Send { is_sent(task); } //~ unsatisfied-bound
pub fn executor_sent_with_a_right_that_is_not_shared<F: Future<TaskWaker<W, R>> + Send, W: Wake + Send, R: Wait + Clone + Drop + Send>(ex: &Executor<F, W, R>) where F::Output: Send { is_sent(ex); } //~ unsatisfied-bound
pub fn task_shared_with_a_waker<F: Future<TaskWaker<W, R>> + Send, W: Wake, R: Wait + Clone + Drop + Send + Sync>(task: &Task<F, W, R>) where F::Output: Send { is_shared(task); } //~ unsatisfied-bound

pub fn waker_sent<W: Wake + Send, R: Wait + Clone + Drop + Send + Sync>(waker: &TaskWaker<W, R>) { is_sent(waker); }
pub fn waker_sent_with_a_waker<W: Wake, R: Wait + Clone + Drop + Send + Sync>(waker: &TaskWaker<W, R>) { is_sent(waker); } //~ unsatisfied-bound
pub fn waker_shared_with_a_waker<W: Wake, R: Wait + Clone + Drop + Send + Sync>(waker: &TaskWaker<W, R>) { is_shared(waker); } //~ unsatisfied-bound
pub fn waker_sent_with_a_right_that_is_not_shared<W: Wake + Send, R: Wait + Clone + Drop + Send>(waker: &TaskWaker<W, R>) { is_sent(waker); } //~ unsatisfied-bound
pub fn waker_shared_with_a_right_that_is_not_sent<W: Wake + Send, R: Wait + Clone + Drop + Sync>(waker: &TaskWaker<W, R>) { is_shared(waker); } //~ unsatisfied-bound
