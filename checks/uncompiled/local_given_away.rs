//! Executors that stay on their thread, with their handles, ticks and runs, that go to another one,
//! though all that they hold may go there.
#![tactic(auto)]

use async_executor::{
    Future, LocalCancel, LocalExecutor, LocalFallibleTask, LocalRun, LocalTask, LocalTick,
    OutOfMemory, Poll, StaticLocalExecutor, Wake,
};
use std::sync::Wait;

/// A waker that may go anywhere.
#[derive(Drop)]
pub struct Far;

impl Wake for Far {
    fn wake(&self) {}

    fn copy(&self) -> Result<Self, OutOfMemory> {
        Ok(Far)
    }
}

/// A future that may go anywhere.
#[derive(Drop)]
pub struct Goes;

impl<W> Future<W> for Goes {
    type Output = ();

    fn poll(&mut self, _w: &W) -> Poll<()> {
        Poll::Ready(())
    }
}

fn is_sent<T: Send>(_value: &T) {}

fn is_shared<T: Sync>(_value: &T) {}

pub fn executor_sent<R: Wait + Clone + Drop + Send + Sync>(x: &LocalExecutor<Goes, Far, R>) { is_sent(x); } //~ unsatisfied-bound
pub fn executor_shared<R: Wait + Clone + Drop + Send + Sync>(x: &LocalExecutor<Goes, Far, R>) { is_shared(x); } //~ unsatisfied-bound
pub fn static_executor_sent<R: Wait + Clone + Drop + Send + Sync>(x: &StaticLocalExecutor<Goes, Far, R>) { is_sent(x); } //~ unsatisfied-bound
pub fn static_executor_shared<R: Wait + Clone + Drop + Send + Sync>(x: &StaticLocalExecutor<Goes, Far, R>) { is_shared(x); } //~ unsatisfied-bound
pub fn tick_sent<R: Wait + Clone + Drop + Send + Sync>(x: &LocalTick<'_, Goes, Far, R>) { is_sent(x); } //~ unsatisfied-bound
pub fn tick_shared<R: Wait + Clone + Drop + Send + Sync>(x: &LocalTick<'_, Goes, Far, R>) { is_shared(x); } //~ unsatisfied-bound
pub fn run_sent<R: Wait + Clone + Drop + Send + Sync>(x: &LocalRun<'_, Goes, Far, R, Goes>) { is_sent(x); } //~ unsatisfied-bound
pub fn run_shared<R: Wait + Clone + Drop + Send + Sync>(x: &LocalRun<'_, Goes, Far, R, Goes>) { is_shared(x); } //~ unsatisfied-bound
pub fn task_sent<R: Wait + Clone + Drop + Send + Sync>(x: &LocalTask<Goes, Far, R>) { is_sent(x); } //~ unsatisfied-bound
pub fn task_shared<R: Wait + Clone + Drop + Send + Sync>(x: &LocalTask<Goes, Far, R>) { is_shared(x); } //~ unsatisfied-bound
pub fn cancel_sent<R: Wait + Clone + Drop + Send + Sync>(x: &LocalCancel<Goes, Far, R>) { is_sent(x); } //~ unsatisfied-bound
pub fn fallible_sent<R: Wait + Clone + Drop + Send + Sync>(x: &LocalFallibleTask<Goes, Far, R>) { is_sent(x); } //~ unsatisfied-bound
pub fn cancel_shared<R: Wait + Clone + Drop + Send + Sync>(x: &LocalCancel<Goes, Far, R>) { is_shared(x); } //~ unsatisfied-bound
pub fn fallible_shared<R: Wait + Clone + Drop + Send + Sync>(x: &LocalFallibleTask<Goes, Far, R>) { is_shared(x); } //~ unsatisfied-bound
