//! Takes a random program on an executor with shards, and says what is wrong in the end.
use super::handles::{Ended, Handles};
use super::lives::Living;
use super::programs::{Call, Program};
use super::shards::Shards;
use super::trial::{Endless, calls_of, closed, half_by_threads, has_no_tickers};
use super::waker::TestWaker;
use async_executor::Task;
use executor_core::task::{Future, Poll};
use std::sync::Wait;
use std::sync::atomic::Ordering;
use std::test::Fail;
use std::thread::{self, Threads};

/// What is wrong in the end of this program on so many shards, which are dropped even if it leaks its
/// executor.
pub fn tried_on<R: AllocGlobal + Wait + Threads + Clone + Drop + Send + Sync>(
    rt: &R,
    program: &Program,
    shards: usize,
) -> Result<Option<&'static str>, Fail> {
    let alloc = rt.alloc();
    let handles = Handles::new(program.tasks, alloc)?;
    let ex = Shards::of(rt.clone()?, alloc, shards)?;
    let ended = ended(rt, program, &handles, ex);
    Ok(handles.judged(ended, false))
}

fn ended<R: AllocGlobal + Wait + Threads + Clone + Drop + Send + Sync>(
    rt: &R,
    program: &Program,
    handles: &Handles<Task<Living<R>, TestWaker, R>, R>,
    ex: Shards<Living<R>, TestWaker, R>,
) -> Ended {
    closed!(half_by_threads, rt, program, handles, ex)
}
