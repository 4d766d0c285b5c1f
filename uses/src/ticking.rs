//! Tasks that two threads run by ticks.
use async_executor::Executor;
use async_utilities::{NoopWaker, Ready};
use std::alloc::Global;
use std::io;
use std::sync::Wait;
use std::thread::{self, Threads};

type Numbers<R> = Executor<Ready<u64>, NoopWaker, R>;

/// Runs the tasks of one executor on two threads, and says whether all have ended.
pub fn shares<R: Wait + Threads + Clone + Drop + Send + Sync>(
    rt: &R,
    alloc: Global,
) -> io::Result<bool> {
    let executor: Numbers<R> = Executor::new(rt.clone()?, alloc)?;
    executor.spawn(Ready::new(3))?.detach();
    executor.spawn(Ready::new(7))?.detach();
    thread::join(rt, || run_all(rt, &executor), || run_all(rt, &executor));
    // true
    Ok(executor.is_empty())
}

// Runs tasks until nothing is scheduled.
fn run_all<R: Wait + Clone + Drop + Send + Sync>(rt: &R, executor: &Numbers<R>) {
    for _ in rt.forever() {
        if !executor.try_tick() {
            break;
        }
    }
}
