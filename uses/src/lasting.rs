//! Executors that live for as long as the program does.
use async_executor::{Executor, StaticExecutor};
use async_utilities::{NoopWaker, Ready, run_until};
use std::alloc::Global;
use std::io;
use std::sync::Wait;
use std::thread::{self, Threads};

/// Has two threads borrow an executor that is never dropped, and adds what their tasks give. A task from
/// before goes on.
pub fn serves<R: Wait + Threads + Clone + Drop + Send + Sync>(
    rt: &R,
    alloc: Global,
) -> io::Result<u64> {
    let executor = Executor::new(rt.clone()?, alloc)?;
    let before = executor.spawn(Ready::new(3u64))?;
    let server = executor.leak();
    let after = server.spawn(Ready::new(7))?;
    let (one, two) = thread::join(
        rt,
        || run_until(rt, alloc, &server, before),
        || run_until(rt, alloc, &server, after),
    );
    // 10
    Ok(one??.saturating_add(two??))
}

/// The text of an executor that has one task, which is scheduled.
pub fn prints<R: Wait + Clone + Drop + Send + Sync>(rt: &R, alloc: Global) -> io::Result<String> {
    let server: StaticExecutor<Ready<u64>, NoopWaker, R> = StaticExecutor::new(rt.clone()?, alloc)?;
    server.spawn(Ready::new(7))?.detach();
    // StaticExecutor { active: 0, global_tasks: 1, local_runners: [], sleepers: 0 }
    Ok(format!(in alloc; "{server:?}")?)
}
