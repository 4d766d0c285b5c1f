//! The calls of an executor with shards, each in a whole example. What it gives is what the tests compare.
use async_utilities::{NoopWaker, Ready, ThreadWaker, Zip, block_on};
use sharded_executor::ShardedExecutor;
use std::alloc::Global;
use std::io;
use std::sync::Wait;

/// Whether each of two shards has a task to run, and whether none is left then.
pub fn spreads<R: Wait + Clone + Drop + Send + Sync>(
    rt: &R,
    alloc: Global,
) -> io::Result<[bool; 3]> {
    let executor: ShardedExecutor<Ready<u64>, NoopWaker, R> = ShardedExecutor::new(
        rt.clone()?,
        alloc,
        2,
    )?;
    executor.spawn(Ready::new(1))?.detach();
    executor.spawn(Ready::new(2))?.detach();
    let (first, second) = (executor.shard(0).try_tick(), executor.shard(1).try_tick());
    // [true, true, true]
    Ok([first, second, executor.is_empty()])
}

/// The outputs of a task of each shard, both of which the run of the first one runs.
pub fn runs_shards<R: Wait + Clone + Drop + Send + Sync>(
    rt: &R,
    alloc: Global,
) -> io::Result<(u64, u64)> {
    let executor = ShardedExecutor::new(rt.clone()?, alloc, 2)?;
    let one = executor.spawn(Ready::new(1))?;
    let two = executor.spawn(Ready::new(2))?;
    let run = executor.run(0, Zip::new(one, two))?;
    let (first, second) = block_on(rt, alloc, run)?;
    // (1, 2)
    Ok((first?, second?))
}
