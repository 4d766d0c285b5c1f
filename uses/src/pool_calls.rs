//! The calls of a pool for an executor of one's own, in a whole example. What it gives is what the tests
//! compare.
ghost use Rattle.std.specs.Prelude.{◌≢◌, IfErr};
ghost use Rattle.async_utilities.specs.declared.pooling.PoolError.TheVariants.{NoThread};

use async_executor::{Executor, Limits};
use async_utilities::{
    Done, Driven, PoolError, PoolOf, PoolThread, Ready, ThreadWaker, Waiting, block_on,
};
use std::alloc::Global;
use std::io;
use std::sync::Wait;
use std::thread::Threads;

/// An executor with limits of its own, which each thread of a pool drives.
#[derive(Drop)]
struct Limited<R: Wait + Drop> {
    executor: Executor<Ready<u64>, ThreadWaker, R>,
}

impl<R: Wait + Drop> Driven<R> for Limited<R> {
    fn drive(
        &self,
        _number: usize,
        stopped: Waiting<ThreadWaker, R>,
        thread: PoolThread<'_, R>,
    ) -> Result<Done, PoolError>
        ensures refused { IfErr result (λ error. error ≢ NoThread) }
    {
        thread.until_ready(self.executor.run(stopped)?)
    }
}

/// 7, which a task gives. Each thread of the pool drives a run with turns of eight tasks.
pub fn drives_in_turns<R: Wait + Threads + Clone + Drop + Send + Sync + 'static>(
    rt: &R,
    alloc: Global,
) -> io::Result<u64> {
    let limits = Limits {
        turn: 8,
        ..Limits::default()
    };
    let executor = Executor::new_with(rt.clone()?, alloc, limits)?;
    let pool = PoolOf::new(rt.clone()?, alloc, 2, Limited { executor })?;
    let task = pool.executor().executor.spawn(Ready::new(7))?;
    let number = block_on(rt, alloc, task)??;
    for ended in pool.join() {
        ended?;
    }
    // 7
    Ok(number)
}
