//! Threads that run the tasks of one executor, each by a run, until they are told to stop.
use async_executor::Executor;
use async_utilities::{JoinAll, Pool, Ready, Signal, ThreadWaker, Zip, block_on};
use std::alloc::Global;
use std::io::{self, ErrorKind};
use std::sync::Wait;
use std::thread::{self, Threads};

type Workers<R> = Executor<Ready<u64>, ThreadWaker, R>;

// Awaits two tasks, and adds their outputs.
fn sum<R: Wait + Clone + Drop + Send + Sync>(
    rt: &R,
    alloc: Global,
    executor: &Workers<R>,
) -> io::Result<u64> {
    let one = executor.spawn(Ready::new(3))?;
    let two = executor.spawn(Ready::new(7))?;
    let (first, second) = block_on(rt, alloc, Zip::new(one, two))?;
    Ok(first?.saturating_add(second?))
}

/// Runs tasks on two threads, and adds their outputs on a third, which parks until they are there.
pub fn pools<R: Wait + Threads + Clone + Drop + Send + Sync>(
    rt: &R,
    alloc: Global,
) -> io::Result<u64> {
    let stop = Signal::new(rt.clone()?, alloc)?;
    let executor = Executor::new(rt.clone()?, alloc)?;
    let one = executor.run(stop.waiting()?)?;
    let two = executor.run(stop.waiting()?)?;
    thread::scope(thread::scope_env(), rt, |scope| {
        let is_first = scope.spawn(move || block_on(rt, alloc, one)).is_ok();
        let is_second = scope.spawn(move || block_on(rt, alloc, two)).is_ok();
        if !is_first && !is_second {
            return Err(io::Error::from(ErrorKind::WouldBlock));
        }
        let total = sum(rt, alloc, &executor);
        stop.set();
        total
    })
}

/// Has a pool of four threads run a task for each number up to 1,000, and adds their outputs in order.
/// The drop of the pool stops its threads.
pub fn joins<R: Wait + Threads + Clone + Drop + Send + Sync + 'static>(
    rt: &R,
    alloc: Global,
) -> io::Result<u64> {
    let pool: Pool<Ready<u64>, R> = Pool::new(rt.clone()?, alloc, 4)?;
    let mut tasks = Vec::new(alloc);
    let futures = (1..1_001).map(|number| Ready::new(number));
    pool.executor().spawn_many(futures, &mut tasks)?;
    let all = JoinAll::new(alloc, tasks)?;
    let mut total = 0u64;
    for output in block_on(rt, alloc, all)? {
        total = total.saturating_add(output?);
    }
    // 500,500
    Ok(total)
}
