//! Tasks that are given a time.
use async_executor::{Executor, Future, TaskWaker, Wake};
use async_utilities::{Never, ThreadWaker, Timeout, Timer};
use std::alloc::Global;
use std::io;
use std::sync::Wait;
use std::time::{Clock, Duration};

type Wanted<R> = Timeout<Never<u64>, TaskWaker<ThreadWaker, R>, R>;

/// Runs a future as a task, and gives its output. One thread drives the executor and the timer.
pub fn runs_in_time<F, W, R>(
    rt: &R,
    alloc: Global,
    timer: &Timer<W, R, R>,
    wanted: F,
) -> io::Result<F::Output>
where
    F: Future<TaskWaker<ThreadWaker, R>> + Send,
    F::Output: Send,
    W: Wake,
    R: Wait + Clock + Clone + Drop + Send + Sync,
{
    let executor: Executor<F, ThreadWaker, R> = Executor::new(rt.clone()?, alloc)?;
    let task = executor.spawn(wanted)?;
    Ok(awaits_in_time(timer, &executor, task)??)
}

// Awaits a future in a run of the executor, and has times come.
fn awaits_in_time<F, G, W, R>(
    timer: &Timer<W, R, R>,
    executor: &Executor<F, ThreadWaker, R>,
    future: G,
) -> io::Result<G::Output>
where
    F: Future<TaskWaker<ThreadWaker, R>>,
    G: Future<ThreadWaker>,
    W: Wake,
    R: Wait + Clock + Clone + Drop,
{
    Ok(timer.block_on(executor.run(future)?)?)
}

/// Gives ten milliseconds to a task that never ends, and says whether it was too late.
pub fn times_out<R: Wait + Clock + Clone + Drop + Send + Sync>(
    rt: &R,
    alloc: Global,
) -> io::Result<bool> {
    let timer = Timer::new(rt.clone()?, rt.clone()?, alloc)?;
    let wanted = timer.timeout(Duration::from_millis(10), Never::new())?;
    let answer = runs_in_time::<Wanted<R>, TaskWaker<ThreadWaker, R>, R>(
        rt, alloc, &timer, wanted,
    )?;
    // true
    Ok(answer.is_err())
}
