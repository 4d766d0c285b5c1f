//! An executor within another.
use async_executor::{Cancelled, Executor, Future, Poll, Run, Task, TaskWaker, Wake};
use async_utilities::{Ready, ThreadWaker, run_until};
use std::alloc::Global;
use std::io;
use std::sync::Wait;

/// The run of an inner executor, as a task of an outer one. It is a type of its own because a caller is
/// proved sooner if the type of its future nests no others.
#[derive(Drop)]
struct Inner<'a, W: Wake, R: Wait + Drop> {
    run: Run<'a, Ready<u64>, W, R, Task<Ready<u64>, W, R>>,
}

impl<W: Wake, R: Wait + Drop> Future<W> for Inner<'_, W, R> {
    type Output = Result<u64, Cancelled>;

    fn poll(&mut self, w: &W) -> Poll<Result<u64, Cancelled>> {
        self.run.poll(w)
    }
}

/// Runs the run of an inner executor as a task of an outer one, and gives the output of the inner
/// task. A spawn on the inner executor, or a wake of its task, wakes the outer task.
pub fn nests<R: Wait + Clone + Drop + Send + Sync>(rt: &R, alloc: Global) -> io::Result<u64> {
    let inner = Executor::new(rt.clone()?, alloc)?;
    let task = inner.spawn(Ready::new(3))?;
    let run = inner.run(task)?;
    Ok(runs_alone(rt, alloc, Inner { run })??)
}

// Runs a future on an executor of its own.
fn runs_alone<F, R>(rt: &R, alloc: Global, future: F) -> io::Result<F::Output>
where
    F: Future<TaskWaker<ThreadWaker, R>> + Send,
    F::Output: Send,
    R: Wait + Clone + Drop + Send + Sync,
{
    let outer = Executor::new(rt.clone()?, alloc)?;
    let task = outer.spawn(future)?;
    Ok(run_until(rt, alloc, &outer, task)??)
}
