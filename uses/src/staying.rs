//! Callers of an executor that stays on its thread.
use async_executor::{Cancelled, Future, LocalExecutor, LocalTask, Poll};
use async_utilities::{NoopWaker, Ready};
use std::alloc::Global;
use std::cell::Cell;
use std::io;
use std::rc::Rc;
use std::sync::Wait;

/// Adds its number to a total that it shares with others on its thread.
#[derive(Drop)]
struct Add {
    total: Rc<Cell<u64>>,
    number: u64,
}

impl<W> Future<W> for Add {
    type Output = ();

    fn poll(&mut self, _w: &W) -> Poll<()> {
        self.total.set(self.total.get().saturating_add(self.number));
        Poll::Ready(())
    }
}

/// Runs two tasks that share a total by an `Rc`, beside the handle of the first. The second poll of
/// the run gives its output.
pub fn stays<R: Wait + Clone + Drop>(rt: &R, alloc: Global) -> io::Result<(u64, bool)> {
    let total = Rc::new(alloc, Cell::new(0))?;
    let executor = LocalExecutor::new(rt.clone()?, alloc)?;
    spawned(&executor, &total, 2)?.detach();
    let mut run = executor.run(spawned(&executor, &total, 3)?)?;
    run.poll(&NoopWaker);
    let has_ended = run.poll(&NoopWaker) == Poll::Ready(Ok(()));
    // (5, true)
    Ok((total.get(), has_ended && executor.is_empty()))
}

// The handle of a task that adds this number to the total.
fn spawned<R: Wait + Clone + Drop>(
    executor: &LocalExecutor<Add, NoopWaker, R>,
    total: &Rc<Cell<u64>>,
    number: u64,
) -> io::Result<LocalTask<Add, NoopWaker, R>> {
    let total = total.clone()?;
    Ok(executor.spawn(Add { total, number })?)
}

/// Spawns two tasks, runs one of them, and drops the executor: the other one is cancelled.
pub fn gathers<R: Wait + Clone + Drop>(
    rt: &R,
    alloc: Global,
) -> io::Result<[Poll<Result<u64, Cancelled>>; 2]> {
    let executor = LocalExecutor::new(rt.clone()?, alloc)?;
    let mut first = executor.spawn(Ready::new(3))?;
    let mut second = executor.spawn(Ready::new(7))?;
    executor.try_tick();
    drop(executor);
    // [Ready(Ok(3)), Ready(Err(Cancelled))]
    Ok([first.poll(&NoopWaker), second.poll(&NoopWaker)])
}
