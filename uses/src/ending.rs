//! A pool of threads that is joined, and futures that come back if they are refused.
use async_executor::{Executor, Future, Poll, Task};
use async_utilities::{Pool, PoolError, ThreadWaker, block_on, run_until};
use std::alloc::Global;
use std::sync::Wait;
use std::thread::Threads;

/// Gives the sum of two numbers.
#[derive(Debug, Drop)]
struct Sum {
    numbers: (u32, u32),
}

impl Sum {
    fn of(first: u32, second: u32) -> Sum {
        Sum {
            numbers: (first, second),
        }
    }
}

impl<W> Future<W> for Sum {
    type Output = u64;

    fn poll(&mut self, _w: &W) -> Poll<u64> {
        Poll::Ready(u64::from(self.numbers.0) + u64::from(self.numbers.1))
    }
}

type Handle<R> = Task<Sum, ThreadWaker, R>;

// Spawns two tasks. If a future is refused, it comes back.
fn spawn_two<R: Wait + Clone + Drop + Send + Sync>(
    executor: &Executor<Sum, ThreadWaker, R>,
    tasks: &mut Vec<Handle<R>>,
) -> Result<(), Option<Sum>> {
    let sums = (1..3).map(|number| Sum::of(number, number));
    match executor.spawn_many(sums, tasks) {
        Ok(_) => Ok(()),
        Err(refused) => Err(refused.into_inner()),
    }
}

// Awaits a task. If memory is refused, its handle comes back, and the task runs on without it.
fn awaited<R: Wait + Clone + Drop + Send + Sync>(
    rt: &R,
    alloc: Global,
    task: Handle<R>,
) -> Option<u64> {
    match block_on(rt, alloc, task) {
        Ok(output) => output.ok(),
        Err(refused) => {
            refused.into_inner().detach();
            None
        }
    }
}

// The same, and this thread runs tasks too.
fn helped<R: Wait + Clone + Drop + Send + Sync>(
    rt: &R,
    alloc: Global,
    executor: &Executor<Sum, ThreadWaker, R>,
    task: Handle<R>,
) -> Option<u64> {
    match run_until(rt, alloc, executor, task) {
        Ok(output) => output.ok(),
        Err(refused) => {
            refused.into_inner().detach();
            None
        }
    }
}

/// Awaits two tasks of a pool, and joins its threads. Gives the sum of the outputs, and what came
/// of each thread.
pub fn winds_up<R: Wait + Threads + Clone + Drop + Send + Sync + 'static>(
    rt: &R,
    alloc: Global,
) -> Option<(u64, Vec<Result<(), PoolError>>)> {
    let pool: Pool<Sum, R> = Pool::new(rt.clone().ok()?, alloc, 2).ok()?;
    let mut tasks = Vec::new(alloc);
    spawn_two(pool.executor(), &mut tasks).ok()?;
    let second = helped(rt, alloc, pool.executor(), tasks.pop()?);
    let first = awaited(rt, alloc, tasks.pop()?);
    let total = first?.checked_add(second?)?;
    Some((total, pool.join()))
}
