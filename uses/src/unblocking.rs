//! Work that blocks, which the threads of a pool do for the tasks of another executor.
use async_executor::{Executor, TaskWaker};
use async_utilities::{Answer, Job, Pool, ThreadWaker, Work, run_until};
use std::alloc::Global;
use std::io;
use std::sync::Wait;
use std::thread::{Threads, yield_now};

/// Takes its time, as a read of a file would.
#[derive(Drop)]
struct Slow {
    number: u64,
}

impl Job for Slow {
    type Output = u64;

    fn run(self) -> u64 {
        for _ in 0..100 {
            yield_now();
        }
        self.number
    }
}

type Waker<R> = TaskWaker<ThreadWaker, R>;

type Jobs<R> = Pool<Work<Slow, Waker<R>, R>, R>;

type Tasks<R> = Executor<Answer<u64, Waker<R>, R>, ThreadWaker, R>;

/// Has a task await a job, which a thread of a pool does.
pub fn unblocks<R: Wait + Threads + Clone + Drop + Send + Sync + 'static>(
    rt: &R,
    alloc: Global,
) -> io::Result<u64> {
    let jobs: Jobs<R> = Pool::new(rt.clone()?, alloc, 1)?;
    let executor: Tasks<R> = Executor::new(rt.clone()?, alloc)?;
    let answer = jobs.unblock(Slow { number: 7 })?;
    let task = executor.spawn(answer)?;
    // 7
    Ok(run_until(rt, alloc, &executor, task)???)
}
