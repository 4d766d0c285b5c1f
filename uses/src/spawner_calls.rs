//! The calls of a spawner, in a whole example. What it gives is what the tests compare.
use async_executor::{Cancelled, Executor};
use async_utilities::{JobLimits, JoinAll, MakeTask, Ready, Spawner, run_until, servers};
use std::alloc::Global;
use std::io;
use std::sync::Wait;

/// Makes a task of each number, which gives it at once.
#[derive(Drop)]
struct Numbers;

impl<R: Wait + Drop> MakeTask<u64, R> for Numbers {
    type Task = Ready<u64>;

    fn make(&self, number: u64, _spawner: &Spawner<u64, R>) -> Result<Ready<u64>, u64> {
        Ok(Ready::new(number))
    }
}

/// How many tasks the only server ran, each made of a job.
pub fn hands_in_jobs<R: Wait + Clone + Drop + Send + Sync>(
    rt: &R,
    alloc: Global,
) -> io::Result<Vec<Result<u64, Cancelled>>> {
    let limits = JobLimits {
        tasks: 1,
        room: None,
    };
    let (jobs, servers) = servers(rt.clone()?, alloc, limits, Numbers)?;
    jobs.spawner().spawn(7)?;
    jobs.spawner().spawn(8)?;
    drop(jobs);
    let executor = Executor::new(rt.clone()?, alloc)?;
    let mut tasks = Vec::new(alloc);
    executor.spawn_many(servers.into_iter(), &mut tasks)?;
    // [Ok(2)]
    Ok(run_until(rt, alloc, &executor, JoinAll::new(alloc, tasks)?)?)
}
