//! The rows of a spawner, of whose jobs a server makes tasks.
use async_executor::{Executor, Future, Poll, Task};
use async_utilities::{JobLimits, Jobs, MakeTask, Ready, Server, Spawner, ThreadWaker, servers};
use std::alloc::Global;
use std::sync::Wait;

/// Makes a task of each number, which gives it at once.
#[derive(Drop)]
struct Numbers;

impl<R: Wait + Clone + Drop> MakeTask<u64, R> for Numbers {
    type Task = Ready<u64>;

    fn make(&self, number: u64, _spawner: &Spawner<u64, R>) -> Result<Ready<u64>, u64> {
        Ok(Ready::new(number))
    }
}

type NumberServer<R> = Server<u64, Numbers, R>;

// A server of jobs that runs on an executor by ticks of its own.
#[derive(Drop)]
struct Served<R: Wait + Clone + Drop + Send + Sync> {
    jobs: Jobs<u64, R>,
    ex: Executor<NumberServer<R>, ThreadWaker, R>,
    server: Task<NumberServer<R>, ThreadWaker, R>,
}

impl<R: Wait + Clone + Drop + Send + Sync> Served<R> {
    // A server that waits for its first job.
    fn new(rt: &R, alloc: Global) -> Option<Served<R>> {
        let limits = JobLimits {
            tasks: 1,
            room: None,
        };
        let (jobs, mut servers) = servers(rt.clone().ok()?, alloc, limits, Numbers).ok()?;
        let ex = Executor::new(rt.clone().ok()?, alloc).ok()?;
        let server = ex.spawn(servers.pop()?).ok()?;
        ex.try_tick();
        Some(Served { jobs, ex, server })
    }

    // How many tasks ended, once no job is left.
    fn ended(self, alloc: Global) -> Option<u64> {
        let Served { jobs, ex, server } = self;
        drop(jobs);
        ex.try_tick();
        let mut server = server;
        match server.poll(&ThreadWaker::new(alloc).ok()?) {
            Poll::Ready(ended) => ended.ok(),
            Poll::Pending => None,
        }
    }
}

/// Hands in a job, and runs the task of it, over and over. Gives how many tasks ended.
pub fn spawner_job<R: Wait + Clone + Drop + Send + Sync>(
    rt: &R,
    alloc: Global,
    operations: u64,
) -> Option<u64> {
    let served = Served::new(rt, alloc)?;
    for _ in 0..operations {
        served.jobs.spawner().spawn(7).ok()?;
        served.ex.try_tick();
    }
    served.ended(alloc)
}

/// Hands in all jobs, then runs their tasks. Gives how many tasks ended.
pub fn spawner_jobs<R: Wait + Clone + Drop + Send + Sync>(
    rt: &R,
    alloc: Global,
    operations: u64,
) -> Option<u64> {
    let served = Served::new(rt, alloc)?;
    for _ in 0..operations {
        served.jobs.spawner().spawn(7).ok()?;
    }
    for _ in 0..operations {
        if !served.ex.try_tick() {
            break;
        }
    }
    served.ended(alloc)
}
