//! A task that wants more tasks: it hands in a job, and a task is made of each.
use async_executor::{Future, Poll};
use async_utilities::{JobLimits, JoinAll, MakeTask, Pool, Server, Spawner, block_on, servers};
use std::alloc::Global;
use std::io;
use std::sync::Wait;
use std::thread::Threads;

/// Makes the branches of a tree. A job is how deep the tree below a branch is.
#[derive(Drop)]
struct Tree;

impl<R: Wait + Drop> MakeTask<u32, R> for Tree {
    type Task = Branch<R>;

    fn make(&self, depth: u32, spawner: &Spawner<u32, R>) -> Result<Branch<R>, u32> {
        match spawner.copy() {
            Ok(spawner) => Ok(Branch { depth, spawner }),
            Err(_) => Err(depth),
        }
    }
}

/// Wants two more branches, unless it is a leaf.
#[derive(Drop)]
struct Branch<R: Wait + Drop> {
    depth: u32,
    spawner: Spawner<u32, R>,
}

impl<W, R: Wait + Drop> Future<W> for Branch<R> {
    type Output = ();

    fn poll(&mut self, _w: &W) -> Poll<()> {
        if let Some(below) = self.depth.checked_sub(1) {
            let _ = self.spawner.spawn(below);
            let _ = self.spawner.spawn(below);
        }
        Poll::Ready(())
    }
}

/// Runs a task that wants two more, each of which does the same, three levels deep. Gives how many
/// tasks ended.
pub fn fans_out<R: Wait + Threads + Clone + Drop + Send + Sync + 'static>(
    rt: &R,
    alloc: Global,
) -> io::Result<u64> {
    let limits = JobLimits {
        tasks: 4,
        room: None,
    };
    let (jobs, servers) = servers(rt.clone()?, alloc, limits, Tree)?;
    let pool: Pool<Server<u32, Tree, R>, R> = Pool::new(rt.clone()?, alloc, 2)?;
    let mut tasks = Vec::new(alloc);
    pool.executor().spawn_many(servers.into_iter(), &mut tasks)?;
    jobs.spawner().spawn(3)?;
    drop(jobs);
    let mut ended = 0u64;
    for done in block_on(rt, alloc, JoinAll::new(alloc, tasks)?)? {
        ended = ended.saturating_add(done?);
    }
    Ok(ended)
}
