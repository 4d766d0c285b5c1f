//! Executors with shards, of which tests ask what they ask of an executor.
use async_executor::{
    Executor, Future, Limits, NewError, OutOfMemory, RunError, SpawnError, Task, TaskWaker, Tick, Wake,
};
use sharded_executor::{ShardedExecutor, ShardedRun};
use std::alloc::Global;
use std::fmt::{self, Debug, Formatter, Write};
use std::sync::Wait;
use std::sync::atomic::{AtomicUsize, Ordering};

/// An executor with shards. Each call on one shard is made on the next one in turn, so that of one with a
/// single shard all holds that holds of an executor. Its text has the text of each shard.
#[derive(Drop)]
pub struct Shards<F, W, R>
where
    F: Future<TaskWaker<W, R>>,
    W: Wake,
    R: Wait + Clone + Drop,
{
    all: ShardedExecutor<F, W, R>,
    turn: AtomicUsize,
}

impl<F, W, R> Shards<F, W, R>
where
    F: Future<TaskWaker<W, R>> + Send,
    F::Output: Send,
    W: Wake + Send,
    R: Wait + Clone + Drop + Send + Sync,
{
    /// So many.
    pub fn of(rt: R, alloc: Global, count: usize) -> Result<Shards<F, W, R>, OutOfMemory> {
        Ok(Shards {
            all: ShardedExecutor::new(rt, alloc, count.max(1))?,
            turn: AtomicUsize::new(0),
        })
    }

    /// One.
    pub fn new(rt: R, alloc: Global) -> Result<Shards<F, W, R>, OutOfMemory> {
        Shards::of(rt, alloc, 1)
    }

    /// One with these limits.
    pub fn new_with(rt: R, alloc: Global, limits: Limits) -> Result<Shards<F, W, R>, NewError> {
        Ok(Shards {
            all: ShardedExecutor::new_with(rt, alloc, 1, limits)?,
            turn: AtomicUsize::new(0),
        })
    }

    pub fn spawn(&self, future: F) -> Result<Task<F, W, R>, SpawnError<F>> {
        self.all.spawn(future)
    }

    pub fn is_empty(&self) -> bool {
        self.all.is_empty()
    }

    pub fn try_tick(&self) -> bool {
        self.shard().try_tick()
    }

    pub fn try_tick_any(&self) -> bool {
        self.all.try_tick_any()
    }

    pub fn tick(&self) -> Result<Tick<'_, F, W, R>, OutOfMemory> {
        self.shard().tick()
    }

    pub fn run<G: Future<W>>(&self, own: G) -> Result<ShardedRun<'_, F, W, R, G>, RunError<G>> {
        self.all.run(self.next(), own)
    }

    fn next(&self) -> usize {
        self.turn.fetch_add(1, Ordering::SeqCst) % self.all.shards()
    }

    fn shard(&self) -> &Executor<F, W, R> {
        self.all.shard(self.next())
    }
}

impl<F, W, R> Debug for Shards<F, W, R>
where
    F: Future<TaskWaker<W, R>>,
    W: Wake,
    R: Wait + Clone + Drop,
{
    fn fmt<O: Write>(&self, f: &mut Formatter<O>) -> fmt::Result {
        for number in 0..self.all.shards() {
            self.all.shard(number).fmt(f)?;
        }
        Ok(())
    }
}
