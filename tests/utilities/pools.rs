//! Threads that run the tasks of one executor: of one queue, of shards, and of levels.
use crate::tests::support::running::record::{AtDrop, Moment, Record};
use crate::tests::support::running::refusal::{MOST, is_order_left, refuse};
use crate::tests::support::running::waiting::turns;
use async_executor::{Future, Poll, SpawnError, Task, TaskWaker, Wake};
use async_utilities::{JoinAll, Pool, PoolError, PoolOf, ThreadWaker, block_on};
use pools::{Levels, PriorityPool, ShardedPool};
use priority_executor::PriorityExecutor;
use std::sync::atomic::{AtomicU64, Ordering};
use std::sync::{Arc, Wait};
use std::test::Fail;
use std::thread::{Threads, yield_now};

type Ended = Result<(), PoolError>;

// A pool of any kind, of so many threads.
trait Kind<F, R>: Sized + Drop
where
    F: Future<TaskWaker<ThreadWaker, R>> + Send + 'static,
    F::Output: Send + 'static,
    R: Wait + Threads + Clone + Drop + Send + Sync + AllocGlobal + 'static,
{
    fn start(rt: &R, count: usize) -> Result<Self, PoolError>;

    fn spawn(&self, future: F) -> Result<Task<F, ThreadWaker, R>, SpawnError<F>>;

    fn end(self) -> Vec<Ended>;
}

impl<F, R> Kind<F, R> for Pool<F, R>
where
    F: Future<TaskWaker<ThreadWaker, R>> + Send + 'static,
    F::Output: Send + 'static,
    R: Wait + Threads + Clone + Drop + Send + Sync + AllocGlobal + 'static,
{
    fn start(rt: &R, count: usize) -> Result<Self, PoolError> {
        Pool::new(rt.clone()?, rt.alloc(), count)
    }

    fn spawn(&self, future: F) -> Result<Task<F, ThreadWaker, R>, SpawnError<F>> {
        self.executor().spawn(future)
    }

    fn end(self) -> Vec<Ended> {
        self.join()
    }
}

impl<F, R> Kind<F, R> for ShardedPool<F, R>
where
    F: Future<TaskWaker<ThreadWaker, R>> + Send + 'static,
    F::Output: Send + 'static,
    R: Wait + Threads + Clone + Drop + Send + Sync + AllocGlobal + 'static,
{
    fn start(rt: &R, count: usize) -> Result<Self, PoolError> {
        ShardedPool::new(rt.clone()?, rt.alloc(), count.max(1))
    }

    fn spawn(&self, future: F) -> Result<Task<F, ThreadWaker, R>, SpawnError<F>> {
        self.executor().spawn(future)
    }

    fn end(self) -> Vec<Ended> {
        self.join()
    }
}

// The tasks of a test are of level 1.
impl<F, R> Kind<F, R> for PriorityPool<F, R, 2>
where
    F: Future<TaskWaker<ThreadWaker, R>> + Send + 'static,
    F::Output: Send + 'static,
    R: Wait + Threads + Clone + Drop + Send + Sync + AllocGlobal + 'static,
{
    fn start(rt: &R, count: usize) -> Result<Self, PoolError> {
        let levels = Levels::new(PriorityExecutor::new(rt.clone()?, rt.alloc())?);
        PoolOf::new(rt.clone()?, rt.alloc(), count, levels)
    }

    fn spawn(&self, future: F) -> Result<Task<F, ThreadWaker, R>, SpawnError<F>> {
        self.executor().spawn(1, future)
    }

    fn end(self) -> Vec<Ended> {
        self.join()
    }
}

// Gives its number at its second poll, for which it asks.
#[derive(Drop)]
struct Gives {
    number: u64,
    is_polled: bool,
}

impl<W: Wake> Future<W> for Gives {
    type Output = u64;

    fn poll(&mut self, w: &W) -> Poll<u64> {
        if self.is_polled {
            return Poll::Ready(self.number);
        }
        self.is_polled = true;
        w.wake();
        Poll::Pending
    }
}

// Sums a thousand tasks on so many threads, and joins these. Gives the sum, and how many of the threads
// ended well.
fn sums<P, R>(rt: &R, count: usize) -> Result<(u64, usize), Fail>
where
    P: Kind<Gives, R>,
    R: AllocGlobal + Wait + Threads + Clone + Drop + Send + Sync + 'static,
{
    let pool = P::start(rt, count)?;
    let mut tasks = Vec::new(rt.alloc());
    for number in 0..1000 {
        let future = Gives {
            number,
            is_polled: false,
        };
        tasks.push(pool.spawn(future).ok().ok_or("no memory for a task")?)?;
    }
    let Ok(all) = JoinAll::new(rt.alloc(), tasks) else {
        return Err("no memory for the outputs".into());
    };
    let mut sum = 0u64;
    for output in block_on(rt, rt.alloc(), all)? {
        sum = sum.saturating_add(output?);
    }
    let ended = pool.end();
    Ok((sum, ended.iter().filter(|one| one.is_ok()).count()))
}

#[test]
fn a_pool_runs_all_tasks(rt: HostRuntime) -> Result<(), Fail> {
    for count in [1, 2, 4] {
        assert_eq!(rt; sums::<Pool<Gives, _>, _>(&rt, count)?, (499500, count));
        assert_eq!(rt; sums::<ShardedPool<Gives, _>, _>(&rt, count)?, (499500, count));
        assert_eq!(rt; sums::<PriorityPool<Gives, _, 2>, _>(&rt, count)?, (499500, count));
    }
    Ok(())
}

// Ready once so many are polled at the same time, each by a thread of its own.
#[derive(Drop)]
struct Meets {
    count: Arc<AtomicU64>,
    all: u64,
}

impl<W> Future<W> for Meets {
    type Output = ();

    fn poll(&mut self, _w: &W) -> Poll<()> {
        self.count.fetch_add(1, Ordering::SeqCst);
        for _ in 0..turns() {
            if self.count.load(Ordering::SeqCst) >= self.all {
                break;
            }
            yield_now();
        }
        Poll::Ready(())
    }
}

// Has each of three threads, of as many shards, run a task at the same time, so all of them have begun. Says
// whether each has its queue in a shard of its own.
fn has_one_in_each<R>(rt: &R) -> Result<bool, Fail>
where
    R: AllocGlobal + Wait + Threads + Clone + Drop + Send + Sync + 'static,
{
    let pool: ShardedPool<Meets, R> = ShardedPool::new(rt.clone()?, rt.alloc(), 3)?;
    let count = Arc::new(rt.alloc(), AtomicU64::new(0))?;
    let mut tasks = Vec::new(rt.alloc());
    for _ in 0..3 {
        let count = Arc::try_clone(&count)?;
        let task = pool.executor().spawn(Meets { count, all: 3 });
        tasks.push(task.ok().ok_or("no memory for a task")?)?;
    }
    for task in tasks {
        block_on(rt, rt.alloc(), task)??;
    }
    let text = format!(in rt.alloc(); "{:?}", pool.executor())?;
    Ok(text.as_str().matches("local_runners: [0]").count() == 3)
}

#[test]
fn each_thread_drives_a_shard(rt: HostRuntime) -> Result<(), Fail> {
    assert!(rt; has_one_in_each(&rt)?);
    Ok(())
}

// Starts pools whose threads sleep, and drops each.
fn starts_and_drops<P, R>(rt: &R) -> Result<(), Fail>
where
    P: Kind<Gives, R>,
    R: AllocGlobal + Wait + Threads + Clone + Drop + Send + Sync + 'static,
{
    for _ in 0..50 {
        drop(P::start(rt, 3)?);
    }
    Ok(())
}

#[test]
fn the_drop_of_a_pool_stops_its_threads(rt: HostRuntime) -> Result<(), Fail> {
    starts_and_drops::<Pool<Gives, _>, _>(&rt)?;
    starts_and_drops::<ShardedPool<Gives, _>, _>(&rt)?;
    starts_and_drops::<PriorityPool<Gives, _, 2>, _>(&rt)
}

// Never ready. Its drop is counted.
#[derive(Drop)]
struct Stays {
    _drop: AtDrop,
}

impl<W> Future<W> for Stays {
    type Output = ();

    fn poll(&mut self, _w: &W) -> Poll<()> {
        Poll::Pending
    }
}

// Drops a pool, or joins it, that has a task which is never ready. Gives how often its future was dropped
// by then.
fn leaves<P, R>(rt: &R, joins: bool) -> Result<u64, Fail>
where
    P: Kind<Stays, R>,
    R: AllocGlobal + Wait + Threads + Clone + Drop + Send + Sync + 'static,
{
    let record = Record::new(rt.alloc())?;
    let pool = P::start(rt, 2)?;
    let stays = Stays {
        _drop: AtDrop::new(record.share()?, Moment::FutureDrop),
    };
    pool.spawn(stays).ok().ok_or("no memory for a task")?.detach();
    if joins {
        drop(pool.end());
    } else {
        drop(pool);
    }
    Ok(record.times(Moment::FutureDrop))
}

#[test]
fn a_pool_that_goes_drops_the_tasks_that_are_left(rt: HostRuntime) -> Result<(), Fail> {
    for joins in [true, false] {
        assert_eq!(rt; leaves::<Pool<Stays, _>, _>(&rt, joins)?, 1);
        assert_eq!(rt; leaves::<ShardedPool<Stays, _>, _>(&rt, joins)?, 1);
        assert_eq!(rt; leaves::<PriorityPool<Stays, _, 2>, _>(&rt, joins)?, 1);
    }
    Ok(())
}

// Makes a pool of one thread with this request refused, and stops it. Says whether the refusal was an
// answer of `new`, or none was met.
fn begins_or_is_refused<P, R>(rt: &R, request: usize) -> bool
where
    P: Kind<Gives, R>,
    R: AllocGlobal + Wait + Threads + Clone + Drop + Send + Sync + 'static,
{
    refuse(rt.alloc(), request);
    match P::start(rt, 1) {
        Ok(pool) => pool.end().iter().all(|ended| ended.is_ok()),
        Err(error) => error == PoolError::OutOfMemory,
    }
}

// Refuses the last requests that the making of a pool makes, so many and each in turn, which are those of its
// thread: the sanitizer cannot do without those that start a thread. Says whether each was answered as it
// should be.
fn is_refused_with_its_thread<P, R>(rt: &R, own_requests: usize) -> bool
where
    P: Kind<Gives, R>,
    R: AllocGlobal + Wait + Threads + Clone + Drop + Send + Sync + 'static,
{
    let mut refused = 0;
    for request in (1..=MOST).rev() {
        if !begins_or_is_refused::<P, R>(rt, request) {
            return false;
        }
        if !is_order_left(rt.alloc()) {
            refused += 1;
        }
        if refused == own_requests {
            return true;
        }
    }
    false
}

#[test]
fn a_pool_is_refused_with_its_thread(rt: HostRuntime) -> Result<(), Fail> {
    assert!(rt; is_refused_with_its_thread::<Pool<Gives, _>, _>(&rt, 4));
    Ok(())
}

#[test]
fn a_pool_of_shards_is_refused_with_its_thread(rt: HostRuntime) -> Result<(), Fail> {
    assert!(rt; is_refused_with_its_thread::<ShardedPool<Gives, _>, _>(&rt, 7));
    Ok(())
}

#[test]
fn a_pool_of_levels_is_refused_with_its_thread(rt: HostRuntime) -> Result<(), Fail> {
    assert!(rt; is_refused_with_its_thread::<PriorityPool<Gives, _, 2>, _>(&rt, 4));
    Ok(())
}
