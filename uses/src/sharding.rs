//! An executor with shards on as many threads, by a pool and by threads of one's own, and one who serves two
//! executors by himself.
use async_executor::{Executor, Limits, Task};
use async_utilities::{JoinAll, NoopWaker, Ready, Signal, ThreadWaker, YieldNow, Zip, block_on};
use pools::ShardedPool;
use sharded_executor::ShardedExecutor;
use std::alloc::Global;
use std::io::{self, ErrorKind};
use std::sync::Wait;
use std::thread::{self, Threads};

/// Has a pool of four threads run a task for each number up to 1,000, spread over four shards, and adds their
/// outputs.
pub fn sums_on_shards<R: Wait + Threads + Clone + Drop + Send + Sync + 'static>(
    rt: &R,
    alloc: Global,
) -> io::Result<u64> {
    let pool: ShardedPool<Ready<u64>, R> = ShardedPool::new(rt.clone()?, alloc, 4)?;
    let mut tasks = Vec::new(alloc);
    for number in 1..1_001 {
        tasks.push(pool.executor().spawn(Ready::new(number))?)?;
    }
    let total = total_of(rt, alloc, tasks)?;
    for ended in pool.join() {
        ended?;
    }
    // 500,500
    Ok(total)
}

// Awaits these tasks, and adds their outputs.
fn total_of<R: Wait + Clone + Drop + Send + Sync>(
    rt: &R,
    alloc: Global,
    tasks: Vec<Task<Ready<u64>, ThreadWaker, R>>,
) -> io::Result<u64> {
    let mut total = 0u64;
    for output in block_on(rt, alloc, JoinAll::new(alloc, tasks)?)? {
        total = total.saturating_add(output?);
    }
    Ok(total)
}

type Shards<R> = ShardedExecutor<Ready<u64>, ThreadWaker, R>;

// Awaits two tasks, of the shards in turn, and adds their outputs.
fn sum_of_shards<R: Wait + Clone + Drop + Send + Sync>(
    rt: &R,
    alloc: Global,
    executor: &Shards<R>,
) -> io::Result<u64> {
    let one = executor.spawn(Ready::new(3))?;
    let two = executor.spawn(Ready::new(7))?;
    let (first, second) = block_on(rt, alloc, Zip::new(one, two))?;
    Ok(first?.saturating_add(second?))
}

/// Runs the tasks of two shards on two threads, each of which drives the run of its own shard, and adds
/// their outputs on a third, which parks until they are there.
pub fn shards<R: Wait + Threads + Clone + Drop + Send + Sync>(
    rt: &R,
    alloc: Global,
) -> io::Result<u64> {
    let stop = Signal::new(rt.clone()?, alloc)?;
    let executor = ShardedExecutor::new(rt.clone()?, alloc, 2)?;
    let one = executor.run(0, stop.waiting()?)?;
    let two = executor.run(1, stop.waiting()?)?;
    thread::scope(thread::scope_env(), rt, |scope| {
        let is_first = scope.spawn(move || block_on(rt, alloc, one)).is_ok();
        let is_second = scope.spawn(move || block_on(rt, alloc, two)).is_ok();
        if !is_first && !is_second {
            return Err(io::Error::from(ErrorKind::WouldBlock));
        }
        let total = sum_of_shards(rt, alloc, &executor);
        stop.set();
        total
    })
}

/// Runs what the shards have on this thread alone, with queues of their runs that have room for 16 tasks.
/// Gives how many polls that were, of two tasks in each of two shards.
pub fn empties_shards<R: Wait + Clone + Drop + Send + Sync>(
    rt: &R,
    alloc: Global,
) -> io::Result<u64> {
    let limits = Limits {
        local: 16,
        ..Limits::default()
    };
    let executor: ShardedExecutor<YieldNow, NoopWaker, R> = ShardedExecutor::new_with(
        rt.clone()?,
        alloc,
        2,
        limits,
    )?;
    for _ in 0..3 {
        executor.spawn(YieldNow::new())?.detach();
    }
    executor.shard(1).spawn(YieldNow::new())?.detach();
    let mut polls = 0u64;
    for _ in rt.forever() {
        if executor.is_empty() || !executor.try_tick_any() {
            break;
        }
        polls = polls.saturating_add(1);
    }
    // 8
    Ok(polls)
}

/// Serves two executors: it sleeps with both, and leaves both before it runs a task of either. Says whether
/// it slept, whether it was notified, and whether it ran a task.
pub fn serves_two<R: Wait + Clone + Drop + Send + Sync>(
    one: &Executor<Ready<u64>, NoopWaker, R>,
    two: &Executor<Ready<u64>, NoopWaker, R>,
) -> io::Result<[bool; 3]> {
    let mut worker = one.worker()?;
    let mut first = one.sleeper()?;
    let mut second = two.sleeper()?;
    let is_asleep = first.sleep(&NoopWaker)? && second.sleep(&NoopWaker)?;
    two.spawn(Ready::new(7))?.detach();
    let was_notified = second.leave();
    if first.look() {
        // It has a task of the first to run, so another one may serve the second.
        second.pass_on();
        worker.turn();
    }
    // [true, true, true]
    Ok([is_asleep, was_notified, second.try_tick_any()])
}
