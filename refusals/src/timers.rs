//! The calls of `async_utilities` that take memory and go by a clock, or start threads.
use crate::outcome::count;
use crate::utilities::Refused;
use async_executor::{Future, OutOfMemory, Poll, TaskWaker, Wake};
use async_utilities::{
    Job, Never, NoopWaker, Pool, PoolError, PoolOf, Ready, ThreadWaker, Timer, TimerError, TimerFailed, Work,
};
use pools::{Levels, PriorityPool, ShardedPool};
use priority_executor::PriorityExecutor;
use std::alloc::Global;
use std::cell::Cell;
use std::sync::Wait;
use std::thread::Threads;
use std::time::{Clock, Duration};

/// Counts how often it is woken.
#[derive(Clone, Copy)]
struct Counts<'a> {
    wakes: &'a Cell<u32>,
}

impl Wake for Counts<'_> {
    fn wake(&self) {
        self.wakes.set(self.wakes.get().saturating_add(1));
    }

    fn copy(&self) -> Result<Self, OutOfMemory> {
        Ok(*self)
    }
}

type Times<'a, R> = Timer<Counts<'a>, R, R>;

// A time that does not come while the program runs, in seconds.
const LONG: u64 = 1_000_000;

fn is_memory(error: &TimerError) -> bool {
    matches!(error, TimerError::OutOfMemory)
}

// A timer, made again if that is refused.
fn timer<'a, R: Wait + Clock + Clone + Drop>(
    rt: &R,
    alloc: Global,
    refused: &mut Refused,
) -> Option<Times<'a, R>> {
    match Timer::new(rt.clone().ok()?, rt.clone().ok()?, alloc) {
        Ok(timer) => return Some(timer),
        Err(error) => refused.expect(is_memory(&error)),
    }
    count(&mut refused.timer);
    Timer::new(rt.clone().ok()?, rt.clone().ok()?, alloc).ok()
}

// Polls one that has to wait, and again if its waker is woken, since it was refused memory then. Whether
// it was.
fn begins_to_wait<'a, G: Future<Counts<'a>>>(
    mut future: G,
    wakes: &'a Cell<u32>,
    refused: &mut Refused,
) -> bool {
    let waker = Counts { wakes };
    refused.expect(matches!(future.poll(&waker), Poll::Pending));
    let is_refused = wakes.get() == 1;
    refused.expect(matches!(future.poll(&waker), Poll::Pending));
    refused.expect(wakes.get() == u32::from(is_refused));
    is_refused
}

/// Waits for a time that is far away.
pub fn wait_for_time<R: Wait + Clock + Clone + Drop>(rt: &R, alloc: Global, refused: &mut Refused) {
    let wakes = Cell::new(0);
    let Some(timer) = timer(rt, alloc, refused) else {
        return refused.expect(false);
    };
    match timer.after(Duration::from_secs(LONG)) {
        Ok(after) => {
            if begins_to_wait(after, &wakes, refused) {
                count(&mut refused.after);
            }
        }
        Err(_) => refused.expect(false),
    }
}

/// Gives a time to a future that is never ready.
pub fn wait_in_time<R: Wait + Clock + Clone + Drop>(rt: &R, alloc: Global, refused: &mut Refused) {
    let wakes = Cell::new(0);
    let Some(timer) = timer(rt, alloc, refused) else {
        return refused.expect(false);
    };
    let never: Never<u64> = Never::new();
    match timer.timeout(Duration::from_secs(LONG), never) {
        Ok(timeout) => {
            if begins_to_wait(timeout, &wakes, refused) {
                count(&mut refused.timeout);
            }
        }
        Err(_) => refused.expect(false),
    }
}

// Drives the timer until what it is handed is ready, and again if that is refused.
fn driven<R: Wait + Clock + Drop>(timer: &Times<'_, R>, refused: &mut Refused) -> Option<u64> {
    let TimerFailed { value, error } = match timer.block_on(Ready::new(7)) {
        Ok(output) => return Some(output),
        Err(failed) => failed,
    };
    refused.expect(is_memory(&error));
    count(&mut refused.driver);
    timer.block_on(value).ok()
}

/// Drives a timer.
pub fn drive<R: Wait + Clock + Clone + Drop>(rt: &R, alloc: Global, refused: &mut Refused) {
    let Some(timer) = timer(rt, alloc, refused) else {
        return refused.expect(false);
    };
    let output = driven(&timer, refused);
    refused.expect(output == Some(7));
}

// Makes a pool, and again if that is refused, and stops it. What its threads were refused was an answer
// of the making.
macro_rules! start_and_stop {
    ($refused:expr, $count:ident, $made:expr) => {{
        let refused = $refused;
        let made = match $made {
            Err(error) => {
                refused.expect(error != PoolError::Exhausted);
                count(&mut refused.$count);
                $made
            }
            made => made,
        };
        match made {
            Ok(pool) => {
                for ended in pool.join() {
                    refused.expect(ended.is_ok());
                }
            }
            Err(_) => refused.expect(false),
        }
    }};
}

fn pool<R: Wait + Threads + Clone + Drop + Send + Sync + 'static>(
    rt: &R,
    alloc: Global,
) -> Result<Pool<Ready<u64>, R>, PoolError> {
    Pool::new(rt.clone()?, alloc, 1)
}

fn pool_of_shards<R: Wait + Threads + Clone + Drop + Send + Sync + 'static>(
    rt: &R,
    alloc: Global,
) -> Result<ShardedPool<Ready<u64>, R>, PoolError> {
    ShardedPool::new(rt.clone()?, alloc, 1)
}

fn pool_of_levels<R: Wait + Threads + Clone + Drop + Send + Sync + 'static>(
    rt: &R,
    alloc: Global,
) -> Result<PriorityPool<Ready<u64>, R, 2>, PoolError> {
    let levels = Levels::new(PriorityExecutor::new(rt.clone()?, alloc)?);
    PoolOf::new(rt.clone()?, alloc, 1, levels)
}

/// Starts a pool of each kind and stops it.
pub fn start_pools<R: Wait + Threads + Clone + Drop + Send + Sync + 'static>(
    rt: &R,
    alloc: Global,
    refused: &mut Refused,
) {
    start_and_stop!(&mut *refused, pool, pool(rt, alloc));
    start_and_stop!(&mut *refused, sharded_pool, pool_of_shards(rt, alloc));
    start_and_stop!(&mut *refused, priority_pool, pool_of_levels(rt, alloc));
}

/// Gives its number.
#[derive(Drop)]
struct Gives {
    number: u64,
}

impl Job for Gives {
    type Output = u64;

    fn run(self) -> u64 {
        self.number
    }
}

/// Asks a pool with no thread for a job, and again with what comes back if that is refused.
pub fn ask_for_job<R: Wait + Threads + Clone + Drop + Send + Sync + 'static>(
    rt: &R,
    alloc: Global,
    refused: &mut Refused,
) {
    let jobs: Option<Pool<Work<Gives, NoopWaker, R>, R>> = no_thread(rt, alloc, refused);
    let Some(jobs) = jobs else {
        return refused.expect(false);
    };
    match jobs.unblock(Gives { number: 7 }) {
        Ok(answer) => drop(answer),
        Err(failed) => {
            count(&mut refused.unblock);
            refused.expect(failed.value.number == 7);
            refused.expect(jobs.unblock(failed.value).is_ok());
        }
    }
}

// A pool of no thread, made again if that is refused.
fn no_thread<F, R>(rt: &R, alloc: Global, refused: &mut Refused) -> Option<Pool<F, R>>
where
    F: Future<TaskWaker<ThreadWaker, R>> + Send + 'static,
    F::Output: Send + 'static,
    R: Wait + Threads + Clone + Drop + Send + Sync + 'static,
{
    if let Ok(pool) = Pool::new(rt.clone().ok()?, alloc, 0) {
        return Some(pool);
    }
    count(&mut refused.pool);
    Pool::new(rt.clone().ok()?, alloc, 0).ok()
}
