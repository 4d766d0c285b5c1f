//! A clock of one's own, which is moved on to the next deadline once nothing more can run: a program
//! that waits for hours runs in no time, and the same way each time.
use async_executor::{Executor, Future, Poll, Task, TaskWaker};
use async_utilities::{After, Driver, ThreadWaker, Timer};
use std::alloc::Global;
use std::io;
use std::sync::atomic::{AtomicU64, Ordering};
use std::sync::{Arc, Wait};
use std::time::{Clock, Duration};

/// Stands still until it is moved.
#[derive(Drop)]
struct StillClock {
    nanos: Arc<AtomicU64>,
}

impl Clock for StillClock {
    fn monotonic(&self) -> io::Result<Duration> {
        Ok(Duration::from_nanos(self.nanos.load(Ordering::SeqCst)))
    }

    fn since_1970(&self) -> io::Result<Duration> {
        self.monotonic()
    }
}

type Sleep<R> = After<TaskWaker<ThreadWaker, R>, R>;

// Runs all tasks that can run, and moves the clock on, until no deadline is left.
fn simulate<R: Wait + Clone + Drop + Send + Sync>(
    rt: &R,
    executor: &Executor<Sleep<R>, ThreadWaker, R>,
    driver: &Driver<'_, TaskWaker<ThreadWaker, R>, StillClock, R>,
    nanos: &AtomicU64,
) -> Option<()> {
    for _ in rt.forever() {
        for _ in rt.forever() {
            if !executor.try_tick() {
                break;
            }
        }
        let firing = driver.fire().ok()?;
        if firing.has_woken {
            continue;
        }
        let Some(left) = firing.left else {
            return Some(());
        };
        nanos.fetch_add(u64::try_from(left.as_nanos()).ok()?, Ordering::SeqCst);
    }
    None
}

// The time at which a task that slept woke, in seconds.
fn woke_at<R: Wait + Clone + Drop + Send + Sync>(
    task: Task<Sleep<R>, ThreadWaker, R>,
    waker: &ThreadWaker,
) -> Option<u64> {
    let mut task = task;
    match task.poll(waker) {
        Poll::Ready(Ok(now)) => Some(now.since_start().as_secs()),
        _ => None,
    }
}

/// Has one task sleep for an hour and another one for two. Gives the times at which they wake, in
/// seconds.
pub fn simulates<R: Wait + Clone + Drop + Send + Sync>(
    rt: &R,
    alloc: Global,
) -> Option<(u64, u64)> {
    let nanos = Arc::new(alloc, AtomicU64::new(0)).ok()?;
    let clock = StillClock {
        nanos: Arc::try_clone(&nanos).ok()?,
    };
    let timer = Timer::new(rt.clone().ok()?, clock, alloc).ok()?;
    let executor = Executor::new(rt.clone().ok()?, alloc).ok()?;
    let one = executor
        .spawn(timer.after(Duration::from_secs(3_600)).ok()?)
        .ok()?;
    let two = executor
        .spawn(timer.after(Duration::from_secs(7_200)).ok()?)
        .ok()?;
    simulate(rt, &executor, &timer.driver().ok()?, &nanos)?;
    let mine = ThreadWaker::new(alloc).ok()?;
    woke_at(one, &mine).zip(woke_at(two, &mine))
}
