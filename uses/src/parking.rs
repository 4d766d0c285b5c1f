//! Threads that run the tasks of one executor, and park while none is scheduled.
use async_executor::{Executor, Future, Poll, Task, Wake};
use async_utilities::{ThreadWaker, Zip, block_on};
use std::alloc::{AllocError, Global};
use std::io;
use std::sync::atomic::{AtomicU64, Ordering};
use std::sync::{Arc, Wait};
use std::thread::{self, Threads};
use std::time::Duration;

/// Gives its number at the second poll, and counts among the futures that are left until it is dropped.
struct Counted {
    number: u64,
    is_polled: bool,
    left: Arc<AtomicU64>,
}

impl Counted {
    fn new(number: u64, left: &Arc<AtomicU64>) -> Result<Counted, AllocError> {
        let left = Arc::try_clone(left)?;
        left.fetch_add(1, Ordering::SeqCst);
        Ok(Counted {
            number,
            is_polled: false,
            left,
        })
    }
}

impl<W: Wake> Future<W> for Counted {
    type Output = u64;

    fn poll(&mut self, w: &W) -> Poll<u64> {
        if self.is_polled {
            return Poll::Ready(self.number);
        }
        self.is_polled = true;
        w.wake();
        Poll::Pending
    }
}

impl Drop for Counted {
    fn drop(self) {
        let Counted {
            number: _,
            is_polled: _,
            left,
        } = self;
        left.fetch_sub(1, Ordering::SeqCst);
    }
}

/// What the threads share: the executor, how many futures are left, and where the threads park.
#[derive(Drop)]
struct Crew<R: Wait + Drop + Send + Sync> {
    executor: Executor<Counted, ThreadWaker, R>,
    left: Arc<AtomicU64>,
    wakers: [ThreadWaker; 3],
}

type CrewTask<R> = Task<Counted, ThreadWaker, R>;

impl<R: Wait + Clone + Drop + Send + Sync> Crew<R> {
    fn new(rt: &R, alloc: Global) -> io::Result<Crew<R>> {
        let first = ThreadWaker::new(alloc)?;
        let second = ThreadWaker::new(alloc)?;
        let third = ThreadWaker::new(alloc)?;
        Ok(Crew {
            executor: Executor::new(rt.clone()?, alloc)?,
            left: Arc::new(alloc, AtomicU64::new(0))?,
            wakers: [first, second, third],
        })
    }

    // A refused future is dropped, so nobody waits for it.
    fn spawn(&self, one: Counted, two: Counted) -> io::Result<(CrewTask<R>, CrewTask<R>)> {
        let one = self.executor.spawn(one)?;
        Ok((one, self.executor.spawn(two)?))
    }

    /// Runs tasks until no future is left. A thread that stops wakes the others, who may wait for a
    /// task that does not come.
    fn work(&self, rt: &R, mine: &ThreadWaker) {
        for _ in rt.forever() {
            if !self.runs_one(rt, mine) {
                break;
            }
        }
        for waker in &self.wakers {
            waker.wake();
        }
    }

    // Runs one task by a tick, and parks while none is scheduled. Says whether there was one, which
    // there is until no future is left.
    fn runs_one(&self, rt: &R, mine: &ThreadWaker) -> bool {
        let Ok(mut tick) = self.executor.tick() else {
            return false;
        };
        for _ in rt.forever() {
            if self.left.load(Ordering::SeqCst) == 0 {
                break;
            }
            if tick.poll(mine) == Poll::Ready(()) {
                return true;
            }
            mine.park(rt);
        }
        false
    }
}

// Has two threads park, spawns a task of each future, and runs them on all three.
fn drives<R: Wait + Threads + Clone + Drop + Send + Sync>(
    rt: &R,
    crew: &Crew<R>,
    one: Counted,
    two: Counted,
) -> io::Result<(CrewTask<R>, CrewTask<R>)> {
    let [mine, second, third] = &crew.wakers;
    thread::scope(thread::scope_env(), rt, |scope| {
        let _ = scope.spawn(move || crew.work(rt, second));
        let _ = scope.spawn(move || crew.work(rt, third));
        let tasks = crew.spawn(one, two);
        crew.work(rt, mine);
        tasks
    })
}

/// Runs tasks on three threads, each by ticks of its own, and adds their outputs. A thread that
/// finds no task parks, and is woken by a spawn or by the wake of a task.
pub fn parks<R: Wait + Threads + Clone + Drop + Send + Sync>(
    rt: &R,
    alloc: Global,
) -> io::Result<u64> {
    let crew = Crew::new(rt, alloc)?;
    let one = Counted::new(3, &crew.left)?;
    let two = Counted::new(7, &crew.left)?;
    let (one, two) = drives(rt, &crew, one, two)?;
    let (first, second) = block_on(rt, alloc, Zip::new(one, two))?;
    // 10
    Ok(first?.saturating_add(second?))
}

/// Parks for two milliseconds at the longest, since nobody wakes this thread.
pub fn dozes<R: Wait>(rt: &R, alloc: Global) -> io::Result<()> {
    let mine = ThreadWaker::new(alloc)?;
    mine.park_timeout(rt, Duration::from_millis(2));
    Ok(())
}
