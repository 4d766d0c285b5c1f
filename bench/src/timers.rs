//! Rows of timers, and of a thread that waits for a future.
use crate::timing::Ran;
use async_executor::{Future, Poll};
use async_utilities::{After, Driver, NoopWaker, Ready, ThreadWaker, Timer, block_on};
use std::alloc::Global;
use std::rt::Clock;
use std::sync::Wait;
use std::time::{Duration, Instant};

/// A row of timers, or of a thread that waits.
#[derive(Debug, Clone, Copy, PartialEq, Eq)]
pub enum Times {
    /// Set a deadline, poll it and drop it, while so many others stand.
    Set(usize),
    /// The same, and each is fired: 1,000 at a time, while so many others stand.
    Fire(usize),
    /// Wait for a future that is ready.
    BlockOn,
    /// The same, with a waker that is kept.
    BlockOnKept,
}

// In hours.
const FAR: u64 = 10_000;

// In microseconds.
const SOON: u64 = 200;

// How many deadlines come at one time.
const AT_ONCE: u64 = 1_000;

type Far<R> = Timer<NoopWaker, R, R>;

impl Times {
    /// The same, with no more than 1,000 deadlines, so that it soon ends.
    pub fn small(self) -> Times {
        match self {
            Times::Set(others) => Times::Set(others.min(1_000)),
            Times::Fire(others) => Times::Fire(others.min(1_000)),
            row => row,
        }
    }

    /// Runs this many operations. `None` if memory or the time was refused.
    pub fn run<R: Wait + Clone + Drop + Clock>(
        self,
        rt: &R,
        alloc: Global,
        operations: u64,
    ) -> Option<Ran> {
        match self {
            Times::Set(others) => set(rt, alloc, others, operations),
            Times::Fire(others) => fire(rt, alloc, others, operations),
            Times::BlockOn => wait(rt, alloc, operations),
            Times::BlockOnKept => wait_again(rt, alloc, operations),
        }
    }
}

// So many deadlines that wait.
fn standing<R: Wait + Clone + Drop + Clock>(
    alloc: Global,
    timer: &Far<R>,
    count: usize,
    duration: Duration,
) -> Option<Vec<After<NoopWaker, R>>> {
    let mut all = Vec::with_capacity(alloc, count).ok()?;
    for _ in 0..count {
        let mut after = timer.after(duration).ok()?;
        after.poll(&NoopWaker);
        all.push(after).ok()?;
    }
    Some(all)
}

fn set<R: Wait + Clone + Drop + Clock>(
    rt: &R,
    alloc: Global,
    others: usize,
    operations: u64,
) -> Option<Ran> {
    let timer: Far<R> = Timer::new(rt.clone().ok()?, rt.clone().ok()?, alloc).ok()?;
    let far = Duration::from_secs(FAR.saturating_mul(3_600));
    let all = standing(alloc, &timer, others, far)?;
    let start = Instant::now(rt).ok()?;
    let mut count = 0u64;
    for _ in 0..operations {
        let mut after = timer.after(far).ok()?;
        if let Poll::Pending = after.poll(&NoopWaker) {
            count = count.saturating_add(1);
        }
    }
    let ran = Ran::since(rt, start, count);
    if all.len() == others { ran } else { None }
}

// Fires until it is ready, and counts it. A rest would park past the deadlines that it fired, since the
// waker left at them is not the driver's.
fn come<R: Wait + Clone + Drop + Clock>(
    rt: &R,
    driver: &Driver<'_, NoopWaker, R, R>,
    after: After<NoopWaker, R>,
) -> Option<u64> {
    let mut after = after;
    for _ in rt.forever() {
        if let Poll::Ready(_) = after.poll(&NoopWaker) {
            return Some(1);
        }
        driver.fire().ok()?;
    }
    None
}

fn fire<R: Wait + Clone + Drop + Clock>(
    rt: &R,
    alloc: Global,
    others: usize,
    operations: u64,
) -> Option<Ran> {
    let timer: Far<R> = Timer::new(rt.clone().ok()?, rt.clone().ok()?, alloc).ok()?;
    let far = Duration::from_secs(FAR.saturating_mul(3_600));
    let all = standing(alloc, &timer, others, far)?;
    let driver = timer.driver().ok()?;
    let start = Instant::now(rt).ok()?;
    let mut count = 0u64;
    for turn in 0..operations.div_ceil(AT_ONCE) {
        let left = operations.saturating_sub(turn.saturating_mul(AT_ONCE));
        let due = usize::try_from(AT_ONCE.min(left)).ok()?;
        for after in standing(alloc, &timer, due, Duration::from_micros(SOON))? {
            count = count.saturating_add(come(rt, &driver, after)?);
        }
    }
    let ran = Ran::since(rt, start, count);
    if all.len() == others { ran } else { None }
}

fn wait<R: Wait + Clock>(rt: &R, alloc: Global, operations: u64) -> Option<Ran> {
    let start = Instant::now(rt).ok()?;
    let mut count = 0u64;
    for number in 0..operations {
        if block_on(rt, alloc, Ready::new(number)).ok()? == number {
            count = count.saturating_add(1);
        }
    }
    Ran::since(rt, start, count)
}

fn wait_again<R: Wait + Clock>(rt: &R, alloc: Global, operations: u64) -> Option<Ran> {
    let waker = ThreadWaker::new(alloc).ok()?;
    let start = Instant::now(rt).ok()?;
    let mut count = 0u64;
    for number in 0..operations {
        if waker.block_on(rt, Ready::new(number)) == number {
            count = count.saturating_add(1);
        }
    }
    Ran::since(rt, start, count)
}
