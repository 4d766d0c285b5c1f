//! Threads that wait for a time, and drive the timer themselves.
use async_executor::{Future, Poll};
use async_utilities::{Reading, ThreadWaker, Timer};
use std::alloc::Global;
use std::sync::Wait;
use std::thread::{self, Threads};
use std::time::{Clock, Duration};

/// A timer whose futures are polled with the wakers of threads.
type Times<R> = Timer<ThreadWaker, R, R>;

// Rests until so much time has passed, and has times come meanwhile. Gives a time that the clock was
// read at by then.
fn rest<R: Wait + Clock + Drop>(rt: &R, timer: &Times<R>, duration: Duration) -> Option<Reading> {
    let driver = timer.driver().ok()?;
    let mut after = timer.after(duration).ok()?;
    for _ in rt.forever() {
        if let Poll::Ready(now) = after.poll(driver.waker()) {
            return Some(now);
        }
        driver.rest().ok()?;
    }
    None
}

// How much time has passed since then.
fn passed<C: Clock>(clock: &C, before: Reading) -> Option<Duration> {
    let now = Reading::now(clock).ok()?;
    now.since_start().checked_sub(before.since_start())
}

/// Has two threads share a timer, one of which waits five milliseconds and the other one ten. Gives
/// how many nanoseconds passed before the longer time was reached, and how long both took.
pub fn rests<R: Wait + Threads + Clock + Clone + Drop + Send + Sync>(
    rt: &R,
    alloc: Global,
) -> Option<(u128, Duration)> {
    let timer: Times<R> = Timer::new(rt.clone().ok()?, rt.clone().ok()?, alloc).ok()?;
    let other = timer.copy().ok()?;
    let before = Reading::now(rt).ok()?;
    let (short, long) = thread::join(
        rt,
        move || rest(rt, &other, Duration::from_millis(5)),
        move || rest(rt, &timer, Duration::from_millis(10)),
    );
    short?;
    let nanos = long?.nanos().checked_sub(before.nanos())?;
    Some((nanos, passed(rt, before)?))
}
