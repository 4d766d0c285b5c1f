//! The calls of a timer, each in a whole example. What it gives is what the tests compare.
use async_utilities::{Never, Reading, ThreadWaker, Timer};
use std::alloc::Global;
use std::io;
use std::sync::Wait;
use std::time::{Clock, Duration};

/// How much later it was at the end, which is two milliseconds or more.
pub fn waits_a_while<R: Wait + Clock + Clone + Drop>(
    rt: &R,
    alloc: Global,
) -> io::Result<Option<Duration>> {
    let timer: Timer<ThreadWaker, R, R> = Timer::new(rt.clone()?, rt.clone()?, alloc)?;
    let before = Reading::now(rt)?;
    let now = timer.block_on(timer.after(Duration::from_millis(2))?)?;
    // Some(2ms), or more
    Ok(now.since_start().checked_sub(before.since_start()))
}

/// How much later the second time came, which is four milliseconds or more.
pub fn comes_twice<R: Wait + Clock + Clone + Drop>(
    rt: &R,
    alloc: Global,
) -> io::Result<Option<Duration>> {
    let timer: Timer<ThreadWaker, R, R> = Timer::new(rt.clone()?, rt.clone()?, alloc)?;
    let before = Reading::now(rt)?;
    let mut interval = timer.interval(Duration::from_millis(2))?;
    timer.block_on(interval.next())?;
    let second = timer.block_on(interval.next())?;
    // Some(4ms), or more
    Ok(second.since_start().checked_sub(before.since_start()))
}

/// Whether a future that never ends took longer than it was given.
pub fn is_too_late<R: Wait + Clock + Clone + Drop>(rt: &R, alloc: Global) -> io::Result<bool> {
    let timer: Timer<ThreadWaker, R, R> = Timer::new(rt.clone()?, rt.clone()?, alloc)?;
    let wanted = timer.timeout(Duration::from_millis(2), Never::<u64>::new())?;
    // true
    Ok(timer.block_on(wanted)?.is_err())
}

/// How much later a reading is that lies two milliseconds ahead.
pub fn looks_ahead<C: Clock>(clock: &C) -> io::Result<Option<Duration>> {
    let now = Reading::now(clock)?;
    let Some(later) = now.checked_add(Duration::from_millis(2)) else {
        return Ok(None);
    };
    // Some(2ms)
    Ok(later.since_start().checked_sub(now.since_start()))
}
