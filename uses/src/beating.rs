//! Times that come again and again, and one that is put off.
use async_executor::Poll;
use async_utilities::{Reading, ThreadWaker, Timer};
use std::alloc::Global;
use std::sync::Wait;
use std::time::{Clock, Duration};

// A period, in milliseconds.
const PERIOD: u64 = 2;

/// Waits for three times, each two milliseconds after the one before, whenever that one came. Gives
/// how much later than the first the third came.
pub fn beats<R: Wait + Clock + Clone + Drop>(rt: &R, alloc: Global) -> Option<Duration> {
    let timer: Timer<ThreadWaker, R, R> = Timer::new(
        rt.clone().ok()?,
        rt.clone().ok()?,
        alloc,
    ).ok()?;
    let driver = timer.driver().ok()?;
    let period = Duration::from_millis(PERIOD);
    let first = Reading::now(rt).ok()?.checked_add(period)?;
    let mut interval = timer.interval_at(first, period).ok()?;
    driver.block_on(interval.next()).ok()?;
    driver.block_on(interval.next()).ok()?;
    let third = driver.block_on(interval.next()).ok()?;
    third.since_start().checked_sub(first.since_start())
}

/// Waits for a time that comes every two milliseconds, and drives the timer meanwhile. Gives how long it
/// waited.
pub fn repeats<R: Wait + Clock + Clone + Drop>(rt: &R, alloc: Global) -> Option<Duration> {
    let timer: Timer<ThreadWaker, R, R> = Timer::new(
        rt.clone().ok()?,
        rt.clone().ok()?,
        alloc,
    ).ok()?;
    let driver = timer.driver().ok()?;
    let before = Reading::now(rt).ok()?;
    let mut interval = timer.interval(Duration::from_millis(PERIOD)).ok()?;
    for _ in rt.forever() {
        if let Poll::Ready(now) = interval.poll_next(driver.waker()) {
            return now.since_start().checked_sub(before.since_start());
        }
        driver.rest().ok()?;
    }
    None
}

/// Sets a time that is a minute away, and has it come after two milliseconds in its place. Gives how
/// long it waited.
pub fn postpones<R: Wait + Clock + Clone + Drop>(rt: &R, alloc: Global) -> Option<Duration> {
    let timer: Timer<ThreadWaker, R, R> = Timer::new(
        rt.clone().ok()?,
        rt.clone().ok()?,
        alloc,
    ).ok()?;
    let before = Reading::now(rt).ok()?;
    let mut after = timer.at(before.checked_add(Duration::from_secs(60))?).ok()?;
    after.reset(before.checked_add(Duration::from_millis(PERIOD))?);
    let now = timer.block_on(after).ok()?;
    now.since_start().checked_sub(before.since_start())
}
