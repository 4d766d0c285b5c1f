//! Futures and what waits for them, each in a whole example. What it gives is what the tests compare.
use async_executor::{Cancelled, Executor, Future, Poll};
use async_utilities::{
    Either, JoinAll, Never, NoopWaker, Or, Ready, ThreadWaker, YieldNow, Zip, block_on,
    poll_until_ready, run_until,
};
use std::alloc::Global;
use std::io;
use std::sync::Wait;

/// 3, the sum of two outputs that this thread waits for, one after the other.
pub fn blocks_twice<R: Wait>(rt: &R, alloc: Global) -> io::Result<u64> {
    let one = block_on(rt, alloc, Ready::new(1u64))?;
    let two = block_on(rt, alloc, Ready::new(2u64))?;
    // 3
    Ok(one.saturating_add(two))
}

/// The outputs of two tasks, which this thread runs.
pub fn runs_two<R: Wait + Clone + Drop + Send + Sync>(
    rt: &R,
    alloc: Global,
) -> io::Result<(u64, u64)> {
    let executor = Executor::new(rt.clone()?, alloc)?;
    let one = executor.spawn(Ready::new(1))?;
    let two = executor.spawn(Ready::new(2))?;
    let (first, second) = run_until(rt, alloc, &executor, Zip::new(one, two))?;
    // (1, 2)
    Ok((first?, second?))
}

/// 7, of a future that is polled once another one is ready.
pub fn polls_in_turn<R: Wait>(rt: &R, alloc: Global) -> io::Result<u64> {
    let waker = ThreadWaker::new(alloc)?;
    let (mut pause, mut number) = (YieldNow::new(), Ready::new(7));
    let output = poll_until_ready(rt, &waker, |w| match pause.poll(w) {
        Poll::Ready(()) => number.poll(w),
        Poll::Pending => Poll::Pending,
    });
    // 7
    Ok(output)
}

/// The value, and then nothing more.
pub fn is_ready_once() -> [Poll<u64>; 2] {
    let mut ready = Ready::new(7);
    let first = ready.poll(&NoopWaker);
    // [Ready(7), Pending]
    [first, ready.poll(&NoopWaker)]
}

/// Pending at the first poll, and ready at the second.
pub fn yields_once() -> [Poll<()>; 2] {
    let mut pause = YieldNow::new();
    let first = pause.poll(&NoopWaker);
    // [Pending, Ready(())]
    [first, pause.poll(&NoopWaker)]
}

/// 7, of the one that is ready.
pub fn awaits_either<R: Wait>(rt: &R, alloc: Global, is_there: bool) -> io::Result<u64> {
    let number = if is_there {
        Either::Left(Ready::new(7))
    } else {
        Either::Right(Or::new(Never::new(), Ready::new(8)))
    };
    // 7 if it is there, and else 8
    Ok(block_on(rt, alloc, number)?)
}

/// 7, of the future that is ready: the other one never is.
pub fn takes_the_first() -> Poll<u64> {
    let mut first = Or::new(Never::new(), Ready::new(7));
    // Ready(7)
    first.poll(&NoopWaker)
}

/// Pending while one of the two is, and then both outputs.
pub fn awaits_both() -> [Poll<(u64, ())>; 2] {
    let mut both = Zip::new(Ready::new(7), YieldNow::new());
    let first = both.poll(&NoopWaker);
    // [Pending, Ready((7, ()))]
    [first, both.poll(&NoopWaker)]
}

/// The outputs of three tasks, in the order of their handles.
pub fn joins_three<R: Wait + Clone + Drop + Send + Sync>(
    rt: &R,
    alloc: Global,
) -> io::Result<Vec<Result<u64, Cancelled>>> {
    let executor = Executor::new(rt.clone()?, alloc)?;
    let mut tasks = Vec::new(alloc);
    let futures = (0..3).map(|number| Ready::new(number));
    executor.spawn_many(futures, &mut tasks)?;
    let all = JoinAll::new(alloc, tasks)?;
    // [Ok(0), Ok(1), Ok(2)]
    Ok(run_until(rt, alloc, &executor, all)?)
}
