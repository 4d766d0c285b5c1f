//! The calls of executors that stay on their thread, and of their handles, each in a whole example. What it
//! gives is what the tests compare.
use async_executor::{Cancelled, Future, Limits, LocalExecutor, Poll, StaticLocalExecutor};
use async_utilities::{Never, NoopWaker, Ready};
use std::alloc::Global;
use std::io;
use std::sync::Wait;

/// Pending while the task of the handle has not run, which the first poll does, and then its output.
pub fn runs_locally<R: Wait + Clone + Drop>(
    rt: &R,
    alloc: Global,
) -> io::Result<[Poll<Result<u64, Cancelled>>; 2]> {
    let executor = LocalExecutor::new(rt.clone()?, alloc)?;
    let task = executor.spawn(Ready::new(7))?;
    let mut run = executor.run(task)?;
    let first = run.poll(&NoopWaker);
    // [Pending, Ready(Ok(7))]
    Ok([first, run.poll(&NoopWaker)])
}

/// Whether a turn of one task leaves another, and whether a call that looks at all queues runs that.
pub fn limits_locally<R: Wait + Clone + Drop>(rt: &R, alloc: Global) -> io::Result<[bool; 3]> {
    let limits = Limits {
        turn: 1,
        ..Limits::default()
    };
    let executor = LocalExecutor::new_with(rt.clone()?, alloc, limits)?;
    executor.spawn(Ready::new(1))?.detach();
    executor.spawn(Ready::new(2))?.detach();
    let mut run = executor.run(Never::<()>::new())?;
    run.poll(&NoopWaker);
    let after_one = executor.is_empty();
    // [true, true, true]: a turn leaves the second task
    Ok([!after_one, executor.try_tick_any(), executor.is_empty()])
}

/// How many tasks were spawned, and whether the executor is empty once they have run.
pub fn spawns_locally<R: Wait + Clone + Drop>(rt: &R, alloc: Global) -> io::Result<(usize, bool)> {
    let executor: LocalExecutor<Ready<u64>, NoopWaker, R> = LocalExecutor::new(rt.clone()?, alloc)?;
    let mut tasks = Vec::new(alloc);
    let futures = (0..2).map(|number| Ready::new(number));
    let spawned = executor.spawn_many(futures, &mut tasks)?;
    let both = executor.try_tick() && executor.try_tick();
    // (2, true)
    Ok((spawned, both && executor.is_empty()))
}

/// Pending while no task is scheduled, and then ready: the spawn woke it.
pub fn ticks_locally<R: Wait + Clone + Drop>(rt: &R, alloc: Global) -> io::Result<[Poll<()>; 2]> {
    let executor = LocalExecutor::new(rt.clone()?, alloc)?;
    let mut tick = executor.tick()?;
    let asleep = tick.poll(&NoopWaker);
    executor.spawn(Ready::new(7))?.detach();
    // [Pending, Ready(())]
    Ok([asleep, tick.poll(&NoopWaker)])
}

/// Whether the task has finished, before and after its poll, and then its output.
pub fn finishes_locally<R: Wait + Clone + Drop>(
    rt: &R,
    alloc: Global,
) -> io::Result<(bool, bool, Poll<Result<u64, Cancelled>>)> {
    let executor = LocalExecutor::new(rt.clone()?, alloc)?;
    let mut task = executor.spawn(Ready::new(7))?;
    let before = task.is_finished();
    executor.try_tick();
    // (false, true, Ready(Ok(7)))
    Ok((before, task.is_finished(), task.poll(&NoopWaker)))
}

/// Pending while the future is there, and then no output: the tick dropped it.
pub fn cancels_locally<R: Wait + Clone + Drop>(
    rt: &R,
    alloc: Global,
) -> io::Result<[Poll<Option<u64>>; 2]> {
    let executor = LocalExecutor::new(rt.clone()?, alloc)?;
    let mut cancel = executor.spawn(Ready::new(7))?.cancel();
    let before = cancel.poll(&NoopWaker);
    executor.try_tick();
    // [Pending, Ready(None)]
    Ok([before, cancel.poll(&NoopWaker)])
}

/// No output, since the executor was dropped, of a task that has finished by that.
pub fn has_no_local_output<R: Wait + Clone + Drop>(
    rt: &R,
    alloc: Global,
) -> io::Result<(bool, Poll<Option<u64>>)> {
    let executor = LocalExecutor::new(rt.clone()?, alloc)?;
    let mut task = executor.spawn(Ready::new(7))?.fallible();
    drop(executor);
    // (true, Ready(None))
    Ok((task.is_finished(), task.poll(&NoopWaker)))
}

/// The answer of a task that was cancelled, beside one that was let go. Both have run, or were dropped.
pub fn ends_locally<R: Wait + Clone + Drop>(
    rt: &R,
    alloc: Global,
) -> io::Result<(bool, Poll<Option<u64>>)> {
    let executor = LocalExecutor::new(rt.clone()?, alloc)?;
    executor.spawn(Ready::new(1))?.fallible().detach();
    let mut cancel = executor.spawn(Ready::new(2))?.fallible().cancel();
    executor.try_tick();
    executor.try_tick();
    // (true, Ready(None))
    Ok((executor.is_empty(), cancel.poll(&NoopWaker)))
}

/// Whether a task from before the leak runs, and one that was spawned after it.
pub fn leaks_locally<R: Wait + Clone + Drop>(rt: &R, alloc: Global) -> io::Result<[bool; 2]> {
    let executor: LocalExecutor<Ready<u64>, NoopWaker, R> = LocalExecutor::new(rt.clone()?, alloc)?;
    executor.spawn(Ready::new(1))?.detach();
    let server = executor.leak();
    server.spawn(Ready::new(2))?.detach();
    // [true, true]
    Ok([server.try_tick(), server.try_tick()])
}

/// The answer of a handle whose executor was dropped: its task is not cancelled.
pub fn outlasts_locally<R: Wait + Clone + Drop>(
    rt: &R,
    alloc: Global,
) -> io::Result<Poll<Result<u64, Cancelled>>> {
    let server = StaticLocalExecutor::new(rt.clone()?, alloc)?;
    let mut task = server.spawn(Ready::new(7))?;
    drop(server);
    // Pending
    Ok(task.poll(&NoopWaker))
}

/// Whether a static executor with turns of one task is empty after one of them.
pub fn limits_locally_for_good<R: Wait + Clone + Drop>(rt: &R, alloc: Global) -> io::Result<bool> {
    let limits = Limits {
        turn: 1,
        ..Limits::default()
    };
    let server = StaticLocalExecutor::new_with(rt.clone()?, alloc, limits)?;
    server.spawn(Ready::new(7))?.detach();
    let mut run = server.run(Never::<()>::new())?;
    run.poll(&NoopWaker);
    // true
    Ok(server.is_empty())
}
