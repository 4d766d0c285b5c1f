//! The calls of an executor, each in a whole example. What it gives is what the tests compare.
use async_executor::{Cancelled, Executor, Future, Limits, Poll, StaticExecutor};
use async_utilities::{Never, NoopWaker, Ready, run_until};
use std::alloc::Global;
use std::io;
use std::sync::Wait;

/// 7, which a task gives. The thread runs it, and parks while nothing is scheduled.
pub fn awaits_seven<R: Wait + Clone + Drop + Send + Sync>(
    rt: &R,
    alloc: Global,
) -> io::Result<u64> {
    let executor = Executor::new(rt.clone()?, alloc)?;
    let task = executor.spawn(Ready::new(7))?;
    // 7
    Ok(run_until(rt, alloc, &executor, task)??)
}

/// Pending, and then the output.
pub fn spawns<R: Wait + Clone + Drop + Send + Sync>(
    rt: &R,
    alloc: Global,
) -> io::Result<[Poll<Result<u64, Cancelled>>; 2]> {
    let executor = Executor::new(rt.clone()?, alloc)?;
    let mut task = executor.spawn(Ready::new(7))?;
    let before = task.poll(&NoopWaker);
    executor.try_tick();
    // [Pending, Ready(Ok(7))]
    Ok([before, task.poll(&NoopWaker)])
}

/// The output of a task that is spawned at once if nobody is at work.
pub fn spawns_at_once<R: Wait + Clone + Drop + Send + Sync>(
    rt: &R,
    alloc: Global,
) -> io::Result<Poll<Result<u64, Cancelled>>> {
    let executor = Executor::new(rt.clone()?, alloc)?;
    let mut task = match executor.try_spawn(Ready::new(7)) {
        Ok(spawned) => spawned?,
        Err(future) => executor.spawn(future)?,
    };
    executor.try_tick();
    // Ready(Ok(7))
    Ok(task.poll(&NoopWaker))
}

/// How many tasks were spawned, and how many handles there are.
pub fn spawns_three<R: Wait + Clone + Drop + Send + Sync>(
    rt: &R,
    alloc: Global,
) -> io::Result<(usize, usize)> {
    let executor: Executor<Ready<u64>, NoopWaker, R> = Executor::new(rt.clone()?, alloc)?;
    let mut tasks = Vec::new(alloc);
    let futures = (0..3).map(|number| Ready::new(number));
    let spawned = executor.spawn_many(futures, &mut tasks)?;
    // (3, 3)
    Ok((spawned, tasks.len()))
}

/// Whether it is empty: before a spawn, after it, and once the task has run.
pub fn empties_again<R: Wait + Clone + Drop + Send + Sync>(
    rt: &R,
    alloc: Global,
) -> io::Result<[bool; 3]> {
    let executor: Executor<Ready<u64>, NoopWaker, R> = Executor::new(rt.clone()?, alloc)?;
    let before = executor.is_empty();
    executor.spawn(Ready::new(7))?.detach();
    let spawned = executor.is_empty();
    executor.try_tick();
    // [true, false, true]
    Ok([before, spawned, executor.is_empty()])
}

/// Whether there was a task: before a spawn, after it, and once the task has run.
pub fn tries_ticks<R: Wait + Clone + Drop + Send + Sync>(
    rt: &R,
    alloc: Global,
) -> io::Result<[bool; 3]> {
    let executor: Executor<Ready<u64>, NoopWaker, R> = Executor::new(rt.clone()?, alloc)?;
    let before = executor.try_tick();
    executor.spawn(Ready::new(7))?.detach();
    // [false, true, false]
    Ok([before, executor.try_tick(), executor.try_tick()])
}

/// Runs one of three tasks by a run, which takes another into its own queue, and one from the global
/// queue. Whether there was one, first in the global queue, and then in any.
pub fn tries_any_tick<R: Wait + Clone + Drop + Send + Sync>(
    rt: &R,
    alloc: Global,
) -> io::Result<[bool; 3]> {
    let turn_of_one = Limits {
        turn: 1,
        ..Limits::default()
    };
    let executor = Executor::new_with(rt.clone()?, alloc, turn_of_one)?;
    for number in 0..3 {
        executor.spawn(Ready::new(number))?.detach();
    }
    let mut run = executor.run(Never::<()>::new())?;
    run.poll(&NoopWaker);
    let global = executor.try_tick();
    // [true, false, true]: the third task stood in the queue of the run
    Ok([global, executor.try_tick(), executor.try_tick_any()])
}

/// Whether a turn of one task leaves another, and whether the next turn does.
pub fn limits_turns<R: Wait + Clone + Drop + Send + Sync>(
    rt: &R,
    alloc: Global,
) -> io::Result<[bool; 2]> {
    let limits = Limits {
        turn: 1,
        ..Limits::default()
    };
    let executor = Executor::new_with(rt.clone()?, alloc, limits)?;
    executor.spawn(Ready::new(1))?.detach();
    executor.spawn(Ready::new(2))?.detach();
    let mut run = executor.run(Never::<()>::new())?;
    run.poll(&NoopWaker);
    let after_one = executor.is_empty();
    run.poll(&NoopWaker);
    // [true, false]: a turn for each task
    Ok([!after_one, !executor.is_empty()])
}

/// Pending while no task is scheduled, and then ready: the spawn woke it.
pub fn ticks<R: Wait + Clone + Drop + Send + Sync>(
    rt: &R,
    alloc: Global,
) -> io::Result<[Poll<()>; 2]> {
    let executor = Executor::new(rt.clone()?, alloc)?;
    let mut tick = executor.tick()?;
    let asleep = tick.poll(&NoopWaker);
    executor.spawn(Ready::new(7))?.detach();
    // [Pending, Ready(())]
    Ok([asleep, tick.poll(&NoopWaker)])
}

/// Pending while the task of the handle has not run, which the first poll does, and then its output.
pub fn runs_beside<R: Wait + Clone + Drop + Send + Sync>(
    rt: &R,
    alloc: Global,
) -> io::Result<[Poll<Result<u64, Cancelled>>; 2]> {
    let executor = Executor::new(rt.clone()?, alloc)?;
    let task = executor.spawn(Ready::new(7))?;
    let mut run = executor.run(task)?;
    let first = run.poll(&NoopWaker);
    // [Pending, Ready(Ok(7))]
    Ok([first, run.poll(&NoopWaker)])
}

/// Whether the turn ended before the tasks did, and whether there is a task left.
pub fn works<R: Wait + Clone + Drop + Send + Sync>(rt: &R, alloc: Global) -> io::Result<[bool; 2]> {
    let executor: Executor<Ready<u64>, NoopWaker, R> = Executor::new(rt.clone()?, alloc)?;
    executor.spawn(Ready::new(7))?.detach();
    let mut worker = executor.worker()?;
    let is_over = worker.turn();
    // [false, false]
    Ok([is_over, !executor.is_empty()])
}

/// Whether it slept, whether the spawn notified it, and whether it ran the task.
pub fn sleeps_and_leaves<R: Wait + Clone + Drop + Send + Sync>(
    rt: &R,
    alloc: Global,
) -> io::Result<[bool; 3]> {
    let executor = Executor::new(rt.clone()?, alloc)?;
    let mut sleeper = executor.sleeper()?;
    let is_asleep = sleeper.sleep(&NoopWaker)?;
    executor.spawn(Ready::new(7))?.detach();
    let was_notified = sleeper.leave();
    // [true, true, true]
    Ok([is_asleep, was_notified, sleeper.try_tick_any()])
}

/// Whether it saw a task, and whether another one could run that.
pub fn looks<R: Wait + Clone + Drop + Send + Sync>(rt: &R, alloc: Global) -> io::Result<[bool; 2]> {
    let executor: Executor<Ready<u64>, NoopWaker, R> = Executor::new(rt.clone()?, alloc)?;
    executor.spawn(Ready::new(7))?.detach();
    let mut sleeper = executor.sleeper()?;
    let has_seen = sleeper.look();
    sleeper.pass_on();
    // [true, true]
    Ok([has_seen, executor.try_tick()])
}

/// Whether there was a task each time that it helped.
pub fn helps<R: Wait + Clone + Drop + Send + Sync>(rt: &R, alloc: Global) -> io::Result<[bool; 3]> {
    let executor: Executor<Ready<u64>, NoopWaker, R> = Executor::new(rt.clone()?, alloc)?;
    for number in 0..3 {
        executor.spawn(Ready::new(number))?.detach();
    }
    let mut sleeper = executor.sleeper()?;
    // [true, true, false]
    Ok([sleeper.help(1), sleeper.help(5), sleeper.help(5)])
}

/// Whether a task from before the leak runs, and one that was spawned after it.
pub fn leaks<R: Wait + Clone + Drop + Send + Sync>(rt: &R, alloc: Global) -> io::Result<[bool; 2]> {
    let executor: Executor<Ready<u64>, NoopWaker, R> = Executor::new(rt.clone()?, alloc)?;
    executor.spawn(Ready::new(1))?.detach();
    let server = executor.leak();
    server.spawn(Ready::new(2))?.detach();
    // [true, true]
    Ok([server.try_tick(), server.try_tick()])
}

/// The answer of a handle whose executor was dropped: its task is not cancelled.
pub fn outlasts<R: Wait + Clone + Drop + Send + Sync>(
    rt: &R,
    alloc: Global,
) -> io::Result<Poll<Result<u64, Cancelled>>> {
    let server = StaticExecutor::new(rt.clone()?, alloc)?;
    let mut task = server.spawn(Ready::new(7))?;
    drop(server);
    // Pending
    Ok(task.poll(&NoopWaker))
}

/// Whether a static executor with turns of one task is empty after one of them.
pub fn limits_for_good<R: Wait + Clone + Drop + Send + Sync>(
    rt: &R,
    alloc: Global,
) -> io::Result<bool> {
    let limits = Limits {
        turn: 1,
        ..Limits::default()
    };
    let server = StaticExecutor::new_with(rt.clone()?, alloc, limits)?;
    server.spawn(Ready::new(7))?.detach();
    let mut run = server.run(Never::<()>::new())?;
    run.poll(&NoopWaker);
    // true
    Ok(server.is_empty())
}
