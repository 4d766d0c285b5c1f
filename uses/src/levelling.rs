//! Threads that run the tasks of all levels of urgency: a pool of them, one that awaits two tasks
//! meanwhile, and two that each poll one tick after another.
use async_executor::{Future, Poll};
use async_utilities::{
    JoinAll, PoolOf, Ready, Signal, ThreadWaker, Waiting, Zip, block_on, poll_until_ready,
};
use pools::{Levels, PriorityPool};
use priority_executor::PriorityExecutor;
use std::alloc::Global;
use std::io::{self, ErrorKind};
use std::sync::Wait;
use std::thread::{self, Threads};

type TwoLevels<R> = PriorityExecutor<Ready<u64>, ThreadWaker, R, 2>;

/// Runs the tasks of two levels on this thread, which awaits one of each, and adds what they give.
pub fn runs_levels<R: Wait + Clone + Drop + Send + Sync>(rt: &R, alloc: Global) -> io::Result<u64> {
    let executor: TwoLevels<R> = PriorityExecutor::new(rt.clone()?, alloc)?;
    let later = executor.spawn(1, Ready::new(1))?;
    let urgent = executor.spawn(0, Ready::new(2))?;
    let run = executor.run(Zip::new(later, urgent))?;
    let (one, two) = block_on(rt, alloc, run)?;
    // 3
    Ok(one?.saturating_add(two?))
}

/// A server by levels: a pool of two threads runs a task for each of twenty requests, of which each fifth is
/// urgent. Gives the sum of the answers.
pub fn serves_by_levels<R: Wait + Threads + Clone + Drop + Send + Sync + 'static>(
    rt: &R,
    alloc: Global,
) -> io::Result<u64> {
    let levels = Levels::new(PriorityExecutor::new(rt.clone()?, alloc)?);
    let pool: PriorityPool<Ready<u64>, R, 2> = PoolOf::new(rt.clone()?, alloc, 2, levels)?;
    let mut tasks = Vec::new(alloc);
    for request in 0..20 {
        let level = if request % 5 == 0 { 0 } else { 1 };
        tasks.push(pool.executor().spawn(level, Ready::new(request))?)?;
    }
    let mut total = 0u64;
    for answer in block_on(rt, alloc, JoinAll::new(alloc, tasks)?)? {
        total = total.saturating_add(answer?);
    }
    // 190
    Ok(total)
}

type Stopped<R> = Waiting<ThreadWaker, R>;

// Runs a task, and parks while none is scheduled. Says whether the signal was set instead.
fn ticks_or_stops<R: Wait + Clone + Drop + Send + Sync>(
    rt: &R,
    mine: &ThreadWaker,
    executor: &TwoLevels<R>,
    stopped: &mut Stopped<R>,
) -> io::Result<bool> {
    let mut tick = executor.tick()?;
    Ok(poll_until_ready(rt, mine, |w| {
        if stopped.poll(w) == Poll::Ready(()) {
            return Poll::Ready(true);
        }
        match tick.poll(w) {
            Poll::Ready(()) => Poll::Ready(false),
            Poll::Pending => Poll::Pending,
        }
    }))
}

// Runs tasks until the signal is set.
fn serve_levels<R: Wait + Clone + Drop + Send + Sync>(
    rt: &R,
    alloc: Global,
    executor: &TwoLevels<R>,
    stopped: Stopped<R>,
) -> io::Result<()> {
    let mine = ThreadWaker::new(alloc)?;
    let mut stopped = stopped;
    for _ in rt.forever() {
        if ticks_or_stops(rt, &mine, executor, &mut stopped)? {
            break;
        }
    }
    Ok(())
}

// Awaits a task of each level, and adds their outputs.
fn sum_of_levels<R: Wait + Clone + Drop + Send + Sync>(
    rt: &R,
    alloc: Global,
    executor: &TwoLevels<R>,
) -> io::Result<u64> {
    let later = executor.spawn(1, Ready::new(1))?;
    let urgent = executor.spawn(0, Ready::new(2))?;
    let (one, two) = block_on(rt, alloc, Zip::new(later, urgent))?;
    Ok(one?.saturating_add(two?))
}

/// Has two threads run the tasks of two levels, and adds what those give on a third.
pub fn serves_levels<R: Wait + Threads + Clone + Drop + Send + Sync>(
    rt: &R,
    alloc: Global,
) -> io::Result<u64> {
    let levels: TwoLevels<R> = PriorityExecutor::new(rt.clone()?, alloc)?;
    let stop = Signal::new(rt.clone()?, alloc)?;
    let (one, two) = (stop.waiting()?, stop.waiting()?);
    let executor = &levels;
    thread::scope(thread::scope_env(), rt, |scope| {
        let is_first = scope
            .spawn(move || serve_levels(rt, alloc, executor, one))
            .is_ok();
        let is_second = scope
            .spawn(move || serve_levels(rt, alloc, executor, two))
            .is_ok();
        if !is_first && !is_second {
            return Err(io::Error::from(ErrorKind::WouldBlock));
        }
        let total = sum_of_levels(rt, alloc, executor);
        stop.set();
        total
    })
}
