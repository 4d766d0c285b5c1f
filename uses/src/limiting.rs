//! An executor with limits of its own.
use async_executor::{Executor, Future, Limits, Poll};
use async_utilities::NoopWaker;
use std::alloc::Global;
use std::io;
use std::sync::Wait;
use std::sync::atomic::{AtomicU64, Ordering};

const TASKS: u64 = 64;

/// Counts that it ran.
#[derive(Drop)]
struct Counts<'a> {
    ran: &'a AtomicU64,
}

impl<W> Future<W> for Counts<'_> {
    type Output = ();

    fn poll(&mut self, _w: &W) -> Poll<()> {
        self.ran.fetch_add(1, Ordering::SeqCst);
        Poll::Ready(())
    }
}

/// Counts its polls, and is never ready.
#[derive(Drop)]
struct Asked<'a> {
    polls: &'a AtomicU64,
}

impl<W> Future<W> for Asked<'_> {
    type Output = ();

    fn poll(&mut self, _w: &W) -> Poll<()> {
        self.polls.fetch_add(1, Ordering::SeqCst);
        Poll::Pending
    }
}

/// A run of 64 tasks, in turns of so many: the shorter they are, the more often is its own future
/// polled, before each turn. Gives how often that was, once all tasks ran.
pub fn keeps_turns<R: Wait + Clone + Drop + Send + Sync>(
    rt: &R,
    alloc: Global,
    turn: u32,
) -> io::Result<u64> {
    let (ran, polls) = (AtomicU64::new(0), AtomicU64::new(0));
    let limits = Limits {
        turn,
        ..Limits::default()
    };
    let executor = Executor::new_with(rt.clone()?, alloc, limits)?;
    for _ in 0..TASKS {
        executor.spawn(Counts { ran: &ran })?.detach();
    }
    let mut run = executor.run(Asked { polls: &polls })?;
    for _ in rt.forever() {
        if ran.load(Ordering::SeqCst) == TASKS {
            break;
        }
        run.poll(&NoopWaker);
    }
    Ok(polls.load(Ordering::SeqCst))
}
