//! What futures and their answers are, in whole examples. What these give is what the tests compare.
use async_executor::{Executor, Future, Poll, Wake};
use async_utilities::{NoopWaker, Ready, run_until};
use std::alloc::Global;
use std::io;
use std::sync::Wait;

/// Counts its polls, and asks for another one until there were two.
#[derive(Drop)]
struct Twice {
    polls: u64,
}

impl<W: Wake> Future<W> for Twice {
    type Output = u64;

    fn poll(&mut self, w: &W) -> Poll<u64> {
        self.polls = self.polls.saturating_add(1);
        if self.polls < 2 {
            w.wake();
            Poll::Pending
        } else {
            Poll::Ready(self.polls)
        }
    }
}

/// Pending at the first poll, and ready at the second.
pub fn polls_by_hand() -> [Poll<u64>; 2] {
    let mut twice = Twice { polls: 0 };
    let first = twice.poll(&NoopWaker);
    // [Pending, Ready(2)]
    [first, twice.poll(&NoopWaker)]
}

/// 7, of a future on the heap.
pub fn runs_a_box<R: Wait + Clone + Drop + Send + Sync>(rt: &R, alloc: Global) -> io::Result<u64> {
    let executor = Executor::new(rt.clone()?, alloc)?;
    let future = Box::new(alloc, Ready::new(7))?;
    let task = executor.spawn(future)?;
    // 7
    Ok(run_until(rt, alloc, &executor, task)??)
}
