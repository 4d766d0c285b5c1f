//! Tasks of many kinds, each in a box of a trait of one's own. The trait has no parameter, so that a box of
//! it has a proof: a `dyn Future` has none.
use async_executor::{Executor, Future, Poll, Wake};
use async_utilities::{Zip, run_until};
use std::alloc::Global;
use std::io;
use std::sync::Wait;

/// What a task does in a poll. It gives an output once it is done.
trait Step: Drop {
    fn step(&mut self) -> Option<u64>;
}

/// Counts down, and gives 0.
#[derive(Drop)]
struct Countdown {
    left: u64,
}

impl Step for Countdown {
    fn step(&mut self) -> Option<u64> {
        self.left = self.left.saturating_sub(1);
        if self.left == 0 { Some(0) } else { None }
    }
}

/// Gives a number.
#[derive(Drop)]
struct Number {
    number: u64,
}

impl Step for Number {
    fn step(&mut self) -> Option<u64> {
        Some(self.number)
    }
}

/// One of them, as the one type of an executor's tasks. It asks for the next poll until it is done.
#[derive(Drop)]
struct Steps {
    next: Box<dyn Step + Send + Drop>,
}

impl<W: Wake> Future<W> for Steps {
    type Output = u64;

    fn poll(&mut self, w: &W) -> Poll<u64> {
        match self.next.step() {
            Some(output) => Poll::Ready(output),
            None => {
                w.wake();
                Poll::Pending
            }
        }
    }
}

/// Runs tasks of two kinds on one executor, each on the heap.
pub fn boxes_kinds<R: Wait + Clone + Drop + Send + Sync>(
    rt: &R,
    alloc: Global,
) -> io::Result<(u64, u64)> {
    let executor = Executor::new(rt.clone()?, alloc)?;
    let countdown = Steps {
        next: Box::new(alloc, Countdown { left: 3 })?,
    };
    let number = Steps {
        next: Box::new(alloc, Number { number: 7 })?,
    };
    let one = executor.spawn(countdown)?;
    let two = executor.spawn(number)?;
    let (first, second) = run_until(rt, alloc, &executor, Zip::new(one, two))?;
    // (0, 7)
    Ok((first?, second?))
}
