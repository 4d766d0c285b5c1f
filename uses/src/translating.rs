//! An `async fn` with a loop and two awaits, as a type with a poll.
use async_executor::{Executor, Future, Poll, TaskWaker, Wake};
use async_utilities::{NoopWaker, Receiver, Sender, ThreadWaker, bounded, run_until};
use std::alloc::Global;
use std::io;
use std::sync::Wait;

// A poll passes so many numbers on at most: then it lets others of its thread go on.
const TURN: usize = 16;

/// Receives numbers, and sends the square of each, until either channel is closed. Gives how many it sent.
#[derive(Drop)]
struct Squaring<R: Wait + Drop> {
    numbers: Receiver<u64, NoopWaker, TaskWaker<ThreadWaker, R>, R>,
    squares: Sender<u64, TaskWaker<ThreadWaker, R>, NoopWaker, R>,
    unsent: Option<u64>,
    sent: u64,
}

impl<R: Wait + Drop> Future<TaskWaker<ThreadWaker, R>> for Squaring<R> {
    type Output = u64;

    fn poll(&mut self, w: &TaskWaker<ThreadWaker, R>) -> Poll<u64> {
        for _ in 0..TURN {
            if self.unsent.is_none() {
                match self.numbers.poll_receive(w) {
                    Poll::Ready(Some(number)) => self.unsent = Some(number.saturating_mul(number)),
                    Poll::Ready(None) => return Poll::Ready(self.sent),
                    Poll::Pending => return Poll::Pending,
                }
            }
            match self.squares.poll_send(w, &mut self.unsent) {
                Poll::Ready(Ok(())) => self.sent = self.sent.saturating_add(1),
                Poll::Ready(Err(_)) => return Poll::Ready(self.sent),
                Poll::Pending => return Poll::Pending,
            }
        }
        w.wake();
        Poll::Pending
    }
}

/// Sends three numbers to a task, which sends the square of each. Gives how many it sent, and their sum.
pub fn squares<R: Wait + Clone + Drop + Send + Sync>(
    rt: &R,
    alloc: Global,
) -> io::Result<(u64, u64)> {
    let (sender, numbers) = bounded(rt.clone()?, alloc, 4)?;
    let (squares, receiver) = bounded(rt.clone()?, alloc, 4)?;
    for number in 1..4 {
        sender.try_send(number)?;
    }
    drop(sender);
    let executor = Executor::new(rt.clone()?, alloc)?;
    let task = executor.spawn(Squaring {
        numbers,
        squares,
        unsent: None,
        sent: 0,
    })?;
    let sent = run_until(rt, alloc, &executor, task)??;
    let mut sum = 0u64;
    for _ in 0..sent {
        sum = sum.saturating_add(receiver.try_receive()?);
    }
    // (3, 14)
    Ok((sent, sum))
}
