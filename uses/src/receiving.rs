//! A task that keeps a copy of its waker until another party wakes it.
use async_executor::{Cancelled, Executor, Future, Poll, TaskWaker, Wake};
use async_utilities::NoopWaker;
use std::alloc::{AllocError, Global};
use std::io;
use std::sync::{Arc, Mutex, Wait};

/// What a `Receiver` shares with its sender: the number that was sent, and the waker to be woken.
#[derive(Drop)]
pub struct Channel<R: Wait + Drop> {
    number: Option<u64>,
    waker: Option<TaskWaker<NoopWaker, R>>,
}

/// Gives the number that another party sends.
#[derive(Drop)]
pub struct Receiver<R: Wait + Drop> {
    channel: Arc<Mutex<Channel<R>>>,
}

impl<R: Wait + Drop> Receiver<R> {
    /// The receiver of a new channel, and the sender's share of it.
    pub fn new(alloc: Global) -> Result<(Receiver<R>, Arc<Mutex<Channel<R>>>), AllocError> {
        let channel = Channel {
            number: None,
            waker: None,
        };
        let sender = match Arc::new(alloc, Mutex::new(channel)) {
            Ok(sender) => sender,
            Err(_) => return Err(AllocError),
        };
        let channel = Arc::try_clone(&sender)?;
        Ok((Receiver { channel }, sender))
    }
}

impl<R: Wait + Drop> Future<TaskWaker<NoopWaker, R>> for Receiver<R> {
    type Output = u64;

    /// A copy of the waker stays in the channel until the number is sent. If it cannot be left
    /// there, another poll is asked for.
    fn poll(&mut self, w: &TaskWaker<NoopWaker, R>) -> Poll<u64> {
        let (Ok(waker), Some(mut channel)) = (w.copy(), self.channel.try_lock()) else {
            w.wake();
            return Poll::Pending;
        };
        match channel.number {
            Some(number) => Poll::Ready(number),
            None => {
                channel.waker = Some(waker);
                Poll::Pending
            }
        }
    }
}

/// Sends the number to the receiver, and has it polled again. The waker is woken after the lock is
/// given up.
pub fn send<R: Wait + Clone + Drop>(rt: &R, sender: &Mutex<Channel<R>>, number: u64) {
    let mut channel = sender.lock(rt);
    channel.number = Some(number);
    let waker = channel.waker.take();
    drop(channel);
    if let Some(waker) = waker {
        waker.wake();
    }
}

/// Runs a task that waits for a number, which another party sends through the waker that it left. Says
/// whether it had ended before, and what its handle answers then.
pub fn receives<R: Wait + Clone + Drop + Send + Sync>(
    rt: &R,
    alloc: Global,
) -> io::Result<(bool, Poll<Result<u64, Cancelled>>)> {
    let (receiver, sender) = Receiver::new(alloc)?;
    let executor = Executor::new(rt.clone()?, alloc)?;
    let mut task = executor.spawn(receiver)?;
    executor.try_tick();
    let is_early = task.is_finished();
    send(rt, &sender, 5);
    executor.try_tick();
    // (false, Ready(Ok(5)))
    Ok((is_early, task.poll(&NoopWaker)))
}
