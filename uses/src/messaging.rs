//! A channel from a thread to a task: the thread parks while there is no room, and the task is
//! pending while there is no message. And a channel on which nobody waits.
use async_executor::{Executor, Future, Poll, TaskWaker, Wake};
use async_utilities::{
    NoMessage, NoopWaker, Receiver, Sender, ThreadWaker, Unsent, block_on, bounded, run_until,
    unbounded,
};
use std::alloc::Global;
use std::io::{self, ErrorKind};
use std::sync::Wait;
use std::thread::{self, Threads};

// For how many messages the channel has room, and how many a poll takes at the most.
const ROOM: usize = 4;

/// Where the numbers arrive. A send is polled with the waker of a thread, by `block_on`, and a receive
/// with that of a task, by the executor.
type Arrivals<R> = Receiver<u32, ThreadWaker, TaskWaker<ThreadWaker, R>, R>;

/// Adds the numbers that arrive, until there is no sender.
#[derive(Drop)]
struct Adder<R: Wait + Drop> {
    arrivals: Arrivals<R>,
    total: u64,
}

impl<R: Wait + Drop> Future<TaskWaker<ThreadWaker, R>> for Adder<R> {
    type Output = u64;

    // A poll ends after some messages, however many there are: other tasks want their turn.
    fn poll(&mut self, w: &TaskWaker<ThreadWaker, R>) -> Poll<u64> {
        for _ in 0..ROOM {
            match self.arrivals.poll_receive(w) {
                Poll::Ready(Some(number)) => {
                    self.total = self.total.saturating_add(u64::from(number));
                }
                Poll::Ready(None) => return Poll::Ready(self.total),
                Poll::Pending => return Poll::Pending,
            }
        }
        w.wake();
        Poll::Pending
    }
}

/// Sends the numbers below this one, in order, and parks while there is no room. In the end it drops
/// the sender, which says that there are no more.
fn send_below<V: Wake, R: Wait + Drop>(
    rt: &R,
    alloc: Global,
    sender: Sender<u32, ThreadWaker, V, R>,
    end: u32,
) -> io::Result<()> {
    for number in 0..end {
        if block_on(rt, alloc, sender.send(number))?.is_err() {
            return Err(io::Error::from(ErrorKind::BrokenPipe));
        }
    }
    Ok(())
}

/// Runs a future as a task on this thread, which parks while nothing is scheduled, and gives its output.
pub fn runs_here<F, R>(rt: &R, alloc: Global, future: F) -> io::Result<F::Output>
where
    F: Future<TaskWaker<ThreadWaker, R>> + Send,
    F::Output: Send,
    R: Wait + Clone + Drop + Send + Sync,
{
    let executor = Executor::new(rt.clone()?, alloc)?;
    let task = executor.spawn(future)?;
    Ok(run_until(rt, alloc, &executor, task)??)
}

/// Has one thread send twenty numbers, with room for four, and a task that another thread runs add
/// them. Gives the sum, if all were sent.
pub fn sends_to_a_task<R: Wait + Threads + Clone + Drop + Send + Sync>(
    rt: &R,
    alloc: Global,
) -> io::Result<u64> {
    let (sender, arrivals) = bounded(rt.clone()?, alloc, ROOM)?;
    let adder = Adder { arrivals, total: 0 };
    let (sent, total) = thread::join(
        rt,
        move || send_below(rt, alloc, sender, 20),
        move || runs_here(rt, alloc, adder),
    );
    sent?;
    total
}

/// Sends and receives without waiting, with room for one message and with two receivers. Gives the
/// message that found no room, the one that arrived, and why no other one did.
pub fn tries<R: Wait + Clone + Drop>(
    rt: &R,
    alloc: Global,
) -> Option<(Unsent<u32>, u32, NoMessage)> {
    let right = rt.clone().ok()?;
    let (sender, first) = bounded::<u32, ThreadWaker, ThreadWaker, R>(right, alloc, 1).ok()?;
    let second = first.copy().ok()?;
    sender.try_send(1).ok()?;
    let unsent = sender.try_send(2).err()?;
    let message = first.try_receive().ok()?;
    let none = second.try_receive().err()?;
    // (Full(2), 1, Empty)
    Some((unsent, message, none))
}

/// Sends four messages, and takes three of them at once and then the last one. Gives how many came by each
/// call, their sum, and why no more did.
pub fn takes_many<R: Wait + Clone + Drop>(
    rt: &R,
    alloc: Global,
) -> Option<([usize; 2], u32, NoMessage)> {
    let right = rt.clone().ok()?;
    let (sender, receiver) = bounded::<u32, NoopWaker, NoopWaker, R>(right, alloc, 4).ok()?;
    for number in 1..5 {
        sender.try_send(number).ok()?;
    }
    let mut messages = Vec::with_capacity(alloc, 8).ok()?;
    let count = receiver.try_receive_many(&mut messages, 3).ok()?;
    let rest = receiver.try_receive_many(&mut messages, 3).ok()?;
    let none = receiver.try_receive_many(&mut messages, 3).err()?;
    let mut sum = 0u32;
    for message in messages {
        sum = sum.saturating_add(message);
    }
    Some(([count, rest], sum, none))
}

/// Closes a channel with a message inside. Gives what its ends say of it before, whether they say that
/// it is closed then, and what comes out.
pub fn closes_a_channel<R: Wait + Clone + Drop>(
    rt: &R,
    alloc: Global,
) -> Option<([usize; 4], [bool; 3], Result<u32, NoMessage>)> {
    let right = rt.clone().ok()?;
    let (sender, receiver) = unbounded::<u32, NoopWaker, NoopWaker, R>(right, alloc).ok()?;
    sender.try_send(1).ok()?;
    let left = receiver.channel().len();
    let capacity = receiver.channel().capacity();
    let senders = receiver.channel().sender_count();
    let receivers = sender.channel().receiver_count();
    let is_empty = receiver.channel().is_empty();
    let is_full = receiver.channel().is_full();
    sender.channel().close();
    let is_closed = receiver.channel().is_closed();
    let counts = [left, capacity, senders, receivers];
    Some((
        counts,
        [is_empty, is_full, is_closed],
        receiver.try_receive(),
    ))
}

/// Sends to a channel without room, and gives the send up. Gives its message.
pub fn gives_up<R: Wait + Clone + Drop>(rt: &R, alloc: Global) -> Option<u32> {
    let right = rt.clone().ok()?;
    let (sender, _receiver) = bounded::<u32, NoopWaker, NoopWaker, R>(right, alloc, 1).ok()?;
    sender.try_send(1).ok()?;
    let mut send = sender.send(2);
    if send.poll(&NoopWaker) != Poll::Pending {
        return None;
    }
    // 2
    let message = send.into_message();
    message
}
