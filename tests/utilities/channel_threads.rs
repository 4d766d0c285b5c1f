//! Threads at one channel, of which some give up half way: each message that was sent is received once.
use async_utilities::{Receiver, Sender, ThreadWaker, bounded};
use executor_core::task::{Future, Poll};
use std::alloc::Global;
use std::sync::Wait;
use std::test::Fail;
use std::thread::{self, Threads};

const MESSAGES: u64 = 300;

type Sends<R> = Sender<u64, ThreadWaker, ThreadWaker, R>;
type Receives<R> = Receiver<u64, ThreadWaker, ThreadWaker, R>;

// Sends the numbers below `MESSAGES`, and drops the sender. Every third is given up if there is no room for
// it at once. Gives the sum of those that were sent.
fn sends<R: Wait + Drop>(rt: &R, alloc: Global, sender: Sends<R>) -> Option<u64> {
    let waker = ThreadWaker::new(alloc).ok()?;
    let mut sum = 0;
    for number in 0..MESSAGES {
        let mut send = sender.send(number);
        if number % 3 != 0 {
            waker.block_on(rt, send).ok()?;
        } else if send.poll(&waker) != Poll::Ready(Ok(())) {
            if send.into_message() != Some(number) {
                return None;
            }
            continue;
        }
        sum += number;
    }
    Some(sum)
}

// Adds what it receives, until the channel is closed. Every third receive is given up if there is no message
// at once.
fn receives<R: Wait + Drop>(rt: &R, alloc: Global, receiver: Receives<R>) -> Option<u64> {
    let waker = ThreadWaker::new(alloc).ok()?;
    let (mut sum, mut round) = (0, 0u64);
    for _ in rt.forever() {
        round += 1;
        let mut receive = receiver.receive();
        let message = if round % 3 != 0 {
            waker.block_on(rt, receive)
        } else if let Poll::Ready(message) = receive.poll(&waker) {
            message
        } else {
            continue;
        };
        match message {
            Some(number) => sum += number,
            None => break,
        }
    }
    Some(sum)
}

// Two threads send, and two receive, through a channel with room for so many. Says whether as much was
// received as was sent.
fn crosses<R: AllocGlobal + Wait + Threads + Clone + Drop + Send + Sync>(
    rt: &R,
    capacity: usize,
) -> Result<bool, Fail> {
    let (sender, receiver) = bounded(rt.clone()?, rt.alloc(), capacity.max(1))?;
    let (sender_2, receiver_2) = (sender.copy()?, receiver.copy()?);
    let alloc = rt.alloc();
    let (sent, received) = thread::join(
        rt,
        || thread::join(rt, || sends(rt, alloc, sender), || sends(rt, alloc, sender_2)),
        || {
            thread::join(
                rt,
                || receives(rt, alloc, receiver),
                || receives(rt, alloc, receiver_2),
            )
        },
    );
    match (sent, received) {
        ((Some(one), Some(two)), (Some(three), Some(four))) => Ok(one + two == three + four),
        _ => Err("a message was lost".into()),
    }
}

#[test]
fn threads_that_give_up_lose_no_message(rt: HostRuntime) -> Result<(), Fail> {
    for capacity in [1, 2, 50] {
        assert!(rt; crosses(&rt, capacity)?);
    }
    Ok(())
}
