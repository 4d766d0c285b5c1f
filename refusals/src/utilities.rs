//! The calls of `async_utilities` that take memory.
use crate::outcome::{Outcome, count};
use crate::running::made;
use async_executor::{Executor, Future, Poll, RunError};
use async_utilities::{
    JoinAll, NoopWaker, Ready, Receiver, Sender, Signal, ThreadWaker, Waiting, block_on, bounded,
    run_until,
};
use std::alloc::Global;
use std::sync::Wait;

/// How often each call was refused memory, and the program's own list; and how many answers were
/// wrong.
#[derive(Drop)]
pub struct Refused {
    pub block_on: u32,
    pub run_until: u32,
    pub join_all: u32,
    pub signal: u32,
    pub waiting: u32,
    pub bounded: u32,
    pub sender: u32,
    pub receiver: u32,
    pub timer: u32,
    pub after: u32,
    pub timeout: u32,
    pub driver: u32,
    pub pool: u32,
    pub sharded_pool: u32,
    pub priority_pool: u32,
    pub unblock: u32,
    pub list: u32,
    pub wrong: u32,
}

impl Refused {
    /// Nothing was refused, and nothing wrong.
    pub fn new() -> Refused {
        Refused {
            block_on: 0,
            run_until: 0,
            join_all: 0,
            signal: 0,
            waiting: 0,
            bounded: 0,
            sender: 0,
            receiver: 0,
            timer: 0,
            after: 0,
            timeout: 0,
            driver: 0,
            pool: 0,
            sharded_pool: 0,
            priority_pool: 0,
            unblock: 0,
            list: 0,
            wrong: 0,
        }
    }

    /// An answer is wrong if this does not hold.
    pub fn expect(&mut self, holds: bool) {
        if !holds {
            count(&mut self.wrong);
        }
    }
}

/// Waits for what is ready, and again for what comes back if that is refused.
pub fn wait<R: Wait>(rt: &R, alloc: Global, refused: &mut Refused) {
    let output = match block_on(rt, alloc, Ready::new(7)) {
        Ok(output) => Some(output),
        Err(error) => {
            count(&mut refused.block_on);
            block_on(rt, alloc, error.into_inner()).ok()
        }
    };
    refused.expect(output == Some(7));
}

/// Waits in a run of an executor for what is ready, and again for what comes back if that is
/// refused.
pub fn wait_in_run<R: Wait + Clone + Drop + Send + Sync>(
    rt: &R,
    alloc: Global,
    outcome: &mut Outcome,
    refused: &mut Refused,
) {
    let executor: Option<Executor<Ready<u64>, ThreadWaker, R>> = made(rt, alloc, outcome);
    let Some(executor) = executor else {
        return refused.expect(false);
    };
    let output = match run_until(rt, alloc, &executor, Ready::new(7)) {
        Ok(output) => Some(output),
        Err(error) => {
            count(&mut refused.run_until);
            refused.expect(matches!(error, RunError::OutOfMemory(_)));
            run_until(rt, alloc, &executor, error.into_inner()).ok()
        }
    };
    refused.expect(output == Some(7));
}

// The futures of a join, listed again if that is refused.
fn listed(alloc: Global, refused: &mut Refused) -> Option<Vec<Ready<u64>>> {
    if let Ok(futures) = Vec::from_array(alloc, [Ready::new(0), Ready::new(1)]) {
        return Some(futures);
    }
    count(&mut refused.list);
    Vec::from_array(alloc, [Ready::new(0), Ready::new(1)]).ok()
}

// A join of them, made again of what comes back if it is refused.
fn joined(
    alloc: Global,
    futures: Vec<Ready<u64>>,
    refused: &mut Refused,
) -> Option<JoinAll<Ready<u64>, u64>> {
    match JoinAll::new(alloc, futures) {
        Ok(all) => Some(all),
        Err(failed) => {
            count(&mut refused.join_all);
            JoinAll::new(alloc, failed.value).ok()
        }
    }
}

/// Joins futures: their outputs come in order, whatever was refused.
pub fn join(alloc: Global, refused: &mut Refused) {
    let Some(futures) = listed(alloc, refused) else {
        return refused.expect(false);
    };
    let Some(mut all) = joined(alloc, futures, refused) else {
        return refused.expect(false);
    };
    let in_order = match all.poll(&NoopWaker) {
        Poll::Ready(outputs) => outputs.as_slice() == [0, 1].as_slice(),
        Poll::Pending => false,
    };
    refused.expect(in_order);
}

// A signal, made again if that is refused.
fn signal<R: Wait + Clone + Drop>(
    rt: &R,
    alloc: Global,
    refused: &mut Refused,
) -> Option<Signal<NoopWaker, R>> {
    if let Ok(signal) = Signal::new(rt.clone().ok()?, alloc) {
        return Some(signal);
    }
    count(&mut refused.signal);
    Signal::new(rt.clone().ok()?, alloc).ok()
}

// One that waits for the signal, made again if that is refused.
fn waiting<R: Wait + Drop>(
    signal: &Signal<NoopWaker, R>,
    refused: &mut Refused,
) -> Option<Waiting<NoopWaker, R>> {
    if let Ok(waiting) = signal.waiting() {
        return Some(waiting);
    }
    count(&mut refused.waiting);
    signal.waiting().ok()
}

/// Waits for a signal before and after it is set.
pub fn wait_for_signal<R: Wait + Clone + Drop>(rt: &R, alloc: Global, refused: &mut Refused) {
    let Some(signal) = signal(rt, alloc, refused) else {
        return refused.expect(false);
    };
    let Some(mut waiting) = waiting(&signal, refused) else {
        return refused.expect(false);
    };
    refused.expect(waiting.poll(&NoopWaker) == Poll::Pending);
    signal.set();
    refused.expect(waiting.poll(&NoopWaker) == Poll::Ready(()));
}

type Sends<R> = Sender<u64, NoopWaker, NoopWaker, R>;

type Receives<R> = Receiver<u64, NoopWaker, NoopWaker, R>;

// A channel with room for one message, made again if that is refused.
fn channel<R: Wait + Clone + Drop>(
    rt: &R,
    alloc: Global,
    refused: &mut Refused,
) -> Option<(Sends<R>, Receives<R>)> {
    if let Ok(ends) = bounded(rt.clone().ok()?, alloc, 1) {
        return Some(ends);
    }
    count(&mut refused.bounded);
    bounded(rt.clone().ok()?, alloc, 1).ok()
}

// Another sender, made again if that is refused.
fn sender<R: Wait + Drop>(sender: &Sends<R>, refused: &mut Refused) -> Option<Sends<R>> {
    if let Ok(other) = sender.copy() {
        return Some(other);
    }
    count(&mut refused.sender);
    sender.copy().ok()
}

// Another receiver, made again if that is refused.
fn receiver<R: Wait + Drop>(receiver: &Receives<R>, refused: &mut Refused) -> Option<Receives<R>> {
    if let Ok(other) = receiver.copy() {
        return Some(other);
    }
    count(&mut refused.receiver);
    receiver.copy().ok()
}

// Both senders wait, one after the other, and their messages come in order to both receivers.
fn send_all<R: Wait + Drop>(
    senders: (Sends<R>, Sends<R>),
    receivers: (Receives<R>, Receives<R>),
    refused: &mut Refused,
) {
    let ((mut one, mut two), (mut three, four)) = (senders, receivers);
    let (mut second, mut third) = (Some(2), Some(3));
    refused.expect(one.try_send(1).is_ok());
    refused.expect(one.poll_send(&NoopWaker, &mut second) == Poll::Pending);
    refused.expect(two.poll_send(&NoopWaker, &mut third) == Poll::Pending);
    refused.expect(three.try_receive() == Ok(1));
    refused.expect(one.poll_send(&NoopWaker, &mut second) == Poll::Ready(Ok(())));
    refused.expect(four.try_receive() == Ok(2));
    refused.expect(two.poll_send(&NoopWaker, &mut third) == Poll::Ready(Ok(())));
    refused.expect(three.poll_receive(&NoopWaker) == Poll::Ready(Some(3)));
}

/// Sends through a channel with five ends at each side, two of which are used. What waits takes no memory.
pub fn send<R: Wait + Clone + Drop>(rt: &R, alloc: Global, refused: &mut Refused) {
    let Some((one, three)) = channel(rt, alloc, refused) else {
        return refused.expect(false);
    };
    // So many ends that the memory for the places of the first few is not enough.
    let _senders = [sender(&one, refused), sender(&one, refused), sender(&one, refused)];
    let _receivers = [receiver(&three, refused), receiver(&three, refused), receiver(&three, refused)];
    let senders = sender(&one, refused);
    let receivers = receiver(&three, refused);
    match (senders, receivers) {
        (Some(two), Some(four)) => send_all((one, two), (three, four), refused),
        _ => refused.expect(false),
    }
}
