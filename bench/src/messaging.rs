//! Rows of channels.
use async_executor::{Executor, Future, Poll, TaskWaker};
use async_utilities::{NoopWaker, Receiver, Sender, ThreadWaker, bounded, run_until};
use std::alloc::Global;
use std::sync::Wait;

/// A row of a channel.
#[derive(Debug, Clone, Copy, PartialEq, Eq)]
pub enum Messaging {
    /// Send a message and take it, with room for so many.
    TryPair(usize),
    /// A task sends a message to another one, which sends it back, through two channels of room 1.
    RoundTrip,
    /// A task sends, and another one receives, with room for so many.
    Flow(usize),
    /// So many wait, as many messages come, and each takes one.
    Waits(usize),
}

impl Messaging {
    /// Passes this many messages. Gives how many came.
    pub fn run<R: Wait + Clone + Drop + Send + Sync>(
        self,
        rt: &R,
        alloc: Global,
        operations: u64,
    ) -> Option<u64> {
        match self {
            Messaging::TryPair(room) => try_pair(rt, alloc, room, operations),
            Messaging::RoundTrip => round_trip(rt, alloc, operations),
            Messaging::Flow(room) => flow(rt, alloc, room, operations),
            Messaging::Waits(receives) => waits(rt, alloc, receives, operations),
        }
    }
}

fn try_pair<R: Wait + Clone + Drop>(
    rt: &R,
    alloc: Global,
    room: usize,
    operations: u64,
) -> Option<u64> {
    let right = rt.clone().ok()?;
    let (sender, receiver) = bounded::<u64, NoopWaker, NoopWaker, R>(
        right,
        alloc,
        room.max(1),
    ).ok()?;
    let mut count = 0u64;
    for number in 0..operations {
        sender.try_send(number).ok()?;
        if receiver.try_receive() == Ok(number) {
            count = count.saturating_add(1);
        }
    }
    Some(count)
}

type Out<R> = Sender<u64, TaskWaker<ThreadWaker, R>, TaskWaker<ThreadWaker, R>, R>;

type In<R> = Receiver<u64, TaskWaker<ThreadWaker, R>, TaskWaker<ThreadWaker, R>, R>;

fn ends<R: Wait + Clone + Drop>(rt: &R, alloc: Global, room: usize) -> Option<(Out<R>, In<R>)> {
    bounded(rt.clone().ok()?, alloc, room.max(1)).ok()
}

/// Sends and receives messages.
#[derive(Drop)]
enum Side<R: Wait + Clone + Drop> {
    /// Sends a number and waits for its answer, so often.
    Asks {
        sender: Out<R>,
        receiver: In<R>,
        left: u64,
        message: Option<u64>,
    },
    /// Sends each number back that comes.
    Answers {
        sender: Out<R>,
        receiver: In<R>,
        message: Option<u64>,
    },
    /// Sends so many numbers.
    Sends {
        sender: Out<R>,
        left: u64,
        message: Option<u64>,
    },
    /// Counts those that come.
    Counts {
        receiver: In<R>,
        count: u64,
    },
}

impl<R: Wait + Clone + Drop> Future<TaskWaker<ThreadWaker, R>> for Side<R> {
    type Output = u64;

    fn poll(&mut self, w: &TaskWaker<ThreadWaker, R>) -> Poll<u64> {
        for _ in 0..u64::MAX {
            let step = match self {
                Side::Asks {
                    sender,
                    receiver,
                    left,
                    message,
                } => ask(w, sender, receiver, left, message),
                Side::Answers {
                    sender,
                    receiver,
                    message,
                } => answer(w, sender, receiver, message),
                Side::Sends {
                    sender,
                    left,
                    message,
                } => send(w, sender, left, message),
                Side::Counts { receiver, count } => receive(w, receiver, count),
            };
            match step {
                Poll::Ready(None) => {}
                Poll::Ready(Some(count)) => return Poll::Ready(count),
                Poll::Pending => return Poll::Pending,
            }
        }
        Poll::Pending
    }
}

// One message and its answer. Ready with a number at the end.
fn ask<R: Wait + Clone + Drop>(
    w: &TaskWaker<ThreadWaker, R>,
    sender: &mut Out<R>,
    receiver: &mut In<R>,
    left: &mut u64,
    message: &mut Option<u64>,
) -> Poll<Option<u64>> {
    let Poll::Ready(_) = sender.poll_send(w, message) else {
        return Poll::Pending;
    };
    let Poll::Ready(_) = receiver.poll_receive(w) else {
        return Poll::Pending;
    };
    *left = left.saturating_sub(1);
    if *left == 0 {
        return Poll::Ready(Some(0));
    }
    *message = Some(*left);
    Poll::Ready(None)
}

fn answer<R: Wait + Clone + Drop>(
    w: &TaskWaker<ThreadWaker, R>,
    sender: &mut Out<R>,
    receiver: &mut In<R>,
    message: &mut Option<u64>,
) -> Poll<Option<u64>> {
    let Poll::Ready(_) = sender.poll_send(w, message) else {
        return Poll::Pending;
    };
    match receiver.poll_receive(w) {
        Poll::Ready(Some(number)) => {
            *message = Some(number);
            Poll::Ready(None)
        }
        Poll::Ready(None) => Poll::Ready(Some(0)),
        Poll::Pending => Poll::Pending,
    }
}

fn send<R: Wait + Clone + Drop>(
    w: &TaskWaker<ThreadWaker, R>,
    sender: &mut Out<R>,
    left: &mut u64,
    message: &mut Option<u64>,
) -> Poll<Option<u64>> {
    let Poll::Ready(_) = sender.poll_send(w, message) else {
        return Poll::Pending;
    };
    *left = left.saturating_sub(1);
    if *left == 0 {
        return Poll::Ready(Some(0));
    }
    *message = Some(*left);
    Poll::Ready(None)
}

fn receive<R: Wait + Clone + Drop>(
    w: &TaskWaker<ThreadWaker, R>,
    receiver: &mut In<R>,
    count: &mut u64,
) -> Poll<Option<u64>> {
    match receiver.poll_receive(w) {
        Poll::Ready(Some(_)) => {
            *count = count.saturating_add(1);
            Poll::Ready(None)
        }
        Poll::Ready(None) => Poll::Ready(Some(*count)),
        Poll::Pending => Poll::Pending,
    }
}

fn round_trip<R: Wait + Clone + Drop + Send + Sync>(
    rt: &R,
    alloc: Global,
    operations: u64,
) -> Option<u64> {
    let executor: Executor<Side<R>, ThreadWaker, R> = Executor::new(rt.clone().ok()?, alloc).ok()?;
    let (there, arrives) = ends(rt, alloc, 1)?;
    let (back, returns) = ends(rt, alloc, 1)?;
    let answers = Side::Answers {
        sender: back,
        receiver: arrives,
        message: None,
    };
    executor.spawn(answers).ok()?.detach();
    let asks = Side::Asks {
        sender: there,
        receiver: returns,
        left: operations,
        message: Some(operations),
    };
    let task = executor.spawn(asks).ok()?;
    run_until(rt, alloc, &executor, task).ok()?.ok()?;
    Some(operations)
}

fn flow<R: Wait + Clone + Drop + Send + Sync>(
    rt: &R,
    alloc: Global,
    room: usize,
    operations: u64,
) -> Option<u64> {
    let executor: Executor<Side<R>, ThreadWaker, R> = Executor::new(rt.clone().ok()?, alloc).ok()?;
    let (sender, receiver) = ends(rt, alloc, room)?;
    let sends = Side::Sends {
        sender,
        left: operations,
        message: Some(operations),
    };
    executor.spawn(sends).ok()?.detach();
    let task = executor.spawn(Side::Counts { receiver, count: 0 }).ok()?;
    run_until(rt, alloc, &executor, task).ok()?.ok()
}

fn waits<R: Wait + Clone + Drop>(
    rt: &R,
    alloc: Global,
    receives: usize,
    operations: u64,
) -> Option<u64> {
    let right = rt.clone().ok()?;
    let (sender, receiver) = bounded::<u64, NoopWaker, NoopWaker, R>(
        right,
        alloc,
        receives.max(1),
    ).ok()?;
    let rounds = operations.checked_div(receives as u64)?.max(1);
    let mut count = 0u64;
    for _ in 0..rounds {
        let mut waiting = Vec::with_capacity(alloc, receives).ok()?;
        for _ in 0..receives {
            let mut receive = receiver.receive();
            receive.poll(&NoopWaker);
            waiting.push(receive).ok()?;
        }
        for _ in 0..receives {
            sender.try_send(1).ok()?;
        }
        for mut receive in waiting {
            if receive.poll(&NoopWaker) == Poll::Ready(Some(1)) {
                count = count.saturating_add(1);
            }
        }
    }
    Some(count)
}
