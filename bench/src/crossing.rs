//! Rows of a channel whose ends are on several threads, which park while they wait.
use async_utilities::{Receiver, Sender, ThreadWaker, block_on, bounded};
use std::alloc::Global;
use std::sync::Wait;
use std::thread::{self, Threads};

/// A row of a channel between threads: half of them send, and half receive, each message by `block_on`.
#[derive(Debug, Clone, Copy, PartialEq, Eq)]
pub struct Crossing {
    /// Whether there are four threads, and not two.
    pub four: bool,
    /// Whether each thread keeps its waker, and does not make one for each message.
    pub keeps: bool,
}

/// For how many messages there is room.
const ROOM: usize = 64;

type Out<R> = Sender<u64, ThreadWaker, ThreadWaker, R>;

type In<R> = Receiver<u64, ThreadWaker, ThreadWaker, R>;

impl Crossing {
    /// Passes this many messages, or one less. Gives how many came.
    pub fn run<R: Wait + Clone + Drop + Send + Sync + Threads>(
        self,
        rt: &R,
        alloc: Global,
        operations: u64,
    ) -> Option<u64> {
        let right = rt.clone().ok()?;
        let (sender, receiver) = bounded::<u64, ThreadWaker, ThreadWaker, R>(
            right, alloc, ROOM,
        ).ok()?;
        if !self.four {
            return self.cross(rt, alloc, (sender, receiver), operations);
        }
        let each = operations / 2;
        let others = (sender.copy().ok()?, receiver.copy().ok()?);
        let (one, two) = thread::join(
            rt,
            move || self.cross(rt, alloc, (sender, receiver), each),
            move || self.cross(rt, alloc, others, each),
        );
        Some(one?.saturating_add(two?))
    }

    // Has one thread send so many messages, and another one receive until no sender is left.
    fn cross<R: Wait + Clone + Drop + Send + Sync + Threads>(
        self,
        rt: &R,
        alloc: Global,
        ends: (Out<R>, In<R>),
        messages: u64,
    ) -> Option<u64> {
        let (sender, receiver) = ends;
        let (sent, came) = thread::join(
            rt,
            move || self.send(rt, alloc, sender, messages),
            move || self.receive(rt, alloc, receiver),
        );
        sent?;
        came
    }

    fn send<R: Wait + Drop>(
        self,
        rt: &R,
        alloc: Global,
        sender: Out<R>,
        messages: u64,
    ) -> Option<()> {
        let kept = ThreadWaker::new(alloc).ok()?;
        for number in 0..messages {
            let send = sender.send(number);
            if self.keeps {
                kept.block_on(rt, send).ok()?;
            } else {
                block_on(rt, alloc, send).ok()?.ok()?;
            }
        }
        Some(())
    }

    fn receive<R: Wait + Drop>(self, rt: &R, alloc: Global, receiver: In<R>) -> Option<u64> {
        let kept = ThreadWaker::new(alloc).ok()?;
        let mut count = 0u64;
        for _ in rt.forever() {
            let receive = receiver.receive();
            let message = if self.keeps {
                kept.block_on(rt, receive)
            } else {
                block_on(rt, alloc, receive).ok()?
            };
            if message.is_none() {
                break;
            }
            count = count.saturating_add(1);
        }
        Some(count)
    }
}
