//! The calls of a channel, each in a whole example. What it gives is what the tests compare.
use async_executor::Poll;
use async_utilities::{NoMessage, NoopWaker, ThreadWaker, Unsent, block_on, bounded, unbounded};
use std::alloc::Global;
use std::sync::Wait;

/// The message that was sent, and none after it: no sender is left.
pub fn sends_and_receives<R: Wait + Clone + Drop>(
    rt: &R,
    alloc: Global,
) -> Option<[Option<u32>; 2]> {
    let right = rt.clone().ok()?;
    let (sender, receiver) = bounded::<u32, ThreadWaker, ThreadWaker, R>(right, alloc, 4).ok()?;
    block_on(rt, alloc, sender.send(7)).ok()?.ok()?;
    drop(sender);
    let message = block_on(rt, alloc, receiver.receive()).ok()?;
    // [Some(7), None]
    Some([message, block_on(rt, alloc, receiver.receive()).ok()?])
}

/// What comes back of a message that is sent too late, and what comes out of the closed channel.
pub fn sends_too_late<R: Wait + Clone + Drop>(
    rt: &R,
    alloc: Global,
) -> Option<(Unsent<u32>, Result<u32, NoMessage>)> {
    let right = rt.clone().ok()?;
    let (sender, receiver) = unbounded::<u32, NoopWaker, NoopWaker, R>(right, alloc).ok()?;
    sender.try_send(1).ok()?;
    sender.channel().close();
    let unsent = sender.try_send(2).err()?;
    // (Closed(2), Ok(1))
    Some((unsent, receiver.try_receive()))
}

/// How many messages are inside, for how many there is room, and how many ends there are of each side.
pub fn looks_inside<R: Wait + Clone + Drop>(rt: &R, alloc: Global) -> Option<[usize; 4]> {
    let right = rt.clone().ok()?;
    let (sender, receiver) = bounded::<u32, NoopWaker, NoopWaker, R>(right, alloc, 2).ok()?;
    let _other = receiver.copy().ok()?;
    sender.try_send(1).ok()?;
    let channel = sender.channel();
    let (senders, receivers) = (channel.sender_count(), channel.receiver_count());
    // [1, 2, 1, 2]
    Some([channel.len(), channel.capacity(), senders, receivers])
}

/// Pending while there is no room, and then sent.
pub fn waits_for_room<R: Wait + Clone + Drop>(
    rt: &R,
    alloc: Global,
) -> Option<[Poll<Result<(), u32>>; 2]> {
    let right = rt.clone().ok()?;
    let (mut sender, receiver) = bounded::<u32, NoopWaker, NoopWaker, R>(right, alloc, 1).ok()?;
    sender.try_send(1).ok()?;
    let mut message = Some(2);
    let full = sender.poll_send(&NoopWaker, &mut message);
    receiver.try_receive().ok()?;
    // [Pending, Ready(Ok(()))]
    Some([full, sender.poll_send(&NoopWaker, &mut message)])
}

/// Pending while there is no message, and then the message.
pub fn waits_for_a_message<R: Wait + Clone + Drop>(
    rt: &R,
    alloc: Global,
) -> Option<[Poll<Option<u32>>; 2]> {
    let right = rt.clone().ok()?;
    let (sender, mut receiver) = bounded::<u32, NoopWaker, NoopWaker, R>(right, alloc, 1).ok()?;
    let empty = receiver.poll_receive(&NoopWaker);
    sender.try_send(7).ok()?;
    // [Pending, Ready(Some(7))]
    Some([empty, receiver.poll_receive(&NoopWaker)])
}
