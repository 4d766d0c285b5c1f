//! Each request for memory of a channel refused in turn: a message comes back, and the same call goes
//! well afterwards.
use crate::tests::support::running::record::{Moment, Record};
use crate::tests::support::running::refusal::{MOST, is_order_left, refuse};
use crate::tests::support::running::waker::TestWaker;
use async_utilities::{NoMessage, Receiver, Send, Sender, Unsent, bounded, unbounded};
use executor_core::task::{Future, Poll};
use std::alloc::Global;
use std::sync::Wait;
use std::test::Fail;

type Sends<R> = Sender<u64, TestWaker, TestWaker, R>;
type Receives<R> = Receiver<u64, TestWaker, TestWaker, R>;

fn new_waker(alloc: Global) -> Result<TestWaker, Fail> {
    Ok(TestWaker::new(&Record::new(alloc)?)?)
}

fn wakes(waker: &TestWaker) -> u64 {
    waker.record().times(Moment::WakerWake)
}

// Makes a channel with two ends at each side, with this request refused. Gives whether it was refused.
fn is_made_refused<R: AllocGlobal + Wait + Clone + Drop>(
    rt: &R,
    request: usize,
) -> Result<bool, Fail> {
    let rights = rt.clone()?;
    refuse(rt.alloc(), request);
    let Ok((sender, receiver)) = bounded(rights, rt.alloc(), 3) else {
        return Ok(true);
    };
    let (sender, receiver): (Sends<R>, Receives<R>) = (sender, receiver);
    let are_refused = sender.copy().is_err() || receiver.copy().is_err();
    let counts = [sender.channel().sender_count(), receiver.channel().receiver_count()];
    refuse(rt.alloc(), 0);
    let (second, third) = (sender.copy()?, receiver.copy()?);
    if counts != [1, 1] || second.try_send(7).is_err() || third.try_receive() != Ok(7) {
        return Err("another channel".into());
    }
    Ok(are_refused)
}

#[test]
fn a_channel_is_made_and_copied_after_each_refusal(rt: HostRuntime) -> Result<(), Fail> {
    let mut refusals = 0;
    for request in 1..=MOST {
        if is_made_refused(&rt, request)? {
            refusals += 1;
        }
    }
    assert!(rt; 0 < refusals && refusals < MOST);
    Ok(())
}

// Polls a new send with each request refused. Gives it, if it waits, and how often it was refused.
fn waits_at_last<'a, R: Wait + Drop>(
    alloc: Global,
    sender: &'a Sends<R>,
    message: u64,
    waker: &TestWaker,
) -> Result<(Send<'a, u64, TestWaker, TestWaker, R>, u64), Fail> {
    let mut send = sender.send(message);
    let before = wakes(waker);
    refuse(alloc, 1);
    let first = send.poll(waker);
    let was_refused = !is_order_left(alloc);
    refuse(alloc, 0);
    let refusals = wakes(waker) - before;
    if first != Poll::Pending || (refusals == 1) != was_refused {
        return Err("a refusal asked for nothing".into());
    }
    if send.poll(waker) != Poll::Pending || wakes(waker) != before + refusals {
        return Err("it does not wait".into());
    }
    Ok((send, refusals))
}

// Many sends of one sender wait, each after its place was refused. Gives how often one was refused, and
// whether their messages come in order.
fn waits_in_order<R: AllocGlobal + Wait + Clone + Drop>(rt: &R) -> Result<(u64, bool), Fail> {
    let (sender, receiver): (Sends<R>, Receives<R>) = bounded(rt.clone()?, rt.alloc(), 1)?;
    let waker = new_waker(rt.alloc())?;
    let mut sends = Vec::with_capacity(rt.alloc(), 20)?;
    if sender.try_send(0).is_err() {
        return Err("no room".into());
    }
    let mut refusals = 0;
    for message in 1..20 {
        let (send, refused) = waits_at_last(rt.alloc(), &sender, message, &waker)?;
        refusals += refused;
        if sends.push(send).is_err() {
            return Err("no memory".into());
        }
    }
    let mut is_in_order = true;
    for (number, mut send) in sends.into_iter().enumerate() {
        is_in_order &= receiver.try_receive().ok() == u64::try_from(number).ok();
        is_in_order &= send.poll(&waker) == Poll::Ready(Ok(()));
    }
    Ok((refusals, is_in_order))
}

#[test]
fn a_send_without_a_place_keeps_its_message_and_asks_again(rt: HostRuntime) -> Result<(), Fail> {
    let (refusals, is_in_order) = waits_in_order(&rt)?;
    assert!(rt; 0 < refusals && is_in_order);
    Ok(())
}

// Sends to an unbounded channel with each request refused. Gives how often a message came back, and
// whether all came in order in the end.
fn sends_all<R: AllocGlobal + Wait + Clone + Drop>(rt: &R) -> Result<(u64, bool), Fail> {
    let (sender, receiver): (Sends<R>, Receives<R>) = unbounded(rt.clone()?, rt.alloc())?;
    let mut refusals = 0;
    for number in 0..100 {
        refuse(rt.alloc(), 1);
        let first = sender.try_send(number);
        refuse(rt.alloc(), 0);
        if let Err(unsent) = first {
            refusals += 1;
            if unsent != Unsent::Refused(number) || sender.try_send(number).is_err() {
                return Err("a message was lost".into());
            }
        }
    }
    let mut is_in_order = true;
    for number in 0..100 {
        is_in_order &= receiver.try_receive() == Ok(number);
    }
    Ok((refusals, is_in_order && receiver.try_receive() == Err(NoMessage::Empty)))
}

#[test]
fn an_unbounded_channel_gives_a_refused_message_back(rt: HostRuntime) -> Result<(), Fail> {
    let (refusals, is_in_order) = sends_all(&rt)?;
    assert!(rt; 0 < refusals && is_in_order);
    Ok(())
}

// A message, a wake, a close and the drops of ends and of those who wait, with the next request refused.
// Gives whether none was made.
fn takes_no_memory<R: AllocGlobal + Wait + Clone + Drop>(rt: &R) -> Result<bool, Fail> {
    let (sender, receiver): (Sends<R>, Receives<R>) = bounded(rt.clone()?, rt.alloc(), 1)?;
    let waker = new_waker(rt.alloc())?;
    let (mut first, mut second) = (receiver.receive(), receiver.receive());
    first.poll(&waker);
    second.poll(&waker);
    refuse(rt.alloc(), 1);
    let is_sent = sender.try_send(1).is_ok();
    let is_received = first.poll(&waker) == Poll::Ready(Some(1));
    let was_open = sender.channel().close();
    drop(second);
    drop(first);
    drop(receiver);
    drop(sender);
    Ok(is_sent && is_received && was_open && is_order_left(rt.alloc()) && wakes(&waker) == 2)
}

#[test]
fn a_message_that_wakes_takes_no_memory(rt: HostRuntime) -> Result<(), Fail> {
    assert!(rt; takes_no_memory(&rt)?);
    Ok(())
}
