//! What a channel of `async_utilities` does with its messages, and whom it wakes.
use crate::tests::support::running::record::{Moment, Record};
use crate::tests::support::running::waker::TestWaker;
use async_utilities::{NoMessage, Receiver, Sender, ThreadWaker, Unsent, block_on, bounded};
use executor_core::task::{Future, Poll};
use std::alloc::Global;
use std::sync::Wait;
use std::sync::atomic::{AtomicU64, Ordering};
use std::test::Fail;
use std::thread::{self, Threads};

type Sends<R> = Sender<u64, TestWaker, TestWaker, R>;
type Receives<R> = Receiver<u64, TestWaker, TestWaker, R>;

// A channel with room for so many messages.
fn channel<R: AllocGlobal + Wait + Clone + Drop>(
    rt: &R,
    capacity: usize,
) -> Result<(Sends<R>, Receives<R>), Fail> {
    match bounded(rt.clone()?, rt.alloc(), capacity.max(1)) {
        Ok(ends) => Ok(ends),
        Err(_) => Err("no memory for a channel".into()),
    }
}

// A waker that nobody else has a share of.
fn new_waker(alloc: Global) -> Result<TestWaker, Fail> {
    Ok(TestWaker::new(&Record::new(alloc)?)?)
}

fn wakes(waker: &TestWaker) -> u64 {
    waker.record().times(Moment::WakerWake)
}

// Sends three messages to a channel with room for two, and takes them out.
fn fills<R: AllocGlobal + Wait + Clone + Drop>(
    rt: &R,
) -> Result<([Result<(), Unsent<u64>>; 3], [Result<u64, NoMessage>; 3]), Fail> {
    let (sender, receiver) = channel(rt, 2)?;
    let sent = [sender.try_send(1), sender.try_send(2), sender.try_send(3)];
    let received = [
        receiver.try_receive(),
        receiver.try_receive(),
        receiver.try_receive(),
    ];
    Ok((sent, received))
}

#[test]
fn a_channel_takes_what_there_is_room_for_and_gives_it_in_order(
    rt: HostRuntime,
) -> Result<(), Fail> {
    let sent = [Ok(()), Ok(()), Err(Unsent::Full(3))];
    let received = [Ok(1), Ok(2), Err(NoMessage::Empty)];
    assert_eq!(rt; fills(&rt)?, (sent, received));
    Ok(())
}

// Sends a message, and drops one of two senders and then the other. Gives what is received after each.
fn closes<R: AllocGlobal + Wait + Clone + Drop>(
    rt: &R,
) -> Result<[Result<u64, NoMessage>; 3], Fail> {
    let (sender, receiver) = channel(rt, 2)?;
    let other = sender.copy()?;
    let unsent = sender.try_send(1);
    drop(sender);
    let first = receiver.try_receive();
    let second = receiver.try_receive();
    drop(other);
    unsent.map_err(|_| "no room")?;
    Ok([first, second, receiver.try_receive()])
}

#[test]
fn a_channel_is_closed_once_its_last_sender_is_gone(rt: HostRuntime) -> Result<(), Fail> {
    let received = [Ok(1), Err(NoMessage::Empty), Err(NoMessage::Closed)];
    assert_eq!(rt; closes(&rt)?, received);
    Ok(())
}

// Sends a message, drops the sender, and gives what is received then.
fn drains<R: AllocGlobal + Wait + Clone + Drop>(
    rt: &R,
) -> Result<[Result<u64, NoMessage>; 2], Fail> {
    let (sender, receiver) = channel(rt, 2)?;
    let unsent = sender.try_send(1);
    drop(sender);
    unsent.map_err(|_| "no room")?;
    Ok([receiver.try_receive(), receiver.try_receive()])
}

#[test]
fn what_is_inside_a_closed_channel_comes_out_first(rt: HostRuntime) -> Result<(), Fail> {
    assert_eq!(rt; drains(&rt)?, [Ok(1), Err(NoMessage::Closed)]);
    Ok(())
}

// Drops the receiver, and sends.
fn refuses<R: AllocGlobal + Wait + Clone + Drop>(rt: &R) -> Result<Result<(), Unsent<u64>>, Fail> {
    let (sender, receiver) = channel(rt, 2)?;
    drop(receiver);
    Ok(sender.try_send(7))
}

#[test]
fn a_channel_without_receivers_gives_the_message_back(rt: HostRuntime) -> Result<(), Fail> {
    assert_eq!(rt; refuses(&rt)?, Err(Unsent::Closed(7)));
    Ok(())
}

// What three polls of a sender answer, and what is left of the message.
#[derive(Debug, PartialEq, Drop)]
struct PolledSends {
    answers: [Poll<Result<(), u64>>; 3],
    left: [Option<u64>; 2],
    wakes: u64,
    last: Result<u64, NoMessage>,
}

// Sends by the polls of a sender to a channel with room for one message, and makes room after the second.
fn polls_to_send<R: AllocGlobal + Wait + Clone + Drop>(rt: &R) -> Result<PolledSends, Fail> {
    let waker = new_waker(rt.alloc())?;
    let (mut sender, receiver) = channel(rt, 1)?;
    let (mut one, mut two) = (Some(1), Some(2));
    let first = sender.poll_send(&waker, &mut one);
    let second = sender.poll_send(&waker, &mut two);
    let kept = two;
    if receiver.try_receive() != Ok(1) {
        return Err("another message".into());
    }
    let third = sender.poll_send(&waker, &mut two);
    Ok(PolledSends {
        answers: [first, second, third],
        left: [kept, two],
        wakes: wakes(&waker),
        last: receiver.try_receive(),
    })
}

#[test]
fn a_sender_sends_by_its_polls_once_there_is_room(rt: HostRuntime) -> Result<(), Fail> {
    let wanted = PolledSends {
        answers: [Poll::Ready(Ok(())), Poll::Pending, Poll::Ready(Ok(()))],
        left: [Some(2), None],
        wakes: 1,
        last: Ok(2),
    };
    assert_eq!(rt; polls_to_send(&rt)?, wanted);
    Ok(())
}

// Two receivers wait, one after the other. Gives how often each was woken after one message, and
// after the last sender is gone.
fn tells<R: AllocGlobal + Wait + Clone + Drop>(rt: &R) -> Result<[[u64; 2]; 2], Fail> {
    let (one, two) = (new_waker(rt.alloc())?, new_waker(rt.alloc())?);
    let (sender, mut receiver) = channel(rt, 2)?;
    let mut other = receiver.copy()?;
    receiver.poll_receive(&one);
    other.poll_receive(&two);
    let unsent = sender.try_send(1);
    let first = [wakes(&one), wakes(&two)];
    drop(sender);
    unsent.map_err(|_| "no room")?;
    Ok([first, [wakes(&one), wakes(&two)]])
}

#[test]
fn a_message_tells_the_first_that_waits_and_the_end_tells_the_others(
    rt: HostRuntime,
) -> Result<(), Fail> {
    assert_eq!(rt; tells(&rt)?, [[1, 0], [1, 1]]);
    Ok(())
}

// Two receivers wait, the first one is told of a message, and is dropped. Gives how often the other one
// was woken, and what it receives.
fn passes_on<R: AllocGlobal + Wait + Clone + Drop>(
    rt: &R,
) -> Result<(u64, Poll<Option<u64>>), Fail> {
    let (one, two) = (new_waker(rt.alloc())?, new_waker(rt.alloc())?);
    let (sender, mut receiver) = channel(rt, 2)?;
    let mut other = receiver.copy()?;
    receiver.poll_receive(&one);
    other.poll_receive(&two);
    let unsent = sender.try_send(1);
    drop(receiver);
    unsent.map_err(|_| "no room")?;
    Ok((wakes(&two), other.poll_receive(&two)))
}

#[test]
fn a_receiver_that_was_told_and_goes_has_the_next_one_told(rt: HostRuntime) -> Result<(), Fail> {
    assert_eq!(rt; passes_on(&rt)?, (1, Poll::Ready(Some(1))));
    Ok(())
}

// The same, if the future that waited is dropped, and its receiver stays.
fn passes_on_beside<R: AllocGlobal + Wait + Clone + Drop>(
    rt: &R,
) -> Result<(u64, Poll<Option<u64>>), Fail> {
    let (one, two) = (new_waker(rt.alloc())?, new_waker(rt.alloc())?);
    let (sender, receiver) = channel(rt, 2)?;
    let mut other = receiver.copy()?;
    let mut receive = receiver.receive();
    receive.poll(&one);
    other.poll_receive(&two);
    let unsent = sender.try_send(1);
    drop(receive);
    unsent.map_err(|_| "no room")?;
    Ok((wakes(&two), other.poll_receive(&two)))
}

#[test]
fn a_receive_that_was_told_and_goes_has_the_next_one_told(rt: HostRuntime) -> Result<(), Fail> {
    assert_eq!(rt; passes_on_beside(&rt)?, (1, Poll::Ready(Some(1))));
    Ok(())
}

// Two senders wait for room, the first one is told of it and its future is dropped. Gives how often
// the other one was woken, and what its poll answers.
fn passes_room_on<R: AllocGlobal + Wait + Clone + Drop>(
    rt: &R,
) -> Result<(u64, Poll<Result<(), u64>>, Result<u64, NoMessage>), Fail> {
    let (one, two) = (new_waker(rt.alloc())?, new_waker(rt.alloc())?);
    let (sender, receiver) = channel(rt, 1)?;
    let other = sender.copy()?;
    let unsent = sender.try_send(1);
    let mut send = sender.send(2);
    let mut waits = other.send(3);
    send.poll(&one);
    waits.poll(&two);
    let received = receiver.try_receive();
    drop(send);
    unsent.map_err(|_| "no room")?;
    received.map_err(|_| "no message")?;
    Ok((wakes(&two), waits.poll(&two), receiver.try_receive()))
}

#[test]
fn a_send_that_was_told_of_room_and_goes_has_the_next_one_told(
    rt: HostRuntime,
) -> Result<(), Fail> {
    assert_eq!(rt; passes_room_on(&rt)?, (1, Poll::Ready(Ok(())), Ok(3)));
    Ok(())
}

// A receiver waits, another one takes the message that it was told of, and it waits again. Gives how
// often it was woken in the end.
fn waits_again<R: AllocGlobal + Wait + Clone + Drop>(rt: &R) -> Result<(u64, u64), Fail> {
    let waker = new_waker(rt.alloc())?;
    let (sender, mut receiver) = channel(rt, 1)?;
    let other = receiver.copy()?;
    receiver.poll_receive(&waker);
    let first = sender.try_send(1);
    let taken = other.try_receive();
    let again = receiver.poll_receive(&waker);
    let second = sender.try_send(2);
    first.map_err(|_| "no room")?;
    second.map_err(|_| "no room")?;
    let message = taken.map_err(|_| "no message")?;
    if again != Poll::Pending {
        return Err("a message twice".into());
    }
    Ok((message, wakes(&waker)))
}

#[test]
fn a_receiver_that_comes_too_late_waits_again(rt: HostRuntime) -> Result<(), Fail> {
    assert_eq!(rt; waits_again(&rt)?, (1, 2));
    Ok(())
}

// How many messages each sender of the threads sends.
const MESSAGES: u64 = 200;

type Sending<R> = Sender<u64, ThreadWaker, ThreadWaker, R>;
type Receiving<R> = Receiver<u64, ThreadWaker, ThreadWaker, R>;

// Sends the numbers below `MESSAGES`, and drops the sender.
fn sends_all<R: AllocGlobal + Wait + Drop>(rt: &R, sender: Sending<R>) {
    for number in 0..MESSAGES {
        let _ = block_on(rt, rt.alloc(), sender.send(number));
    }
}

// Adds what it receives to the sum, until the channel is closed.
fn adds_all<R: AllocGlobal + Wait + Drop>(rt: &R, receiver: Receiving<R>, sum: &AtomicU64) {
    for _ in rt.forever() {
        match block_on(rt, rt.alloc(), receiver.receive()) {
            Ok(Some(number)) => {
                sum.fetch_add(number, Ordering::SeqCst);
            }
            Ok(None) | Err(_) => break,
        }
    }
}

// Two threads send, and two receive, through a channel with room for so many. Gives the sum of what
// was received.
fn crosses<R: AllocGlobal + Wait + Threads + Clone + Drop + Send + Sync>(
    rt: &R,
    capacity: usize,
) -> Result<u64, Fail> {
    let (sender, receiver) = bounded(rt.clone()?, rt.alloc(), capacity.max(1))?;
    let (sender_2, receiver_2) = (sender.copy()?, receiver.copy()?);
    let sum = AtomicU64::new(0);
    thread::join(
        rt,
        || thread::join(rt, || sends_all(rt, sender), || sends_all(rt, sender_2)),
        || {
            thread::join(
                rt,
                || adds_all(rt, receiver, &sum),
                || adds_all(rt, receiver_2, &sum),
            )
        },
    );
    Ok(sum.load(Ordering::SeqCst))
}

#[test]
fn threads_receive_each_message_once(rt: HostRuntime) -> Result<(), Fail> {
    for capacity in [1, 3, 500] {
        assert_eq!(rt; crosses(&rt, capacity)?, MESSAGES * (MESSAGES - 1));
    }
    Ok(())
}
