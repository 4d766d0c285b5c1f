//! Whom a channel of `async_utilities` tells, and in which order, by counts of wakes.
use crate::tests::support::running::record::{Moment, Record};
use crate::tests::support::running::waker::TestWaker;
use async_utilities::{NoMessage, Receiver, Sender, Unsent, bounded, unbounded};
use executor_core::task::{Future, Poll};
use std::alloc::Global;
use std::sync::Wait;
use std::test::Fail;

type Ends<R> = (
    Sender<u64, TestWaker, TestWaker, R>,
    Receiver<u64, TestWaker, TestWaker, R>,
);

// A channel with room for so many messages.
fn channel<R: AllocGlobal + Wait + Clone + Drop>(
    rt: &R,
    capacity: usize,
) -> Result<Ends<R>, Fail> {
    Ok(bounded(rt.clone()?, rt.alloc(), capacity.max(1))?)
}

// So many wakers, of which none has a share of another.
fn wakers(alloc: Global, count: usize) -> Result<Vec<TestWaker>, Fail> {
    let mut wakers = Vec::new(alloc);
    for _ in 0..count {
        wakers.push(TestWaker::new(&Record::new(alloc)?)?)?;
    }
    Ok(wakers)
}

// How often each was woken.
fn wakes(alloc: Global, wakers: &[TestWaker]) -> Result<Vec<u64>, Fail> {
    let mut counts = Vec::new(alloc);
    for waker in wakers {
        counts.push(waker.record().times(Moment::WakerWake))?;
    }
    Ok(counts)
}

fn sent(answer: Result<(), Unsent<u64>>) -> Result<(), Fail> {
    answer.map_err(|_| "a message was not sent".into())
}

// Three receives of one end wait, two messages come, and the first two take them.
fn three_wait<R: AllocGlobal + Wait + Clone + Drop>(rt: &R) -> Result<[Vec<u64>; 2], Fail> {
    let (sender, receiver) = channel(rt, 2)?;
    let all = wakers(rt.alloc(), 3)?;
    let [one, two, three] = &all[..] else {
        return Err("three wakers".into());
    };
    let (mut first, mut second, mut third) =
        (receiver.receive(), receiver.receive(), receiver.receive());
    first.poll(one);
    second.poll(two);
    third.poll(three);
    sent(sender.try_send(1))?;
    sent(sender.try_send(2))?;
    let told = wakes(rt.alloc(), &all)?;
    if first.poll(one) != Poll::Ready(Some(1)) || second.poll(two) != Poll::Ready(Some(2)) {
        return Err("a message was lost".into());
    }
    Ok([told, wakes(rt.alloc(), &all)?])
}

#[test]
fn one_that_is_served_tells_nobody(rt: HostRuntime) -> Result<(), Fail> {
    let [told, served] = three_wait(&rt)?;
    assert_eq!(rt; told.as_slice(), [1, 1, 0].as_slice());
    assert_eq!(rt; served.as_slice(), [1, 1, 0].as_slice());
    Ok(())
}

// A receive waits and takes a message without having been told, and another one waits. Gives how often
// each was woken once a message has come.
fn takes_unwoken<R: AllocGlobal + Wait + Clone + Drop>(rt: &R) -> Result<Vec<u64>, Fail> {
    let (sender, receiver) = channel(rt, 2)?;
    let all = wakers(rt.alloc(), 3)?;
    let [one, two, three] = &all[..] else {
        return Err("three wakers".into());
    };
    let (mut first, mut second, mut third) =
        (receiver.receive(), receiver.receive(), receiver.receive());
    first.poll(one);
    second.poll(two);
    sent(sender.try_send(1))?;
    if second.poll(two) != Poll::Ready(Some(1)) {
        return Err("no message".into());
    }
    first.poll(one);
    third.poll(three);
    sent(sender.try_send(2))?;
    wakes(rt.alloc(), &all)
}

#[test]
fn one_that_took_a_message_waits_no_longer(rt: HostRuntime) -> Result<(), Fail> {
    assert_eq!(rt; takes_unwoken(&rt)?.as_slice(), [2, 0, 0].as_slice());
    Ok(())
}

// The same at the other side: a send that waits finds room unwoken.
fn sends_unwoken<R: AllocGlobal + Wait + Clone + Drop>(rt: &R) -> Result<Vec<u64>, Fail> {
    let (sender, receiver) = channel(rt, 1)?;
    let all = wakers(rt.alloc(), 3)?;
    let [one, two, three] = &all[..] else {
        return Err("three wakers".into());
    };
    sent(sender.try_send(1))?;
    let (mut first, mut second, mut third) = (sender.send(2), sender.send(3), sender.send(4));
    first.poll(one);
    second.poll(two);
    if receiver.try_receive() != Ok(1) || second.poll(two) != Poll::Ready(Ok(())) {
        return Err("no room".into());
    }
    first.poll(one);
    third.poll(three);
    if receiver.try_receive() != Ok(3) {
        return Err("another message".into());
    }
    wakes(rt.alloc(), &all)
}

#[test]
fn one_that_sent_waits_no_longer(rt: HostRuntime) -> Result<(), Fail> {
    assert_eq!(rt; sends_unwoken(&rt)?.as_slice(), [2, 0, 0].as_slice());
    Ok(())
}

// How many wait at an end that goes, more than a word has bits.
const MANY: usize = 65;

// So many receives wait, and the channel is closed by its last sender, or by `close`.
fn receivers_told<R: AllocGlobal + Wait + Clone + Drop>(
    rt: &R,
    by_drop: bool,
) -> Result<Vec<u64>, Fail> {
    let (sender, receiver) = channel(rt, 1)?;
    let all = wakers(rt.alloc(), MANY)?;
    let mut receives = Vec::new(rt.alloc());
    for waker in &all {
        let mut receive = receiver.receive();
        receive.poll(waker);
        if receives.push(receive).is_err() {
            return Err("no memory".into());
        }
    }
    if by_drop {
        drop(sender);
    } else if !receiver.channel().close() || sender.channel().close() {
        return Err("it was closed before".into());
    }
    wakes(rt.alloc(), &all)
}

// So many sends wait, and the last receiver goes, or the channel is closed.
fn senders_told<R: AllocGlobal + Wait + Clone + Drop>(
    rt: &R,
    by_drop: bool,
) -> Result<Vec<u64>, Fail> {
    let (sender, receiver) = channel(rt, 1)?;
    sent(sender.try_send(0))?;
    let all = wakers(rt.alloc(), MANY)?;
    let mut sends = Vec::new(rt.alloc());
    for waker in &all {
        let mut send = sender.send(1);
        send.poll(waker);
        if sends.push(send).is_err() {
            return Err("no memory".into());
        }
    }
    if by_drop {
        drop(receiver);
    } else if !sender.channel().close() {
        return Err("it was closed before".into());
    }
    wakes(rt.alloc(), &all)
}

fn are_all_one(counts: &[u64]) -> bool {
    counts.len() == MANY && counts.iter().all(|count| *count == 1)
}

#[test]
fn the_last_sender_tells_each_that_waits(rt: HostRuntime) -> Result<(), Fail> {
    assert!(rt; are_all_one(&receivers_told(&rt, true)?));
    assert!(rt; are_all_one(&receivers_told(&rt, false)?));
    Ok(())
}

#[test]
fn the_last_receiver_tells_each_that_waits(rt: HostRuntime) -> Result<(), Fail> {
    assert!(rt; are_all_one(&senders_told(&rt, true)?));
    assert!(rt; are_all_one(&senders_told(&rt, false)?));
    Ok(())
}

// What comes of a send and a receive of a closed channel with a message inside.
fn closed<R: AllocGlobal + Wait + Clone + Drop>(
    rt: &R,
) -> Result<(Poll<Result<(), u64>>, Result<(), Unsent<u64>>, [Result<u64, NoMessage>; 2]), Fail> {
    let (sender, receiver) = channel(rt, 1)?;
    let all = wakers(rt.alloc(), 1)?;
    let Some(waker) = all.first() else {
        return Err("a waker".into());
    };
    sent(sender.try_send(1))?;
    let mut send = sender.send(2);
    send.poll(waker);
    receiver.channel().close();
    let back = send.poll(waker);
    let tried = sender.try_send(3);
    Ok((back, tried, [receiver.try_receive(), receiver.try_receive()]))
}

#[test]
fn a_closed_channel_gives_what_is_inside_and_takes_nothing(rt: HostRuntime) -> Result<(), Fail> {
    let received = [Ok(1), Err(NoMessage::Closed)];
    let wanted = (Poll::Ready(Err(2)), Err(Unsent::Closed(3)), received);
    assert_eq!(rt; closed(&rt)?, wanted);
    Ok(())
}

// What a channel says of itself.
fn looks<R: Wait + Drop>(sender: &Sender<u64, TestWaker, TestWaker, R>) -> (usize, [bool; 3]) {
    let channel = sender.channel();
    (channel.len(), [channel.is_empty(), channel.is_full(), channel.is_closed()])
}

// What a channel with room for one message says: before it, with it inside, and closed.
fn says<R: AllocGlobal + Wait + Clone + Drop>(rt: &R) -> Result<[(usize, [bool; 3]); 3], Fail> {
    let (sender, receiver) = channel(rt, 1)?;
    let first = looks(&sender);
    sent(sender.try_send(1))?;
    let second = looks(&sender);
    receiver.channel().close();
    Ok([first, second, looks(&sender)])
}

#[test]
fn a_channel_says_what_is_inside_and_whether_it_is_closed(rt: HostRuntime) -> Result<(), Fail> {
    let wanted = [(0, [true, false, false]), (1, [false, true, false]), (1, [false, true, true])];
    assert_eq!(rt; says(&rt)?, wanted);
    Ok(())
}

// The counts of a channel that has taken so many messages, and its ends.
fn counts<R: AllocGlobal + Wait + Clone + Drop>(
    rt: &R,
    capacity: usize,
) -> Result<(usize, usize, bool, [usize; 2]), Fail> {
    let (sender, receiver) = channel(rt, capacity)?;
    let (second, third) = (sender.copy()?, receiver.copy()?);
    let fourth = receiver.copy()?;
    let mut count = 0;
    for number in 0..2_000 {
        if second.try_send(number).is_ok() {
            count += 1;
        }
    }
    let channel = third.channel();
    let ends = [channel.sender_count(), channel.receiver_count()];
    if channel.len() != count || channel.is_empty() || fourth.channel().is_closed() {
        return Err("another length".into());
    }
    Ok((count, channel.capacity(), channel.is_full(), ends))
}

#[test]
fn a_channel_has_room_for_as_many_as_it_was_made_for(rt: HostRuntime) -> Result<(), Fail> {
    for capacity in [1, 3, 1_001] {
        assert_eq!(rt; counts(&rt, capacity)?, (capacity, capacity, true, [2, 3]));
    }
    Ok(())
}

// An unbounded channel takes all, in order, and a send to it is ready at once.
fn takes_all<R: AllocGlobal + Wait + Clone + Drop>(rt: &R) -> Result<bool, Fail> {
    let ends: Ends<R> = unbounded(rt.clone()?, rt.alloc())?;
    let (sender, receiver) = ends;
    let all = wakers(rt.alloc(), 1)?;
    let Some(waker) = all.first() else {
        return Err("a waker".into());
    };
    for number in 0..1_000 {
        if sender.send(number).poll(waker) != Poll::Ready(Ok(())) {
            return Ok(false);
        }
    }
    for number in 0..1_000 {
        if receiver.try_receive() != Ok(number) {
            return Ok(false);
        }
    }
    Ok(receiver.try_receive() == Err(NoMessage::Empty) && !sender.channel().is_full())
}

#[test]
fn an_unbounded_channel_takes_all_in_order(rt: HostRuntime) -> Result<(), Fail> {
    assert!(rt; takes_all(&rt)?);
    Ok(())
}

// A send that waits is given up, and another one waits behind it. Gives the message, how often the
// other one was woken, and what came in the end.
fn gives_up<R: AllocGlobal + Wait + Clone + Drop>(
    rt: &R,
    told: bool,
) -> Result<(Option<u64>, Vec<u64>, bool), Fail> {
    let (sender, receiver) = channel(rt, 1)?;
    let all = wakers(rt.alloc(), 2)?;
    let [one, two] = &all[..] else {
        return Err("two wakers".into());
    };
    sent(sender.try_send(1))?;
    let (mut first, mut second) = (sender.send(2), sender.send(3));
    first.poll(one);
    second.poll(two);
    if told && receiver.try_receive() != Ok(1) {
        return Err("no message".into());
    }
    let message = first.into_message();
    let counts = wakes(rt.alloc(), &all)?;
    Ok((message, counts, second.poll(two) == Poll::Ready(Ok(()))))
}

#[test]
fn a_send_that_is_given_up_gives_its_message_back(rt: HostRuntime) -> Result<(), Fail> {
    let (message, counts, is_sent) = gives_up(&rt, true)?;
    assert_eq!(rt; (message, counts.as_slice(), is_sent), (Some(2), [1, 1].as_slice(), true));
    let (message, counts, is_sent) = gives_up(&rt, false)?;
    assert_eq!(rt; (message, counts.as_slice(), is_sent), (Some(2), [0, 0].as_slice(), false));
    Ok(())
}

// A copy of a waker is refused, at a send and at a receive. Gives what the polls answer, how often the
// waker was woken, and what the second polls answer.
fn refuses_copies<R: AllocGlobal + Wait + Clone + Drop>(
    rt: &R,
) -> Result<(bool, Vec<u64>, Option<u64>), Fail> {
    let (sender, receiver) = channel(rt, 1)?;
    let all = wakers(rt.alloc(), 2)?;
    let [one, two] = &all[..] else {
        return Err("two wakers".into());
    };
    one.record().refuse();
    two.record().refuse();
    let are_pending = receiver.receive().poll(one) == Poll::Pending;
    sent(sender.try_send(1))?;
    let mut send = sender.send(2);
    let is_kept = send.poll(two) == Poll::Pending;
    let counts = wakes(rt.alloc(), &all)?;
    Ok((are_pending && is_kept, counts, send.into_message()))
}

#[test]
fn a_refused_copy_keeps_the_message_and_asks_again(rt: HostRuntime) -> Result<(), Fail> {
    let (are_pending, counts, message) = refuses_copies(&rt)?;
    assert_eq!(rt; (are_pending, counts.as_slice(), message), (true, [1, 1].as_slice(), Some(2)));
    Ok(())
}

// A receive and a send wait, each with one waker and then with another. Gives how often each was woken once
// a message has come, and room.
fn changes_wakers<R: AllocGlobal + Wait + Clone + Drop>(rt: &R) -> Result<Vec<u64>, Fail> {
    let (sender, receiver) = channel(rt, 1)?;
    let all = wakers(rt.alloc(), 4)?;
    let [one, two, three, four] = &all[..] else {
        return Err("four wakers".into());
    };
    let mut receive = receiver.receive();
    receive.poll(one);
    receive.poll(two);
    sent(sender.try_send(1))?;
    let mut send = sender.send(2);
    send.poll(three);
    send.poll(four);
    if receiver.try_receive() != Ok(1) {
        return Err("no message".into());
    }
    wakes(rt.alloc(), &all)
}

#[test]
fn another_waker_takes_the_place_of_the_earlier_one(rt: HostRuntime) -> Result<(), Fail> {
    assert_eq!(rt; changes_wakers(&rt)?.as_slice(), [0, 1, 0, 1].as_slice());
    Ok(())
}
