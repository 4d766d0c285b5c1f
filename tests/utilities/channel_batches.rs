//! Many messages that are taken at once: how many, in which order, and whom that wakes.
use crate::tests::support::running::record::{Moment, Record};
use crate::tests::support::running::waker::TestWaker;
use async_utilities::{NoMessage, Receiver, Sender, bounded};
use executor_core::task::{Future, Poll};
use std::alloc::Global;
use std::sync::Wait;
use std::test::Fail;

type Sends<R> = Sender<u64, TestWaker, TestWaker, R>;
type Receives<R> = Receiver<u64, TestWaker, TestWaker, R>;

// A channel with room for so many messages, which is full: of 0, 1 and so on.
fn full<R: AllocGlobal + Wait + Clone + Drop>(
    rt: &R,
    capacity: usize,
) -> Result<(Sends<R>, Receives<R>), Fail> {
    let (sender, receiver) = bounded(rt.clone()?, rt.alloc(), capacity.max(1))?;
    for number in 0..capacity as u64 {
        if sender.try_send(number).is_err() {
            return Err("no room".into());
        }
    }
    Ok((sender, receiver))
}

// A list of one number with room for so many more.
fn list(alloc: Global, room: usize) -> Result<Vec<u64>, Fail> {
    let mut list = Vec::with_capacity(alloc, room + 1)?;
    list.push(7)?;
    Ok(list)
}

// How many messages are inside, how many are taken at most, for how many there is room, what came of it,
// and what stands in the list then.
type Line = (usize, usize, usize, Result<usize, NoMessage>, &'static [u64]);

const LINES: [Line; 7] = [
    (3, 2, 9, Ok(2), &[7, 0, 1]),
    (3, 3, 9, Ok(3), &[7, 0, 1, 2]),
    (3, 9, 9, Ok(3), &[7, 0, 1, 2]),
    (3, 9, 2, Ok(2), &[7, 0, 1]),
    (3, 9, 0, Ok(0), &[7]),
    (3, 0, 9, Ok(0), &[7]),
    (0, 9, 9, Err(NoMessage::Empty), &[7]),
];

// Whether what is left comes out in its order, so that nothing is lost.
fn is_left<R: Wait + Drop>(receiver: &Receives<R>, from: usize, end: usize) -> bool {
    (from..end).all(|number| receiver.try_receive() == Ok(number as u64))
}

#[test]
fn a_batch_has_as_many_as_there_are_and_as_fit(rt: HostRuntime) -> Result<(), Fail> {
    for (inside, most, room, answer, wanted) in LINES {
        let (_sender, receiver) = full(&rt, inside)?;
        let mut taken = list(rt.alloc(), room)?;
        let capacity = taken.capacity();
        assert_eq!(rt; receiver.try_receive_many(&mut taken, most), answer);
        assert_eq!(rt; taken.as_slice(), wanted);
        assert!(rt; is_left(&receiver, answer.unwrap_or(0), inside));
        assert_eq!(rt; taken.capacity(), capacity);
    }
    Ok(())
}

#[test]
fn a_batch_of_a_closed_channel_is_what_is_inside(rt: HostRuntime) -> Result<(), Fail> {
    let (sender, receiver) = full(&rt, 2)?;
    drop(sender);
    let mut taken = list(rt.alloc(), 4)?;
    assert_eq!(rt; receiver.try_receive_many(&mut taken, 4), Ok(2));
    assert_eq!(rt; receiver.try_receive_many(&mut taken, 4), Err(NoMessage::Closed));
    assert_eq!(rt; taken.as_slice(), [7, 0, 1].as_slice());
    Ok(())
}

// Three sends wait at a channel of three messages. Gives how often each was woken after so many were
// taken at once, and how many came.
fn wakes<R: AllocGlobal + Wait + Clone + Drop>(
    rt: &R,
    most: usize,
) -> Result<([u64; 3], Result<usize, NoMessage>), Fail> {
    let new_waker = || -> Result<TestWaker, Fail> { Ok(TestWaker::new(&Record::new(rt.alloc())?)?) };
    let wakers = [new_waker()?, new_waker()?, new_waker()?];
    let (sender, receiver) = full(rt, 3)?;
    let mut sends = [sender.send(3), sender.send(4), sender.send(5)];
    for (send, waker) in sends.iter_mut().zip(&wakers) {
        if send.poll(waker) != Poll::Pending {
            return Err("there is room".into());
        }
    }
    let mut taken = list(rt.alloc(), 8)?;
    let answer = receiver.try_receive_many(&mut taken, most);
    let times = |one: usize| wakers[one % 3].record().times(Moment::WakerWake);
    Ok(([times(0), times(1), times(2)], answer))
}

#[test]
fn a_batch_wakes_a_sender_for_each_message(rt: HostRuntime) -> Result<(), Fail> {
    assert_eq!(rt; wakes(&rt, 1)?, ([1, 0, 0], Ok(1)));
    assert_eq!(rt; wakes(&rt, 2)?, ([1, 1, 0], Ok(2)));
    assert_eq!(rt; wakes(&rt, 8)?, ([1, 1, 1], Ok(3)));
    Ok(())
}
