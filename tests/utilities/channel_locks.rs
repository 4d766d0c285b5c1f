//! No lock of a channel is held while a waker is woken, copied or dropped: the thread halts there, and
//! another one uses the same channel.
use crate::tests::support::running::halt::{Halt, is_used_meanwhile};
use crate::tests::support::running::record::{Moment, Record};
use crate::tests::support::running::waker::TestWaker;
use async_utilities::{Receiver, Sender, bounded};
use executor_core::task::Future;
use std::sync::Wait;
use std::test::Fail;
use std::thread::{self, Threads};

type Sends<R> = Sender<u64, TestWaker, TestWaker, R>;
type Receives<R> = Receiver<u64, TestWaker, TestWaker, R>;

// A channel with room for one message, which is inside if it is to be full.
fn channel<R: AllocGlobal + Wait + Clone + Drop>(
    rt: &R,
    is_full: bool,
) -> Result<(Sends<R>, Receives<R>), Fail> {
    let (sender, receiver) = bounded(rt.clone()?, rt.alloc(), 1)?;
    if is_full && sender.try_send(0).is_err() {
        return Err("no room".into());
    }
    Ok((sender, receiver))
}

// Whether the channel of a sender can be used while another thread halts in this step.
fn is_used<R: Wait + Threads + Sync + Send + Clone + Drop>(
    rt: &R,
    halt: &Halt,
    sender: &Sends<R>,
    step: impl FnOnce() + Send,
) -> bool {
    is_used_meanwhile(rt, halt, step, || {
        let _ = sender.channel().len();
    })
}

#[test]
fn while_a_message_wakes(rt: HostRuntime) -> Result<(), Fail> {
    let (waker, halt) = TestWaker::halting(rt.alloc(), Moment::WakerWake)?;
    let (sender, receiver) = channel(&rt, false)?;
    let mut receive = receiver.receive();
    receive.poll(&waker);
    assert!(rt; is_used(&rt, &halt, &sender, || {
        let _ = sender.try_send(1);
    }));
    Ok(())
}

#[test]
fn while_room_wakes(rt: HostRuntime) -> Result<(), Fail> {
    let (waker, halt) = TestWaker::halting(rt.alloc(), Moment::WakerWake)?;
    let (sender, receiver) = channel(&rt, true)?;
    let mut send = sender.send(1);
    send.poll(&waker);
    assert!(rt; is_used(&rt, &halt, &sender, || {
        let _ = receiver.try_receive();
    }));
    Ok(())
}

#[test]
fn while_a_batch_wakes(rt: HostRuntime) -> Result<(), Fail> {
    let (waker, halt) = TestWaker::halting(rt.alloc(), Moment::WakerWake)?;
    let (sender, receiver) = channel(&rt, true)?;
    let mut messages = Vec::with_capacity(rt.alloc(), 1)?;
    let mut send = sender.send(1);
    send.poll(&waker);
    assert!(rt; is_used(&rt, &halt, &sender, || {
        let _ = receiver.try_receive_many(&mut messages, 1);
    }));
    Ok(())
}

#[test]
fn while_a_close_wakes(rt: HostRuntime) -> Result<(), Fail> {
    let (waker, halt) = TestWaker::halting(rt.alloc(), Moment::WakerWake)?;
    let (sender, receiver) = channel(&rt, false)?;
    let mut receive = receiver.receive();
    receive.poll(&waker);
    assert!(rt; is_used(&rt, &halt, &sender, || {
        receiver.channel().close();
    }));
    Ok(())
}

#[test]
fn while_the_last_receiver_wakes(rt: HostRuntime) -> Result<(), Fail> {
    let (waker, halt) = TestWaker::halting(rt.alloc(), Moment::WakerWake)?;
    let (sender, receiver) = channel(&rt, true)?;
    let mut send = sender.send(1);
    send.poll(&waker);
    assert!(rt; is_used(&rt, &halt, &sender, move || drop(receiver)));
    Ok(())
}

#[test]
fn while_one_that_goes_wakes_the_next(rt: HostRuntime) -> Result<(), Fail> {
    let (waker, halt) = TestWaker::halting(rt.alloc(), Moment::WakerWake)?;
    let quiet = TestWaker::new(&Record::new(rt.alloc())?)?;
    let (sender, receiver) = channel(&rt, false)?;
    let (mut first, mut second) = (receiver.receive(), receiver.receive());
    first.poll(&quiet);
    second.poll(&waker);
    let _ = sender.try_send(1);
    assert!(rt; is_used(&rt, &halt, &sender, move || drop(first)));
    Ok(())
}

#[test]
fn while_a_waker_of_a_receive_is_copied(rt: HostRuntime) -> Result<(), Fail> {
    let (waker, halt) = TestWaker::halting(rt.alloc(), Moment::WakerCopy)?;
    let (sender, receiver) = channel(&rt, false)?;
    assert!(rt; is_used(&rt, &halt, &sender, || {
        receiver.receive().poll(&waker);
    }));
    Ok(())
}

#[test]
fn while_a_waker_of_a_send_is_copied(rt: HostRuntime) -> Result<(), Fail> {
    let (waker, halt) = TestWaker::halting(rt.alloc(), Moment::WakerCopy)?;
    let (sender, _receiver) = channel(&rt, true)?;
    assert!(rt; is_used(&rt, &halt, &sender, || {
        sender.send(1).poll(&waker);
    }));
    Ok(())
}

#[test]
fn while_a_waker_of_one_that_goes_is_dropped(rt: HostRuntime) -> Result<(), Fail> {
    let (waker, halt) = TestWaker::halting(rt.alloc(), Moment::WakerDrop)?;
    let (sender, receiver) = channel(&rt, false)?;
    let mut receive = receiver.receive();
    receive.poll(&waker);
    assert!(rt; is_used(&rt, &halt, &sender, move || drop(receive)));
    Ok(())
}

#[test]
fn while_a_waker_is_replaced(rt: HostRuntime) -> Result<(), Fail> {
    let (waker, halt) = TestWaker::halting(rt.alloc(), Moment::WakerDrop)?;
    let quiet = TestWaker::new(&Record::new(rt.alloc())?)?;
    let (sender, _receiver) = channel(&rt, true)?;
    let mut send = sender.send(1);
    send.poll(&waker);
    assert!(rt; is_used(&rt, &halt, &sender, || {
        send.poll(&quiet);
    }));
    Ok(())
}

#[test]
fn while_a_waker_of_one_that_is_served_is_dropped(rt: HostRuntime) -> Result<(), Fail> {
    let (waker, halt) = TestWaker::halting(rt.alloc(), Moment::WakerDrop)?;
    let quiet = TestWaker::new(&Record::new(rt.alloc())?)?;
    let (sender, receiver) = channel(&rt, false)?;
    let (mut first, mut second) = (receiver.receive(), receiver.receive());
    first.poll(&quiet);
    second.poll(&waker);
    let _ = sender.try_send(1);
    assert!(rt; is_used(&rt, &halt, &sender, || {
        second.poll(&quiet);
    }));
    Ok(())
}

// A waker whose copy lets the other thread take the lock meanwhile: the message comes between the
// first look and the second.
#[test]
fn a_message_that_comes_while_a_waker_is_copied_is_taken(rt: HostRuntime) -> Result<(), Fail> {
    let (waker, halt) = TestWaker::halting(rt.alloc(), Moment::WakerCopy)?;
    let (sender, receiver) = channel(&rt, false)?;
    let (message, ()) = thread::join(
        &rt,
        || receiver.receive().poll(&waker),
        || {
            halt.await_other();
            let _ = sender.try_send(7);
            halt.open();
        },
    );
    assert_eq!(rt; message, executor_core::task::Poll::Ready(Some(7)));
    Ok(())
}

#[test]
fn a_close_that_comes_while_a_waker_is_copied_is_seen(rt: HostRuntime) -> Result<(), Fail> {
    let (waker, halt) = TestWaker::halting(rt.alloc(), Moment::WakerCopy)?;
    let (sender, receiver) = channel(&rt, true)?;
    let (answer, ()) = thread::join(
        &rt,
        || sender.send(7).poll(&waker),
        || {
            halt.await_other();
            receiver.channel().close();
            halt.open();
        },
    );
    assert_eq!(rt; answer, executor_core::task::Poll::Ready(Err(7)));
    Ok(())
}
