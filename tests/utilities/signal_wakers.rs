//! No lock of a signal is held while a waker is woken, copied or dropped: the thread halts there, and
//! another one uses the same signal.
use crate::tests::support::running::halt::{Halt, is_used_meanwhile};
use crate::tests::support::running::record::{Moment, Record};
use crate::tests::support::running::waker::TestWaker;
use async_utilities::{Signal, Waiting};
use executor_core::task::{Future, Poll};
use std::sync::Wait;
use std::test::Fail;
use std::thread::{self, Threads};

// A signal, and one that waits for it.
fn signal<R: AllocGlobal + Wait + Clone + Drop>(
    rt: &R,
) -> Result<(Signal<TestWaker, R>, Waiting<TestWaker, R>), Fail> {
    let signal = Signal::new(rt.clone()?, rt.alloc())?;
    let waiting = signal.waiting()?;
    Ok((signal, waiting))
}

// Whether a signal can be used while another thread halts in this step.
fn is_used<R: Wait + Threads + Sync + Send + Clone + Drop>(
    rt: &R,
    halt: &Halt,
    signal: &Signal<TestWaker, R>,
    step: impl FnOnce() + Send,
) -> bool {
    is_used_meanwhile(rt, halt, step, || {
        let _ = signal.is_set();
    })
}

#[test]
fn while_a_signal_wakes(rt: HostRuntime) -> Result<(), Fail> {
    let (waker, halt) = TestWaker::halting(rt.alloc(), Moment::WakerWake)?;
    let (signal, mut waiting) = signal(&rt)?;
    waiting.poll(&waker);
    assert!(rt; is_used(&rt, &halt, &signal, || signal.set()));
    Ok(())
}

#[test]
fn while_a_waker_is_copied(rt: HostRuntime) -> Result<(), Fail> {
    let (waker, halt) = TestWaker::halting(rt.alloc(), Moment::WakerCopy)?;
    let (signal, mut waiting) = signal(&rt)?;
    assert!(rt; is_used(&rt, &halt, &signal, || drop(waiting.poll(&waker))));
    Ok(())
}

#[test]
fn while_a_waker_is_replaced(rt: HostRuntime) -> Result<(), Fail> {
    let (waker, halt) = TestWaker::halting(rt.alloc(), Moment::WakerDrop)?;
    let quiet = TestWaker::new(&Record::new(rt.alloc())?)?;
    let (signal, mut waiting) = signal(&rt)?;
    waiting.poll(&waker);
    assert!(rt; is_used(&rt, &halt, &signal, || drop(waiting.poll(&quiet))));
    Ok(())
}

#[test]
fn while_a_waker_goes_with_one_that_waits(rt: HostRuntime) -> Result<(), Fail> {
    let (waker, halt) = TestWaker::halting(rt.alloc(), Moment::WakerDrop)?;
    let (signal, mut waiting) = signal(&rt)?;
    waiting.poll(&waker);
    assert!(rt; is_used(&rt, &halt, &signal, move || drop(waiting)));
    Ok(())
}

#[test]
fn a_signal_that_is_set_while_a_waker_is_copied_is_seen(rt: HostRuntime) -> Result<(), Fail> {
    let (waker, halt) = TestWaker::halting(rt.alloc(), Moment::WakerCopy)?;
    let (signal, mut waiting) = signal(&rt)?;
    let (answer, ()) = thread::join(
        &rt,
        || waiting.poll(&waker),
        || {
            halt.await_other();
            signal.set();
            halt.open();
        },
    );
    assert_eq!(rt; answer, Poll::Ready(()));
    Ok(())
}
