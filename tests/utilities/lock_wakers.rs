//! No lock of a semaphore, a mutex, an event or a barrier is held while a waker is woken, copied or
//! dropped: the thread halts there, and another one uses what the waker waits for.
use crate::tests::support::running::halt::{Halt, is_used_meanwhile};
use crate::tests::support::running::record::{Moment, Record};
use crate::tests::support::running::waker::TestWaker;
use async_utilities::{Barrier, Event, Mutex, Semaphore};
use executor_core::task::Future;
use std::sync::Wait;
use std::test::Fail;
use std::thread::{self, Threads};

type Locks<R> = (
    Semaphore<TestWaker, R>,
    Mutex<u64, TestWaker, R>,
    Event<TestWaker, R>,
    Barrier<TestWaker, R>,
    TestWaker,
);

// A semaphore without permits, a mutex, an event and a barrier for three, and a waker of who uses them.
fn locks<R: AllocGlobal + Wait + Clone + Drop>(rt: &R) -> Result<Locks<R>, Fail> {
    let alloc = rt.alloc();
    Ok((
        Semaphore::new(rt.clone()?, alloc, 0)?,
        Mutex::new(rt.clone()?, alloc, 0)?,
        Event::new(rt.clone()?, alloc)?,
        Barrier::new(rt.clone()?, alloc, 3)?,
        quiet(rt)?,
    ))
}

fn quiet(rt: &impl AllocGlobal) -> Result<TestWaker, Fail> {
    Ok(TestWaker::new(&Record::new(rt.alloc())?)?)
}

// Takes the lock of each.
fn uses<R: Wait + Drop>(locks: &Locks<R>) {
    let (semaphore, mutex, event, barrier, waker) = locks;
    let _ = semaphore.permits();
    drop(mutex.try_lock());
    event.notify(0);
    if let Ok(mut wait) = barrier.wait() {
        wait.poll(waker);
    }
}

// Whether they can be used while another thread halts in this step.
fn are_used<R: Wait + Threads + Sync + Send + Clone + Drop>(
    rt: &R,
    halt: &Halt,
    locks: &Locks<R>,
    step: impl FnOnce() + Send,
) -> bool {
    is_used_meanwhile(rt, halt, step, || uses(locks))
}

#[test]
fn while_permits_wake(rt: HostRuntime) -> Result<(), Fail> {
    let (waker, halt) = TestWaker::halting(rt.alloc(), Moment::WakerWake)?;
    let locks = locks(&rt)?;
    let mut acquire = locks.0.acquire()?;
    drop(acquire.poll(&waker));
    assert!(rt; are_used(&rt, &halt, &locks, || {
        let _ = locks.0.add_permits(1);
    }));
    Ok(())
}

#[test]
fn while_permits_that_are_left_wake(rt: HostRuntime) -> Result<(), Fail> {
    let (waker, halt) = TestWaker::halting(rt.alloc(), Moment::WakerWake)?;
    let quiet = quiet(&rt)?;
    let locks = locks(&rt)?;
    let (mut first, mut second) = (locks.0.acquire()?, locks.0.acquire()?);
    drop(first.poll(&quiet));
    drop(second.poll(&waker));
    assert!(rt; are_used(&rt, &halt, &locks, || {
        let _ = locks.0.add_permits(2);
    }));
    Ok(())
}

#[test]
fn while_one_that_goes_leaves_its_permits(rt: HostRuntime) -> Result<(), Fail> {
    let (waker, halt) = TestWaker::halting(rt.alloc(), Moment::WakerWake)?;
    let quiet = quiet(&rt)?;
    let locks = locks(&rt)?;
    let (mut first, mut second) = (locks.0.acquire()?, locks.0.acquire()?);
    drop(first.poll(&quiet));
    drop(second.poll(&waker));
    let _ = locks.0.add_permits(1);
    assert!(rt; are_used(&rt, &halt, &locks, move || drop(first)));
    Ok(())
}

#[test]
fn while_a_guard_wakes(rt: HostRuntime) -> Result<(), Fail> {
    let (waker, halt) = TestWaker::halting(rt.alloc(), Moment::WakerWake)?;
    let locks = locks(&rt)?;
    let guard = locks.1.try_lock();
    let mut lock = locks.1.lock()?;
    drop(lock.poll(&waker));
    assert!(rt; are_used(&rt, &halt, &locks, move || drop(guard)));
    Ok(())
}

#[test]
fn while_a_lock_that_goes_wakes_the_next(rt: HostRuntime) -> Result<(), Fail> {
    let (waker, halt) = TestWaker::halting(rt.alloc(), Moment::WakerWake)?;
    let quiet = quiet(&rt)?;
    let locks = locks(&rt)?;
    let guard = locks.1.try_lock();
    let (mut first, mut second) = (locks.1.lock()?, locks.1.lock()?);
    drop(first.poll(&quiet));
    drop(second.poll(&waker));
    drop(guard);
    assert!(rt; are_used(&rt, &halt, &locks, move || drop(first)));
    Ok(())
}

#[test]
fn while_an_event_wakes(rt: HostRuntime) -> Result<(), Fail> {
    let (waker, halt) = TestWaker::halting(rt.alloc(), Moment::WakerWake)?;
    let locks = locks(&rt)?;
    let mut listener = locks.2.listen()?;
    listener.poll(&waker);
    assert!(rt; are_used(&rt, &halt, &locks, || {
        locks.2.notify_all();
    }));
    Ok(())
}

#[test]
fn while_a_listener_that_goes_wakes_the_next(rt: HostRuntime) -> Result<(), Fail> {
    let (waker, halt) = TestWaker::halting(rt.alloc(), Moment::WakerWake)?;
    let locks = locks(&rt)?;
    let (first, mut second) = (locks.2.listen()?, locks.2.listen()?);
    second.poll(&waker);
    locks.2.notify(1);
    assert!(rt; are_used(&rt, &halt, &locks, move || drop(first)));
    Ok(())
}

#[test]
fn while_the_last_at_a_barrier_wakes(rt: HostRuntime) -> Result<(), Fail> {
    let (waker, halt) = TestWaker::halting(rt.alloc(), Moment::WakerWake)?;
    let quiet = quiet(&rt)?;
    let locks = locks(&rt)?;
    let (mut first, mut second) = (locks.3.wait()?, locks.3.wait()?);
    let mut last = locks.3.wait()?;
    first.poll(&waker);
    second.poll(&quiet);
    assert!(rt; are_used(&rt, &halt, &locks, || {
        last.poll(&quiet);
    }));
    Ok(())
}

// Whether each of them can be used while a waker of its future meets this moment: as it begins to wait,
// as its waker is replaced, or as it goes.
fn are_used_at<R: AllocGlobal + Wait + Threads + Sync + Send + Clone + Drop>(
    rt: &R,
    moment: Moment,
    goes: bool,
) -> Result<[bool; 4], Fail> {
    let locks = locks(rt)?;
    let quiet = quiet(rt)?;
    let _guard = locks.1.try_lock();
    let (mut acquire, mut lock) = (locks.0.acquire()?, locks.1.lock()?);
    let (mut listener, mut wait) = (locks.2.listen()?, locks.3.wait()?);
    let (one, first) = TestWaker::halting(rt.alloc(), moment)?;
    let (two, second) = TestWaker::halting(rt.alloc(), moment)?;
    let (three, third) = TestWaker::halting(rt.alloc(), moment)?;
    let (four, fourth) = TestWaker::halting(rt.alloc(), moment)?;
    if matches!(moment, Moment::WakerCopy) {
        return Ok([
            are_used(rt, &first, &locks, || drop(acquire.poll(&one))),
            are_used(rt, &second, &locks, || drop(lock.poll(&two))),
            are_used(rt, &third, &locks, || drop(listener.poll(&three))),
            are_used(rt, &fourth, &locks, || drop(wait.poll(&four))),
        ]);
    }
    drop((acquire.poll(&one), lock.poll(&two), listener.poll(&three), wait.poll(&four)));
    if goes {
        return Ok([
            are_used(rt, &first, &locks, move || drop(acquire)),
            are_used(rt, &second, &locks, move || drop(lock)),
            are_used(rt, &third, &locks, move || drop(listener)),
            are_used(rt, &fourth, &locks, move || drop(wait)),
        ]);
    }
    Ok([
        are_used(rt, &first, &locks, || drop(acquire.poll(&quiet))),
        are_used(rt, &second, &locks, || drop(lock.poll(&quiet))),
        are_used(rt, &third, &locks, || drop(listener.poll(&quiet))),
        are_used(rt, &fourth, &locks, || drop(wait.poll(&quiet))),
    ])
}

#[test]
fn while_a_waker_that_waits_is_copied(rt: HostRuntime) -> Result<(), Fail> {
    assert_eq!(rt; are_used_at(&rt, Moment::WakerCopy, false)?, [true; 4]);
    Ok(())
}

#[test]
fn while_a_waker_that_waits_is_replaced(rt: HostRuntime) -> Result<(), Fail> {
    assert_eq!(rt; are_used_at(&rt, Moment::WakerDrop, false)?, [true; 4]);
    Ok(())
}

#[test]
fn while_a_waker_goes_with_one_that_waits(rt: HostRuntime) -> Result<(), Fail> {
    assert_eq!(rt; are_used_at(&rt, Moment::WakerDrop, true)?, [true; 4]);
    Ok(())
}

// Polls of each while another thread gives what it waits for, between its first look and its second.
#[test]
fn what_comes_while_a_waker_is_copied_is_taken(rt: HostRuntime) -> Result<(), Fail> {
    let locks = locks(&rt)?;
    let (waker, halt) = TestWaker::halting(rt.alloc(), Moment::WakerCopy)?;
    let guard = locks.1.try_lock();
    let (mut acquire, mut lock) = (locks.0.acquire()?, locks.1.lock()?);
    let (mut listener, mut wait) = (locks.2.listen()?, locks.3.wait()?);
    let quiet = quiet(&rt)?;
    let (mut before, mut other) = (locks.3.wait()?, locks.3.wait()?);
    before.poll(&quiet);
    let (are_ready, _other) = thread::join(
        &rt,
        || {
            [
                matches!(acquire.poll(&waker), executor_core::task::Poll::Ready(_)),
                matches!(lock.poll(&waker), executor_core::task::Poll::Ready(_)),
                matches!(listener.poll(&waker), executor_core::task::Poll::Ready(_)),
                matches!(wait.poll(&waker), executor_core::task::Poll::Ready(_)),
            ]
        },
        move || {
            halt.await_other();
            let _ = locks.0.add_permits(1);
            halt.release();
            halt.await_other();
            drop(guard);
            halt.release();
            halt.await_other();
            locks.2.notify(1);
            halt.release();
            halt.await_other();
            other.poll(&quiet);
            halt.open();
            // One that goes before the round is over has not come.
            other
        },
    );
    assert_eq!(rt; are_ready, [true; 4]);
    Ok(())
}
