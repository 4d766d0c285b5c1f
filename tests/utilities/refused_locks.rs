//! Each request for memory of a lock refused in turn: nothing is lost, and the same call goes well
//! afterwards.
use crate::tests::support::running::record::{Moment, Record};
use crate::tests::support::running::refusal::{MOST, is_order_left, refuse};
use crate::tests::support::running::waker::TestWaker;
use async_utilities::{Barrier, Event, Mutex, OnceCell, Semaphore};
use executor_core::task::{Future, Poll};
use std::alloc::Global;
use std::sync::Wait;
use std::test::Fail;

fn new_waker(alloc: Global) -> Result<TestWaker, Fail> {
    Ok(TestWaker::new(&Record::new(alloc)?)?)
}

fn wakes(waker: &TestWaker) -> u64 {
    waker.record().times(Moment::WakerWake)
}

// Makes each of them with this request refused. Gives how many were refused.
fn made_refused<R: AllocGlobal + Wait + Clone + Drop>(
    rt: &R,
    request: usize,
) -> Result<u64, Fail> {
    let alloc = rt.alloc();
    let rights = [rt.clone()?, rt.clone()?, rt.clone()?, rt.clone()?];
    let [one, two, three, four] = rights;
    refuse(alloc, request);
    let semaphore: Result<Semaphore<TestWaker, R>, _> = Semaphore::new(one, alloc, 1);
    let mutex: Result<Mutex<u64, TestWaker, R>, _> = Mutex::new(two, alloc, 1);
    let event: Result<Event<TestWaker, R>, _> = Event::new(three, alloc);
    let barrier: Result<Barrier<TestWaker, R>, _> = Barrier::new(four, alloc, 1);
    let cell: Result<OnceCell<u64, TestWaker, R>, _> = OnceCell::new(rt, alloc);
    let listener = match &event {
        Ok(event) => Some(event.listen().is_err()),
        Err(_) => None,
    };
    refuse(alloc, 0);
    let are_refused = [
        semaphore.is_err(),
        mutex.is_err(),
        event.is_err(),
        barrier.is_err(),
        cell.is_err(),
        listener == Some(true),
    ];
    if let Ok(event) = &event {
        if event.notify_all() != u64::from(listener == Some(false)) as usize {
            let _ = event.listen()?;
        }
    }
    Ok(are_refused.iter().map(|is_refused| u64::from(*is_refused)).sum())
}

#[test]
fn each_lock_is_refused_alone(rt: HostRuntime) -> Result<(), Fail> {
    let mut refusals = 0;
    for request in 1..=MOST {
        let count = made_refused(&rt, request)?;
        assert!(rt; count <= 1);
        refusals += count;
    }
    assert!(rt; 6 <= refusals && refusals < MOST as u64);
    Ok(())
}

// Polls until it waits, with the first request refused. Gives whether that was refused, and asked again.
fn waits_refused(
    alloc: Global,
    waker: &TestWaker,
    mut poll: impl FnMut(&TestWaker) -> bool,
) -> Result<bool, Fail> {
    let before = wakes(waker);
    refuse(alloc, 1);
    let is_ready = poll(waker);
    let was_refused = !is_order_left(alloc);
    refuse(alloc, 0);
    if is_ready || wakes(waker) != before + u64::from(was_refused) {
        return Err("a refusal asked for nothing".into());
    }
    if poll(waker) || wakes(waker) != before + u64::from(was_refused) {
        return Err("it does not wait".into());
    }
    Ok(was_refused)
}

#[test]
fn one_without_a_place_asks_again_and_keeps_its_turn(rt: HostRuntime) -> Result<(), Fail> {
    let semaphore: Semaphore<TestWaker, HostRuntime> =
        Semaphore::new(rt.clone()?, rt.alloc(), 0)?;
    let waker = new_waker(rt.alloc())?;
    let mut acquires = Vec::with_capacity(rt.alloc(), 20)?;
    let mut refusals = 0;
    for _ in 0..20 {
        let mut acquire = semaphore.acquire()?;
        let was_refused = waits_refused(rt.alloc(), &waker, |waker| {
            matches!(acquire.poll(waker), Poll::Ready(_))
        })?;
        refusals += u64::from(was_refused);
        assert!(rt; acquires.push(acquire).is_ok());
    }
    assert!(rt; 0 < refusals);
    let before = wakes(&waker);
    refuse(rt.alloc(), 1);
    let is_added = semaphore.add_permits(20).is_ok();
    for mut acquire in acquires {
        assert!(rt; matches!(acquire.poll(&waker), Poll::Ready(_)));
    }
    assert!(rt; is_added && is_order_left(rt.alloc()));
    assert_eq!(rt; (wakes(&waker), semaphore.permits()), (before + 20, 20));
    Ok(())
}

#[test]
fn a_lock_and_a_wait_without_a_place_ask_again(rt: HostRuntime) -> Result<(), Fail> {
    let mutex: Mutex<u64, TestWaker, HostRuntime> = Mutex::new(rt.clone()?, rt.alloc(), 7)?;
    let barrier: Barrier<TestWaker, HostRuntime> = Barrier::new(rt.clone()?, rt.alloc(), 2)?;
    let waker = new_waker(rt.alloc())?;
    let guard = mutex.try_lock();
    let (mut lock, mut wait) = (mutex.lock()?, barrier.wait()?);
    assert!(rt; waits_refused(rt.alloc(), &waker, |waker| {
        matches!(lock.poll(waker), Poll::Ready(_))
    })?);
    assert!(rt; waits_refused(rt.alloc(), &waker, |waker| {
        matches!(wait.poll(waker), Poll::Ready(_))
    })?);
    let mut last = barrier.wait()?;
    let before = wakes(&waker);
    refuse(rt.alloc(), 1);
    drop(guard);
    let has_led = matches!(last.poll(&waker), Poll::Ready(result) if result.is_leader());
    assert!(rt; has_led && is_order_left(rt.alloc()));
    assert_eq!(rt; wakes(&waker), before + 2);
    assert!(rt; matches!(lock.poll(&waker), Poll::Ready(guard) if *guard == 7));
    assert!(rt; matches!(wait.poll(&waker), Poll::Ready(result) if !result.is_leader()));
    Ok(())
}

// A wake of each takes no memory, and once the tables have grown nor does one that waits.
#[test]
fn a_place_that_was_given_back_takes_no_memory(rt: HostRuntime) -> Result<(), Fail> {
    let event: Event<TestWaker, HostRuntime> = Event::new(rt.clone()?, rt.alloc())?;
    let waker = new_waker(rt.alloc())?;
    let mut first = event.listen()?;
    first.poll(&waker);
    refuse(rt.alloc(), 1);
    let told = event.notify_all();
    let is_told = first.poll(&waker) == Poll::Ready(());
    let second = event.listen();
    let is_left = is_order_left(rt.alloc());
    assert!(rt; told == 1 && is_told && second.is_ok() && is_left);
    Ok(())
}
