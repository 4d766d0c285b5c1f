//! A mutex: who gets its value, in which order, and who is woken, by counts of wakes.
use crate::tests::support::running::record::{Moment, Record};
use crate::tests::support::running::waker::TestWaker;
use async_utilities::{Lock, Mutex, MutexGuard, Unavailable};
use executor_core::task::{Future, Poll};
use std::alloc::Global;
use std::sync::Wait;
use std::test::Fail;

type Locked<R> = Mutex<u64, TestWaker, R>;

fn mutex<R: AllocGlobal + Wait + Clone + Drop>(rt: &R, value: u64) -> Result<Locked<R>, Fail> {
    Ok(Mutex::new(rt.clone()?, rt.alloc(), value)?)
}

fn new_waker(alloc: Global) -> Result<TestWaker, Fail> {
    Ok(TestWaker::new(&Record::new(alloc)?)?)
}

fn wakes(waker: &TestWaker) -> u64 {
    waker.record().times(Moment::WakerWake)
}

// Its guard, if a lock is ready.
fn take<R: Wait + Drop>(
    lock: &mut Lock<u64, TestWaker, R>,
    waker: &TestWaker,
) -> Option<MutexGuard<u64, TestWaker, R>> {
    match lock.poll(waker) {
        Poll::Ready(guard) => Some(guard),
        Poll::Pending => None,
    }
}

#[test]
fn a_value_moves_into_the_guard_and_back(rt: HostRuntime) -> Result<(), Fail> {
    let mutex = mutex(&rt, 7)?;
    let other = mutex.copy()?;
    let Ok(mut guard) = mutex.try_lock() else {
        return Err("it is not locked".into());
    };
    assert_eq!(rt; *guard, 7);
    assert_eq!(rt; other.try_lock().err(), Some(Unavailable::Taken));
    *guard += 1;
    drop(guard);
    let Ok(guard) = other.try_lock() else {
        return Err("it is not locked any more".into());
    };
    assert_eq!(rt; *guard, 8);
    Ok(())
}

#[test]
fn who_waits_has_its_turn_in_order(rt: HostRuntime) -> Result<(), Fail> {
    let mutex = mutex(&rt, 0)?;
    let (one, two) = (new_waker(rt.alloc())?, new_waker(rt.alloc())?);
    let (mut first, mut second) = (mutex.lock()?, mutex.lock()?);
    let held = mutex.try_lock();
    assert!(rt; take(&mut first, &one).is_none() && take(&mut second, &two).is_none());
    drop(held);
    assert_eq!(rt; (wakes(&one), wakes(&two)), (1, 0));
    assert!(rt; mutex.try_lock().is_err() && take(&mut second, &two).is_none());
    let mut third = mutex.lock()?;
    assert!(rt; take(&mut third, &two).is_none());
    let guard = take(&mut first, &one);
    assert!(rt; guard.is_some() && take(&mut first, &one).is_none());
    drop(guard);
    assert_eq!(rt; (wakes(&one), wakes(&two)), (1, 1));
    drop(take(&mut second, &two));
    assert_eq!(rt; (wakes(&one), wakes(&two)), (1, 2));
    drop(take(&mut third, &two));
    assert!(rt; mutex.try_lock().is_ok() && wakes(&two) == 2);
    Ok(())
}

#[test]
fn one_that_has_its_turn_and_goes_leaves_it_to_the_next(rt: HostRuntime) -> Result<(), Fail> {
    let mutex = mutex(&rt, 0)?;
    let (one, two) = (new_waker(rt.alloc())?, new_waker(rt.alloc())?);
    let (mut first, mut second) = (mutex.lock()?, mutex.lock()?);
    let mut between = mutex.lock()?;
    let held = mutex.try_lock();
    assert!(rt; take(&mut first, &one).is_none());
    assert!(rt; take(&mut between, &one).is_none() && take(&mut second, &two).is_none());
    drop(between);
    drop(held);
    assert_eq!(rt; (wakes(&one), wakes(&two)), (1, 0));
    drop(first);
    assert_eq!(rt; (wakes(&one), wakes(&two)), (1, 1));
    drop(second);
    assert!(rt; mutex.try_lock().is_ok());
    Ok(())
}

#[test]
fn a_refused_copy_of_a_lock_asks_again(rt: HostRuntime) -> Result<(), Fail> {
    let mutex = mutex(&rt, 0)?;
    let waker = new_waker(rt.alloc())?;
    waker.record().refuse();
    let mut lock = mutex.lock()?;
    let held = mutex.try_lock();
    assert!(rt; take(&mut lock, &waker).is_none());
    assert_eq!(rt; wakes(&waker), 1);
    drop(held);
    assert!(rt; take(&mut lock, &waker).is_some());
    assert_eq!(rt; wakes(&waker), 1);
    Ok(())
}

#[test]
fn another_waker_of_a_lock_takes_the_place_of_the_earlier_one(
    rt: HostRuntime,
) -> Result<(), Fail> {
    let mutex = mutex(&rt, 0)?;
    let (one, two) = (new_waker(rt.alloc())?, new_waker(rt.alloc())?);
    let (mut first, mut second) = (mutex.lock()?, mutex.lock()?);
    let held = mutex.try_lock();
    assert!(rt; take(&mut first, &one).is_none() && take(&mut second, &one).is_none());
    assert!(rt; take(&mut first, &two).is_none());
    assert_eq!(rt; one.record().times(Moment::WakerDrop), 1);
    drop(held);
    assert_eq!(rt; (wakes(&one), wakes(&two)), (0, 1));
    Ok(())
}
