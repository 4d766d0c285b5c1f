//! A semaphore: who gets its permits, in which order, and who is woken, by counts of wakes.
use crate::tests::support::running::record::{Moment, Record};
use crate::tests::support::running::waker::TestWaker;
use async_utilities::{Acquire, Semaphore, SemaphoreGuard, TooManyPermits, Unavailable};
use executor_core::task::{Future, Poll};
use std::alloc::Global;
use std::sync::Wait;
use std::test::Fail;

type Permits<R> = Semaphore<TestWaker, R>;

fn semaphore<R: AllocGlobal + Wait + Clone + Drop>(
    rt: &R,
    permits: usize,
) -> Result<Permits<R>, Fail> {
    Ok(Semaphore::new(rt.clone()?, rt.alloc(), permits)?)
}

fn new_waker(alloc: Global) -> Result<TestWaker, Fail> {
    Ok(TestWaker::new(&Record::new(alloc)?)?)
}

fn wakes(waker: &TestWaker) -> u64 {
    waker.record().times(Moment::WakerWake)
}

// One that waits for so many permits, with its waker.
struct One<R: Wait + Drop> {
    acquire: Acquire<TestWaker, R>,
    waker: TestWaker,
}

impl<R: Wait + Drop> One<R> {
    // Begins to wait, and fails if it does not have to.
    fn waits(alloc: Global, permits: &Permits<R>, count: usize) -> Result<One<R>, Fail> {
        let mut acquire = permits.acquire_many(count)?;
        let waker = new_waker(alloc)?;
        if !matches!(acquire.poll(&waker), Poll::Pending) {
            return Err("it does not wait".into());
        }
        Ok(One { acquire, waker })
    }

    fn wakes(&self) -> u64 {
        wakes(&self.waker)
    }

    // Polls it once more: its permits, if it has them.
    fn take(&mut self) -> Option<SemaphoreGuard<TestWaker, R>> {
        match self.acquire.poll(&self.waker) {
            Poll::Ready(guard) => Some(guard),
            Poll::Pending => None,
        }
    }
}

impl<R: Wait + Drop> Drop for One<R> {
    fn drop(self) {
        let One { acquire, waker } = self;
        drop(acquire);
        drop(waker);
    }
}

#[test]
fn permits_are_taken_and_given_back(rt: HostRuntime) -> Result<(), Fail> {
    let permits = semaphore(&rt, 3)?;
    let Ok(two) = permits.try_acquire_many(2) else {
        return Err("two permits".into());
    };
    assert_eq!(rt; (two.permits(), permits.permits()), (2, 1));
    assert_eq!(rt; permits.try_acquire_many(2).err(), Some(Unavailable::Taken));
    let one = permits.try_acquire();
    assert!(rt; one.is_ok());
    assert_eq!(rt; permits.try_acquire().err(), Some(Unavailable::Taken));
    assert!(rt; permits.try_acquire_many(0).is_ok());
    drop(two);
    assert_eq!(rt; permits.permits(), 2);
    drop(one);
    assert_eq!(rt; permits.permits(), 3);
    Ok(())
}

#[test]
fn who_waits_is_served_in_order_and_woken_once(rt: HostRuntime) -> Result<(), Fail> {
    let permits = semaphore(&rt, 1)?;
    let held = permits.try_acquire();
    let mut first = One::waits(rt.alloc(), &permits, 1)?;
    let mut second = One::waits(rt.alloc(), &permits, 1)?;
    drop(held);
    assert_eq!(rt; (first.wakes(), second.wakes()), (1, 0));
    assert!(rt; permits.try_acquire().is_err());
    assert!(rt; second.take().is_none());
    let guard = first.take();
    assert!(rt; guard.is_some());
    assert_eq!(rt; (first.wakes(), second.wakes(), permits.permits()), (1, 0, 0));
    drop(guard);
    assert!(rt; second.take().is_some());
    assert_eq!(rt; (first.wakes(), second.wakes(), permits.permits()), (1, 1, 1));
    Ok(())
}

#[test]
fn one_that_wants_many_is_not_overtaken(rt: HostRuntime) -> Result<(), Fail> {
    let permits = semaphore(&rt, 3)?;
    let held = permits.try_acquire_many(2);
    let mut large = One::waits(rt.alloc(), &permits, 3)?;
    let mut small = One::waits(rt.alloc(), &permits, 1)?;
    assert_eq!(rt; permits.permits(), 1);
    assert!(rt; permits.try_acquire().is_err());
    assert!(rt; small.take().is_none() && large.take().is_none());
    drop(held);
    assert_eq!(rt; (large.wakes(), small.wakes()), (1, 0));
    let all = large.take();
    assert_eq!(rt; all.as_ref().map(|guard| guard.permits()), Some(3));
    drop(all);
    assert_eq!(rt; (large.wakes(), small.wakes()), (1, 1));
    assert!(rt; small.take().is_some());
    Ok(())
}

#[test]
fn permits_that_come_together_serve_all_that_they_are_enough_for(
    rt: HostRuntime,
) -> Result<(), Fail> {
    let permits = semaphore(&rt, 0)?;
    let mut first = One::waits(rt.alloc(), &permits, 2)?;
    let mut second = One::waits(rt.alloc(), &permits, 3)?;
    let mut third = One::waits(rt.alloc(), &permits, 4)?;
    assert_eq!(rt; permits.add_permits(7), Ok(()));
    assert_eq!(rt; (first.wakes(), second.wakes(), third.wakes()), (1, 1, 0));
    assert_eq!(rt; permits.permits(), 2);
    assert!(rt; first.take().is_some() && second.take().is_some());
    assert_eq!(rt; third.wakes(), 1);
    let guard = third.take();
    assert_eq!(rt; (guard.is_some(), permits.permits()), (true, 3));
    drop(guard);
    assert_eq!(rt; permits.permits(), 7);
    Ok(())
}

// What one that goes leaves to the next one: it waited alone, or was woken.
#[test]
fn one_that_goes_leaves_its_permits_to_the_next_ones(rt: HostRuntime) -> Result<(), Fail> {
    let permits = semaphore(&rt, 2)?;
    let held = permits.try_acquire_many(2);
    let large = One::waits(rt.alloc(), &permits, 2)?;
    let mut second = One::waits(rt.alloc(), &permits, 1)?;
    let mut third = One::waits(rt.alloc(), &permits, 1)?;
    drop(held);
    assert_eq!(rt; (large.wakes(), second.wakes(), third.wakes()), (1, 0, 0));
    drop(large);
    assert_eq!(rt; (second.wakes(), third.wakes()), (1, 1));
    let both = (second.take(), third.take());
    assert!(rt; both.0.is_some() && both.1.is_some() && permits.permits() == 0);
    drop(both);
    assert_eq!(rt; permits.permits(), 2);
    Ok(())
}

#[test]
fn one_that_waits_and_goes_lets_the_next_ones_have_what_is_there(
    rt: HostRuntime,
) -> Result<(), Fail> {
    let permits = semaphore(&rt, 3)?;
    let held = permits.try_acquire();
    let large = One::waits(rt.alloc(), &permits, 3)?;
    let mut second = One::waits(rt.alloc(), &permits, 1)?;
    let mut third = One::waits(rt.alloc(), &permits, 1)?;
    let fourth = One::waits(rt.alloc(), &permits, 1)?;
    drop(large);
    assert_eq!(rt; (second.wakes(), third.wakes(), fourth.wakes()), (1, 1, 0));
    assert!(rt; second.take().is_some() && third.take().is_some() && fourth.wakes() == 1);
    drop(fourth);
    drop(held);
    assert_eq!(rt; permits.permits(), 3);
    Ok(())
}

#[test]
fn another_waker_takes_the_place_of_the_earlier_one(rt: HostRuntime) -> Result<(), Fail> {
    let permits = semaphore(&rt, 0)?;
    let (earlier, later) = (new_waker(rt.alloc())?, new_waker(rt.alloc())?);
    let mut acquire = permits.acquire()?;
    acquire.poll(&earlier);
    acquire.poll(&later);
    assert_eq!(rt; earlier.record().times(Moment::WakerDrop), 1);
    let second = One::waits(rt.alloc(), &permits, 1)?;
    assert_eq!(rt; permits.add_permits(1), Ok(()));
    assert_eq!(rt; (wakes(&earlier), wakes(&later), second.wakes()), (0, 1, 0));
    let guard = acquire.poll(&earlier);
    assert!(rt; matches!(&guard, Poll::Ready(_)));
    assert!(rt; matches!(acquire.poll(&later), Poll::Pending));
    drop(acquire);
    drop(guard);
    assert_eq!(rt; second.wakes(), 1);
    Ok(())
}

#[test]
fn a_refused_copy_of_an_acquire_asks_again(rt: HostRuntime) -> Result<(), Fail> {
    let permits = semaphore(&rt, 0)?;
    let waker = new_waker(rt.alloc())?;
    waker.record().refuse();
    let mut acquire = permits.acquire()?;
    assert!(rt; matches!(acquire.poll(&waker), Poll::Pending));
    assert_eq!(rt; wakes(&waker), 1);
    assert_eq!(rt; permits.add_permits(1), Ok(()));
    assert!(rt; matches!(acquire.poll(&waker), Poll::Ready(_)));
    assert_eq!(rt; (wakes(&waker), permits.permits()), (1, 1));
    Ok(())
}

#[test]
fn permits_that_cannot_be_counted_are_not_added(rt: HostRuntime) -> Result<(), Fail> {
    let permits = semaphore(&rt, 2)?;
    let held = permits.try_acquire();
    assert_eq!(rt; permits.add_permits(usize::MAX - 2), Ok(()));
    assert_eq!(rt; permits.add_permits(1), Err(TooManyPermits));
    assert_eq!(rt; permits.permits(), usize::MAX - 1);
    drop(held);
    assert_eq!(rt; permits.permits(), usize::MAX);
    let all = permits.copy()?.try_acquire_many(usize::MAX);
    assert!(rt; all.is_ok() && permits.permits() == 0);
    Ok(())
}
