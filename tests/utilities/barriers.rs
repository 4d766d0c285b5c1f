//! A barrier, and a cell that is written once.
use crate::tests::support::running::record::{Moment, Record};
use crate::tests::support::running::waker::TestWaker;
use async_utilities::{Barrier, BarrierWait, OnceCell, Ready, YieldNow};
use executor_core::task::{Future, Poll};
use std::alloc::Global;
use std::sync::Wait;
use std::test::Fail;

fn new_waker(alloc: Global) -> Result<TestWaker, Fail> {
    Ok(TestWaker::new(&Record::new(alloc)?)?)
}

fn wakes(waker: &TestWaker) -> u64 {
    waker.record().times(Moment::WakerWake)
}

// Whether it is over, and if so whether it led.
fn led<R: Wait + Drop>(wait: &mut BarrierWait<TestWaker, R>, waker: &TestWaker) -> Option<bool> {
    match wait.poll(waker) {
        Poll::Ready(result) => Some(result.is_leader()),
        Poll::Pending => None,
    }
}

// So many come, again and again. Gives how many led, and how often each was woken.
fn rounds<R: AllocGlobal + Wait + Clone + Drop>(
    rt: &R,
    size: usize,
) -> Result<(u64, u64), Fail> {
    let barrier: Barrier<TestWaker, R> = Barrier::new(rt.clone()?, rt.alloc(), size.max(1))?;
    let waker = new_waker(rt.alloc())?;
    let mut leaders = 0;
    for _ in 0..5 {
        let mut waits = Vec::new(rt.alloc());
        for number in 1..=size {
            let mut wait = barrier.copy()?.wait()?;
            let answer = led(&mut wait, &waker);
            if answer.is_some() != (number == size) || waits.push(wait).is_err() {
                return Err("it waits for others".into());
            }
            leaders += answer.map_or(0, |is_leader| u64::from(is_leader));
        }
        for (number, mut wait) in waits.into_iter().enumerate() {
            if led(&mut wait, &waker) != Some(number + 1 == size) {
                return Err("its round is over".into());
            }
        }
    }
    Ok((leaders, wakes(&waker)))
}

#[test]
fn the_last_of_each_round_leads(rt: HostRuntime) -> Result<(), Fail> {
    assert_eq!(rt; rounds(&rt, 1)?, (5, 0));
    assert_eq!(rt; rounds(&rt, 2)?, (5, 5));
    assert_eq!(rt; rounds(&rt, 70)?, (5, 345));
    Ok(())
}

#[test]
fn one_that_goes_has_not_come(rt: HostRuntime) -> Result<(), Fail> {
    let barrier: Barrier<TestWaker, HostRuntime> = Barrier::new(rt.clone()?, rt.alloc(), 2)?;
    let waker = new_waker(rt.alloc())?;
    let mut first = barrier.wait()?;
    assert_eq!(rt; led(&mut first, &waker), None);
    drop(first);
    let (mut second, mut third) = (barrier.wait()?, barrier.wait()?);
    assert_eq!(rt; (led(&mut second, &waker), wakes(&waker)), (None, 0));
    assert_eq!(rt; (led(&mut third, &waker), wakes(&waker)), (Some(true), 1));
    drop(second);
    let mut fourth = barrier.wait()?;
    assert_eq!(rt; led(&mut fourth, &waker), None);
    let mut fifth = barrier.wait()?;
    assert_eq!(rt; led(&mut fifth, &waker), Some(true));
    assert_eq!(rt; (led(&mut fourth, &waker), led(&mut third, &waker)), (Some(false), Some(true)));
    Ok(())
}

#[test]
fn a_refused_copy_of_a_wait_asks_again(rt: HostRuntime) -> Result<(), Fail> {
    let barrier: Barrier<TestWaker, HostRuntime> = Barrier::new(rt.clone()?, rt.alloc(), 2)?;
    let (refusing, waker) = (new_waker(rt.alloc())?, new_waker(rt.alloc())?);
    refusing.record().refuse();
    let (mut first, mut second) = (barrier.wait()?, barrier.wait()?);
    assert_eq!(rt; (led(&mut first, &refusing), wakes(&refusing)), (None, 1));
    assert_eq!(rt; led(&mut second, &waker), None);
    assert_eq!(rt; (led(&mut first, &waker), wakes(&waker)), (Some(true), 1));
    assert_eq!(rt; led(&mut second, &refusing), Some(false));
    Ok(())
}

#[test]
fn one_that_waits_on_is_woken_by_its_last_waker(rt: HostRuntime) -> Result<(), Fail> {
    let barrier: Barrier<TestWaker, HostRuntime> = Barrier::new(rt.clone()?, rt.alloc(), 2)?;
    let (one, two) = (new_waker(rt.alloc())?, new_waker(rt.alloc())?);
    let (mut first, mut second) = (barrier.wait()?, barrier.wait()?);
    assert_eq!(rt; (led(&mut first, &one), led(&mut first, &two)), (None, None));
    assert_eq!(rt; one.record().times(Moment::WakerDrop), 1);
    assert_eq!(rt; led(&mut second, &one), Some(true));
    assert_eq!(rt; (wakes(&one), wakes(&two)), (0, 1));
    Ok(())
}

#[test]
fn a_cell_is_written_once_and_wakes_who_waits(rt: HostRuntime) -> Result<(), Fail> {
    let cell: OnceCell<u64, TestWaker, HostRuntime> = OnceCell::new(&rt, rt.alloc())?;
    let waker = new_waker(rt.alloc())?;
    let mut waiting = cell.wait()?;
    assert_eq!(rt; waiting.poll(&waker), Poll::Pending);
    assert!(rt; !cell.is_initialized() && cell.get().is_none());
    assert_eq!(rt; cell.copy()?.set(7), Ok(()));
    assert_eq!(rt; cell.set(8), Err(8));
    assert_eq!(rt; (cell.get(), wakes(&waker)), (Some(&7), 1));
    assert_eq!(rt; waiting.poll(&waker), Poll::Ready(()));
    assert!(rt; cell.is_initialized());
    let Ok(mut made) = cell.get_or_init(Ready::new(9)) else {
        return Err("no memory".into());
    };
    assert_eq!(rt; made.poll(&waker), Poll::Ready(false));
    assert_eq!(rt; cell.get(), Some(&7));
    Ok(())
}

// A future that yields once, and gives a number then.
struct Slow {
    first: YieldNow,
    value: u64,
}

impl Drop for Slow {
    fn drop(self) {
        let Slow { first, value: _ } = self;
        drop(first);
    }
}

impl Future<TestWaker> for Slow {
    type Output = u64;

    fn poll(&mut self, w: &TestWaker) -> Poll<u64> {
        match self.first.poll(w) {
            Poll::Ready(()) => Poll::Ready(self.value),
            Poll::Pending => Poll::Pending,
        }
    }
}

fn slow(value: u64) -> Slow {
    let first = YieldNow::new();
    Slow { first, value }
}

#[test]
fn one_at_a_time_makes_the_value(rt: HostRuntime) -> Result<(), Fail> {
    let cell: OnceCell<u64, TestWaker, HostRuntime> = OnceCell::new(&rt, rt.alloc())?;
    let (one, two, three) =
        (new_waker(rt.alloc())?, new_waker(rt.alloc())?, new_waker(rt.alloc())?);
    let all = (cell.get_or_init(slow(1)), cell.get_or_init(slow(2)), cell.get_or_init(slow(3)));
    let (Ok(mut first), Ok(mut second), Ok(mut third)) = all else {
        return Err("no memory".into());
    };
    assert_eq!(rt; (first.poll(&one), wakes(&one)), (Poll::Pending, 1));
    assert_eq!(rt; (second.poll(&two), wakes(&two)), (Poll::Pending, 0));
    assert_eq!(rt; (third.poll(&three), wakes(&three)), (Poll::Pending, 0));
    drop(first);
    assert_eq!(rt; (wakes(&two), wakes(&three)), (1, 0));
    assert_eq!(rt; (second.poll(&two), wakes(&two)), (Poll::Pending, 2));
    assert_eq!(rt; (second.poll(&two), wakes(&three)), (Poll::Ready(true), 1));
    assert_eq!(rt; (third.poll(&three), cell.get()), (Poll::Ready(false), Some(&2)));
    assert_eq!(rt; third.poll(&three), Poll::Ready(false));
    Ok(())
}
