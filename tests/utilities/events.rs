//! An event: who is told of it, in which order, and who is woken, by counts of wakes.
use crate::tests::support::running::record::{Moment, Record};
use crate::tests::support::running::waker::TestWaker;
use async_utilities::{Event, EventListener};
use executor_core::task::{Future, Poll};
use std::alloc::Global;
use std::sync::Wait;
use std::test::Fail;

fn event<R: AllocGlobal + Wait + Clone + Drop>(rt: &R) -> Result<Event<TestWaker, R>, Fail> {
    Ok(Event::new(rt.clone()?, rt.alloc())?)
}

fn new_waker(alloc: Global) -> Result<TestWaker, Fail> {
    Ok(TestWaker::new(&Record::new(alloc)?)?)
}

fn wakes(waker: &TestWaker) -> u64 {
    waker.record().times(Moment::WakerWake)
}

fn is_told<R: Wait + Drop>(
    listener: &mut EventListener<TestWaker, R>,
    waker: &TestWaker,
) -> bool {
    listener.poll(waker) == Poll::Ready(())
}

#[test]
fn one_that_listens_is_told_before_its_first_poll(rt: HostRuntime) -> Result<(), Fail> {
    let event = event(&rt)?;
    let waker = new_waker(rt.alloc())?;
    assert_eq!(rt; event.notify(1), 0);
    let mut listener = event.listen()?;
    assert!(rt; !is_told(&mut event.listen()?, &waker));
    assert_eq!(rt; event.copy()?.notify(1), 1);
    assert!(rt; is_told(&mut listener, &waker) && is_told(&mut listener, &waker));
    assert_eq!(rt; wakes(&waker), 0);
    Ok(())
}

#[test]
fn those_who_were_told_before_count_too(rt: HostRuntime) -> Result<(), Fail> {
    let event = event(&rt)?;
    let (one, two) = (new_waker(rt.alloc())?, new_waker(rt.alloc())?);
    let (mut first, mut second) = (event.listen()?, event.listen()?);
    assert!(rt; !is_told(&mut second, &two) && !is_told(&mut first, &one));
    assert_eq!(rt; (event.notify(1), event.notify(1)), (1, 0));
    assert_eq!(rt; (wakes(&one), wakes(&two)), (1, 0));
    assert!(rt; !is_told(&mut second, &two) && is_told(&mut first, &one));
    assert_eq!(rt; (event.notify(1), wakes(&one), wakes(&two)), (1, 1, 1));
    assert!(rt; is_told(&mut second, &two));
    Ok(())
}

#[test]
fn so_many_more_are_told_whoever_was_told_before(rt: HostRuntime) -> Result<(), Fail> {
    let event = event(&rt)?;
    let waker = new_waker(rt.alloc())?;
    let (mut first, mut second) = (event.listen()?, event.listen()?);
    let mut third = event.listen()?;
    assert_eq!(rt; (event.notify(1), event.notify_additional(1)), (1, 1));
    assert_eq!(rt; event.notify(3), 1);
    assert!(rt; is_told(&mut first, &waker) && is_told(&mut second, &waker));
    assert!(rt; is_told(&mut third, &waker));
    assert_eq!(rt; event.notify_additional(5), 0);
    Ok(())
}

#[test]
fn all_who_listen_are_told_and_nobody_who_comes_later(rt: HostRuntime) -> Result<(), Fail> {
    let event = event(&rt)?;
    let waker = new_waker(rt.alloc())?;
    for round in 1..=3u64 {
        let mut listeners = Vec::new(rt.alloc());
        for _ in 0..70 {
            let mut listener = event.listen()?;
            assert!(rt; !is_told(&mut listener, &waker));
            assert!(rt; listeners.push(listener).is_ok());
        }
        assert_eq!(rt; event.notify_all(), 70);
        assert_eq!(rt; wakes(&waker), round * 70);
        let mut later = event.listen()?;
        assert!(rt; !is_told(&mut later, &waker));
        for mut listener in listeners {
            assert!(rt; is_told(&mut listener, &waker));
        }
    }
    Ok(())
}

#[test]
fn one_that_was_told_and_goes_has_the_next_one_told(rt: HostRuntime) -> Result<(), Fail> {
    let event = event(&rt)?;
    let (one, two) = (new_waker(rt.alloc())?, new_waker(rt.alloc())?);
    let (mut first, mut second) = (event.listen()?, event.listen()?);
    let mut third = event.listen()?;
    assert!(rt; !is_told(&mut first, &one) && !is_told(&mut second, &two));
    assert!(rt; !is_told(&mut third, &one));
    assert_eq!(rt; event.notify(1), 1);
    drop(first);
    assert_eq!(rt; (wakes(&one), wakes(&two)), (1, 1));
    assert!(rt; is_told(&mut second, &two));
    drop(second);
    assert!(rt; !is_told(&mut third, &one));
    assert_eq!(rt; (wakes(&one), wakes(&two)), (1, 1));
    drop(third);
    assert_eq!(rt; event.notify_all(), 0);
    Ok(())
}

#[test]
fn a_refused_copy_of_a_listener_asks_again(rt: HostRuntime) -> Result<(), Fail> {
    let event = event(&rt)?;
    let waker = new_waker(rt.alloc())?;
    waker.record().refuse();
    let mut listener = event.listen()?;
    assert!(rt; !is_told(&mut listener, &waker) && wakes(&waker) == 1);
    assert_eq!(rt; event.notify_all(), 1);
    assert!(rt; is_told(&mut listener, &waker) && wakes(&waker) == 1);
    Ok(())
}

#[test]
fn another_waker_of_a_listener_takes_the_place_of_the_earlier_one(
    rt: HostRuntime,
) -> Result<(), Fail> {
    let event = event(&rt)?;
    let (one, two) = (new_waker(rt.alloc())?, new_waker(rt.alloc())?);
    let mut listener = event.listen()?;
    let mut second = event.listen()?;
    assert!(rt; !is_told(&mut listener, &one) && !is_told(&mut second, &one));
    assert!(rt; !is_told(&mut listener, &two));
    assert_eq!(rt; one.record().times(Moment::WakerDrop), 1);
    assert_eq!(rt; (event.notify(1), wakes(&one), wakes(&two)), (1, 0, 1));
    Ok(())
}
