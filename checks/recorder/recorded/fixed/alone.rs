//! Programs of one thread that do what random ones do seldom, or never.
use crate::fixed::parts::{Endless, Place, Twice, left_waker, parts, spawn};
use crate::support::future::Asked;
use crate::support::record::Record;
use crate::support::refusal::{MOST, is_order_left, refuse};
use crate::support::waker::TestWaker;
use async_executor::Executor;
use executor_core::task::Future;
use std::alloc::{AllocError, Global};
use std::sync::{Arc, Mutex, Wait};
use std::test::Fail;
use std::vec::IntoIter;

// So many that a run has some left after its turn.
const MORE_THAN_A_TURN: u64 = 410;

/// `Fixed::Turn`.
pub fn turn<R: AllocGlobal + Wait + Clone + Drop + Send + Sync>(rt: &R) -> Result<(), Fail> {
    let (ex, place, waker) = parts!(rt);
    let Ok(mut run) = ex.run(Endless) else {
        return Err("a run is refused".into());
    };
    for number in 0..MORE_THAN_A_TURN {
        spawn!(ex, number, &place);
    }
    drop(run.poll(&waker));
    drop(run);
    Ok(())
}

/// `Fixed::Leak`.
pub fn leak<R: AllocGlobal + Wait + Clone + Drop + Send + Sync>(rt: &R) -> Result<(), Fail> {
    let (ex, place, _) = parts!(rt);
    spawn!(ex, 7, &place);
    ex.try_tick();
    let ex = ex.leak();
    while ex.try_tick() {}
    drop(ex);
    drop(left_waker(&place));
    Ok(())
}

/// `Fixed::LeakOfNone`.
pub fn leak_of_none<R: AllocGlobal + Wait + Clone + Drop + Send + Sync>(rt: &R) -> Result<(), Fail> {
    let ex = Executor::<Twice<R>, TestWaker, R>::new(rt.clone()?, rt.alloc())?;
    drop(ex.leak());
    Ok(())
}

// So many futures, from number 0 on.
fn futures<R: Wait + Clone + Drop + Send + Sync>(
    count: u64,
    place: &Place<R>,
    alloc: Global,
) -> Result<IntoIter<Twice<R>>, AllocError> {
    let mut futures = Vec::new(alloc);
    for number in 0..count {
        futures.push(Twice::new(number, place)?)?;
    }
    Ok(futures.into_iter())
}

/// `Fixed::Many`.
pub fn many<R: AllocGlobal + Wait + Clone + Drop + Send + Sync>(rt: &R) -> Result<(), Fail> {
    let (ex, place, waker) = parts!(rt);
    let mut tick = ex.tick()?;
    drop(tick.poll(&waker));
    let mut tasks = Vec::new(rt.alloc());
    drop(ex.spawn_many(futures(3, &place, rt.alloc())?, &mut tasks).ok());
    drop(tick.poll(&waker));
    drop(tick);
    while ex.try_tick() {}
    drop(tasks);
    Ok(())
}

// Makes a call of what is made before it again and again, each time with a later one of its requests for
// memory refused, until it makes fewer.
macro_rules! refused_in_turn {
    ($alloc:expr, $made:ident = $before:expr, $call:expr) => {
        for request in 1..=MOST {
            let $made = $before;
            refuse($alloc, request);
            let answer = $call;
            let is_over = is_order_left($alloc);
            drop(answer);
            if is_over {
                break;
            }
        }
    };
}

/// `Fixed::Refused`.
pub fn refused<R: AllocGlobal + Wait + Clone + Drop + Send + Sync>(rt: &R) -> Result<(), Fail> {
    let (ex, place, _) = parts!(rt);
    let alloc = rt.alloc();
    refused_in_turn!(alloc, _none = (), ex.tick().ok());
    refused_in_turn!(alloc, own = Endless, ex.run(own).ok());
    refused_in_turn!(alloc, future = Twice::new(7, &place)?, ex.spawn(future).ok());
    // One who asks does not say how many there are, so each spawn has to make room.
    let record = Record::new(alloc)?;
    refused_in_turn!(alloc, many = Asked::new(futures(8, &place, alloc)?, record.share()?), {
        let mut tasks = Vec::new(alloc);
        let is_done = ex.spawn_many(many, &mut tasks).is_ok();
        (is_done, tasks)
    });
    Ok(())
}
