//! Callers of several threads, of channels and of timers.
use super::{Line, compare};
use async_utilities::{NoMessage, PoolError, TooManyPermits, Unavailable, Unsent};
use std::alloc::Global;
use std::io;
use std::sync::Wait;
use std::test::Fail;
use std::thread::Threads;
use std::time::{Clock, Duration};
use uses::{
    answers_in_order, closes_a_channel, fans_out, gives_up, hears, joins, makes_once, meets,
    parks, pools, races, requests_tasks, rests, sends_to_a_task, serves, shares, takes_many,
    takes_permits, takes_turns, tells, times_out, tries, winds_up,
};

// Twice each number below twenty.
const DOUBLES: [u64; 20] = [
    0, 2, 4, 6, 8, 10, 12, 14, 16, 18, 20, 22, 24, 26, 28, 30, 32, 34, 36, 38,
];

// Whether two threads ended as they should, and the sum of two outputs is there.
fn are_joined(joined: Option<(u64, Vec<Result<(), PoolError>>)>) -> bool {
    match joined {
        Some((total, ended)) => total == 6 && ended.as_slice() == [Ok(()), Ok(())].as_slice(),
        None => false,
    }
}

// Whether ten milliseconds passed, and all of it took at least as long as that.
fn is_late(passed: Option<(u128, Duration)>) -> bool {
    match passed {
        Some((nanos, took)) => 10_000_000 <= nanos && nanos <= took.as_nanos(),
        None => false,
    }
}

fn pooled<R: Wait + Threads + Clone + Drop + Send + Sync + 'static>(
    rt: &R,
    alloc: Global,
) -> io::Result<[Line; 4]> {
    Ok([
        ("parks", parks(rt, alloc)? == 10),
        ("pools", pools(rt, alloc)? == 10),
        ("joins", joins(rt, alloc)? == 500_500),
        ("winds_up", are_joined(winds_up(rt, alloc))),
    ])
}

fn sent<R: Wait + Threads + Clone + Drop + Send + Sync + 'static>(
    rt: &R,
    alloc: Global,
) -> io::Result<[Line; 8]> {
    let tried = Some((Unsent::Full(2), 1, NoMessage::Empty));
    let many = Some(([3, 1], 10, NoMessage::Empty));
    let closed = Some(([1, usize::MAX, 1, 1], [false, false, true], Ok(1)));
    let answers = answers_in_order(rt, alloc)?;
    Ok([
        ("fans_out", fans_out(rt, alloc)? == 15),
        ("requests_tasks", requests_tasks(rt, alloc)? == 15),
        ("sends_to_a_task", sends_to_a_task(rt, alloc)? == 190),
        ("answers_in_order", answers.as_slice() == DOUBLES.as_slice()),
        ("tries", tries(rt, alloc) == tried),
        ("takes_many", takes_many(rt, alloc) == many),
        ("closes_a_channel", closes_a_channel(rt, alloc) == closed),
        ("gives_up", gives_up(rt, alloc) == Some(2)),
    ])
}

fn locked<R: Wait + Threads + Clone + Drop + Send + Sync>(rt: &R, alloc: Global) -> [Line; 5] {
    let permits = Some(([1, 0, 2, 3], Unavailable::Taken, TooManyPermits));
    let led = meets(rt, alloc);
    [
        ("takes_permits", takes_permits(rt, alloc) == permits),
        ("takes_turns", takes_turns(rt, alloc) == Some((300, Unavailable::Taken))),
        ("hears", hears(rt, alloc) == Some([1, 1, 1])),
        ("meets", led == Some([true, false]) || led == Some([false, true])),
        ("makes_once", makes_once(rt, alloc) == Some((1, [false, true], 2))),
    ]
}

fn lent<R: Wait + Threads + Clock + Clone + Drop + Send + Sync>(
    rt: &R,
    alloc: Global,
) -> io::Result<[Line; 3]> {
    Ok([
        ("shares", shares(rt, alloc)?),
        ("serves", serves(rt, alloc)? == 10),
        ("times_out", times_out(rt, alloc)?),
    ])
}

fn waited<R: Wait + Threads + Clock + Clone + Drop + Send + Sync>(
    rt: &R,
    alloc: Global,
) -> io::Result<[Line; 3]> {
    Ok([
        ("races", races(rt, alloc)? == 2),
        ("tells", tells(rt, alloc)? == (false, true)),
        ("rests", is_late(rests(rt, alloc))),
    ])
}

#[test]
fn threads_run_the_tasks_of_one_executor(rt: HostRuntime) -> Result<(), Fail> {
    compare(&pooled(&rt, rt.alloc())?)
}

#[test]
fn channels_carry_what_is_wanted(rt: HostRuntime) -> Result<(), Fail> {
    compare(&sent(&rt, rt.alloc())?)
}

#[test]
fn threads_wait_for_what_comes(rt: HostRuntime) -> Result<(), Fail> {
    compare(&waited(&rt, rt.alloc())?)
}

#[test]
fn tasks_and_threads_await_each_other(rt: HostRuntime) -> Result<(), Fail> {
    compare(&locked(&rt, rt.alloc()))
}

#[test]
fn executors_are_lent_to_threads(rt: HostRuntime) -> Result<(), Fail> {
    compare(&lent(&rt, rt.alloc())?)
}
