//! Callers of timers, and of futures made of others.
use super::{Line, compare};
use async_executor::Poll;
use std::alloc::Global;
use std::io;
use std::sync::Wait;
use std::test::Fail;
use std::thread::Threads;
use std::time::{Clock, Duration};
use uses::{
    alternates, beats, dozes, follows, picks, postpones, repeats, reuses, simulates, unblocks,
};

// Whether it is there, and at least so many milliseconds.
fn is_long(passed: Option<Duration>, millis: u64) -> bool {
    passed.is_some_and(|passed| Duration::from_millis(millis) <= passed)
}

fn timed<R: Wait + Clock + Clone + Drop + Send + Sync>(rt: &R, alloc: Global) -> [Line; 5] {
    [
        ("beats", is_long(beats(rt, alloc), 4)),
        ("repeats", is_long(repeats(rt, alloc), 2)),
        ("dozes", dozes(rt, alloc).is_ok()),
        ("postpones", is_long(postpones(rt, alloc), 2)),
        ("simulates", simulates(rt, alloc) == Some((3_600, 7_200))),
    ]
}

fn chosen<R: Wait>(rt: &R, alloc: Global) -> io::Result<[Line; 4]> {
    Ok([
        ("follows", follows(rt, alloc)? == (2, 1)),
        ("reuses", reuses(rt, alloc)? == 3),
        ("alternates", alternates(alloc)? == [Poll::Pending, Poll::Ready(2)]),
        ("picks", picks(rt, alloc)? == (0, 0, 2)),
    ])
}

#[test]
fn times_come_when_they_are_wanted(rt: HostRuntime) -> Result<(), Fail> {
    compare(&timed(&rt, rt.alloc()))
}

#[test]
fn futures_are_made_of_others(rt: HostRuntime) -> Result<(), Fail> {
    compare(&chosen(&rt, rt.alloc())?)
}

#[test]
fn a_task_awaits_what_blocks(rt: HostRuntime) -> Result<(), Fail> {
    compare(&[("unblocks", unblocks(&rt, rt.alloc())? == 7)])
}
