//! What the examples at the calls of the libraries beside the executor give.
use super::{Line, compare};
use async_executor::Poll;
use async_utilities::{Unavailable, Unsent};
use std::alloc::Global;
use std::io;
use std::sync::Wait;
use std::test::Fail;
use std::time::{Clock, Duration};
use uses::{
    channel_calls as channels, core_calls as core, future_calls as futures, level_calls as levels,
    lock_calls as locks, pool_calls as pools, shard_calls as shards, spawner_calls as spawners,
    timer_calls as timers,
};

fn of_channels<R: Wait + Clone + Drop>(rt: &R, alloc: Global) -> [Line; 5] {
    [
        (
            "sends_and_receives",
            channels::sends_and_receives(rt, alloc) == Some([Some(7), None]),
        ),
        (
            "sends_too_late",
            channels::sends_too_late(rt, alloc) == Some((Unsent::Closed(2), Ok(1))),
        ),
        (
            "looks_inside",
            channels::looks_inside(rt, alloc) == Some([1, 2, 1, 2]),
        ),
        (
            "waits_for_room",
            channels::waits_for_room(rt, alloc) == Some([Poll::Pending, Poll::Ready(Ok(()))]),
        ),
        (
            "waits_for_a_message",
            channels::waits_for_a_message(rt, alloc) == Some([Poll::Pending, Poll::Ready(Some(7))]),
        ),
    ]
}

fn of_locks<R: Wait + Clone + Drop>(rt: &R, alloc: Global) -> [Line; 2] {
    [
        (
            "locks",
            locks::locks(rt, alloc) == Some((Unavailable::Taken, 7)),
        ),
        ("acquires", locks::acquires(rt, alloc) == Some([1, 0])),
    ]
}

fn of_polls() -> [Line; 5] {
    [
        (
            "polls_by_hand",
            core::polls_by_hand() == [Poll::Pending, Poll::Ready(2)],
        ),
        (
            "is_ready_once",
            futures::is_ready_once() == [Poll::Ready(7), Poll::Pending],
        ),
        (
            "yields_once",
            futures::yields_once() == [Poll::Pending, Poll::Ready(())],
        ),
        (
            "takes_the_first",
            futures::takes_the_first() == Poll::Ready(7),
        ),
        (
            "awaits_both",
            futures::awaits_both() == [Poll::Pending, Poll::Ready((7, ()))],
        ),
    ]
}

fn of_futures<R: Wait + Clone + Drop + Send + Sync>(
    rt: &R,
    alloc: Global,
) -> io::Result<[Line; 8]> {
    Ok([
        ("runs_a_box", core::runs_a_box(rt, alloc)? == 7),
        ("blocks_twice", futures::blocks_twice(rt, alloc)? == 3),
        ("runs_two", futures::runs_two(rt, alloc)? == (1, 2)),
        ("polls_in_turn", futures::polls_in_turn(rt, alloc)? == 7),
        (
            "awaits_either, the left one",
            futures::awaits_either(rt, alloc, true)? == 7,
        ),
        (
            "awaits_either, the right one",
            futures::awaits_either(rt, alloc, false)? == 8,
        ),
        (
            "joins_three",
            futures::joins_three(rt, alloc)?.as_slice() == [Ok(0), Ok(1), Ok(2)].as_slice(),
        ),
        (
            "hands_in_jobs",
            spawners::hands_in_jobs(rt, alloc)?.as_slice() == [Ok(2)].as_slice(),
        ),
    ])
}

fn of_timers<R: Wait + Clock + Clone + Drop>(rt: &R, alloc: Global) -> io::Result<[Line; 4]> {
    let later = |passed: Option<Duration>, millis: u64| {
        passed.is_some_and(|passed| Duration::from_millis(millis) <= passed)
    };
    let ahead = Some(Duration::from_millis(2));
    Ok([
        ("waits_a_while", later(timers::waits_a_while(rt, alloc)?, 2)),
        ("comes_twice", later(timers::comes_twice(rt, alloc)?, 4)),
        ("is_too_late", timers::is_too_late(rt, alloc)?),
        ("looks_ahead", timers::looks_ahead(rt)? == ahead),
    ])
}

fn of_other_executors<R: Wait + Clone + Drop + Send + Sync>(
    rt: &R,
    alloc: Global,
) -> io::Result<[Line; 4]> {
    let urgent_alone = [Poll::Ready(Ok(2)), Poll::Pending];
    let woken = [Poll::Pending, Poll::Ready(())];
    Ok([
        ("goes_first", levels::goes_first(rt, alloc)? == urgent_alone),
        (
            "ticks_any_level",
            levels::ticks_any_level(rt, alloc)? == woken,
        ),
        ("spreads", shards::spreads(rt, alloc)? == [true, true, true]),
        ("runs_shards", shards::runs_shards(rt, alloc)? == (1, 2)),
    ])
}

#[test]
fn examples_of_channels_and_locks_give_what_they_say(rt: HostRuntime) -> Result<(), Fail> {
    compare(&of_channels(&rt, rt.alloc()))?;
    compare(&of_locks(&rt, rt.alloc()))
}

#[test]
fn examples_of_futures_give_what_they_say(rt: HostRuntime) -> Result<(), Fail> {
    compare(&of_polls())?;
    match of_futures(&rt, rt.alloc()) {
        Ok(lines) => compare(&lines),
        Err(_) => Err(Fail::from("no memory")),
    }
}

#[test]
fn examples_of_pools_give_what_they_say(rt: HostRuntime) -> Result<(), Fail> {
    match pools::drives_in_turns(&rt, rt.alloc()) {
        Ok(sum) => compare(&[("drives_in_turns", sum == 7)]),
        Err(_) => Err(Fail::from("no memory, or no thread")),
    }
}

#[test]
fn examples_of_timers_give_what_they_say(rt: HostRuntime) -> Result<(), Fail> {
    match of_timers(&rt, rt.alloc()) {
        Ok(lines) => compare(&lines),
        Err(_) => Err(Fail::from("no memory, or no clock")),
    }
}

#[test]
fn examples_of_levels_and_shards_give_what_they_say(rt: HostRuntime) -> Result<(), Fail> {
    match of_other_executors(&rt, rt.alloc()) {
        Ok(lines) => compare(&lines),
        Err(_) => Err(Fail::from("no memory")),
    }
}
