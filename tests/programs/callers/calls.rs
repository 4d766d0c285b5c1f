//! What the examples at the calls give.
use super::{Line, compare};
use async_executor::{Cancelled, Poll};
use std::alloc::Global;
use std::io;
use std::sync::Wait;
use std::test::Fail;
use uses::{executor_calls as executors, handle_calls as handles, local_calls as local};

const FIRST_PENDING: [Poll<Result<u64, Cancelled>>; 2] = [Poll::Pending, Poll::Ready(Ok(7))];

const CANCELLED: [Poll<Option<u64>>; 2] = [Poll::Pending, Poll::Ready(None)];

const WOKEN: [Poll<()>; 2] = [Poll::Pending, Poll::Ready(())];

fn of_executors<R: Wait + Clone + Drop + Send + Sync>(
    rt: &R,
    alloc: Global,
) -> io::Result<[Line; 17]> {
    Ok([
        ("awaits_seven", executors::awaits_seven(rt, alloc)? == 7),
        ("spawns", executors::spawns(rt, alloc)? == FIRST_PENDING),
        (
            "spawns_at_once",
            executors::spawns_at_once(rt, alloc)? == Poll::Ready(Ok(7)),
        ),
        (
            "spawns_three",
            executors::spawns_three(rt, alloc)? == (3, 3),
        ),
        (
            "empties_again",
            executors::empties_again(rt, alloc)? == [true, false, true],
        ),
        (
            "tries_ticks",
            executors::tries_ticks(rt, alloc)? == [false, true, false],
        ),
        (
            "tries_any_tick",
            executors::tries_any_tick(rt, alloc)? == [true, false, true],
        ),
        (
            "limits_turns",
            executors::limits_turns(rt, alloc)? == [true, false],
        ),
        ("ticks", executors::ticks(rt, alloc)? == WOKEN),
        (
            "runs_beside",
            executors::runs_beside(rt, alloc)? == FIRST_PENDING,
        ),
        ("works", executors::works(rt, alloc)? == [false, false]),
        (
            "sleeps_and_leaves",
            executors::sleeps_and_leaves(rt, alloc)? == [true, true, true],
        ),
        ("looks", executors::looks(rt, alloc)? == [true, true]),
        ("helps", executors::helps(rt, alloc)? == [true, true, false]),
        ("leaks", executors::leaks(rt, alloc)? == [true, true]),
        ("outlasts", executors::outlasts(rt, alloc)? == Poll::Pending),
        ("limits_for_good", executors::limits_for_good(rt, alloc)?),
    ])
}

fn of_handles<R: Wait + Clone + Drop + Send + Sync>(
    rt: &R,
    alloc: Global,
) -> io::Result<[Line; 9]> {
    let once = [Poll::Ready(Ok(7)), Poll::Ready(Err(Cancelled))];
    let ended = (true, Poll::Ready(None));
    Ok([
        ("asks_twice", handles::asks_twice(rt, alloc)? == once),
        (
            "drops_handle",
            handles::drops_handle(rt, alloc)? == [true, true],
        ),
        (
            "lets_run_on",
            handles::lets_run_on(rt, alloc)? == [true, true],
        ),
        (
            "cancels_and_awaits",
            handles::cancels_and_awaits(rt, alloc)? == CANCELLED,
        ),
        (
            "cancels_half_way",
            handles::cancels_half_way(rt, alloc)? == [Poll::Pending, Poll::Ready(None)],
        ),
        ("finishes", handles::finishes(rt, alloc)? == [false, true]),
        (
            "has_no_output",
            handles::has_no_output(rt, alloc)? == Poll::Ready(None),
        ),
        (
            "finishes_fallibly",
            handles::finishes_fallibly(rt, alloc)? == [false, true],
        ),
        ("ends_fallibly", handles::ends_fallibly(rt, alloc)? == ended),
    ])
}

fn of_local_ones<R: Wait + Clone + Drop>(rt: &R, alloc: Global) -> io::Result<[Line; 11]> {
    let output = (false, true, Poll::Ready(Ok(7)));
    let ended = (true, Poll::Ready(None));
    Ok([
        (
            "runs_locally",
            local::runs_locally(rt, alloc)? == FIRST_PENDING,
        ),
        (
            "limits_locally",
            local::limits_locally(rt, alloc)? == [true, true, true],
        ),
        (
            "spawns_locally",
            local::spawns_locally(rt, alloc)? == (2, true),
        ),
        ("ticks_locally", local::ticks_locally(rt, alloc)? == WOKEN),
        (
            "finishes_locally",
            local::finishes_locally(rt, alloc)? == output,
        ),
        (
            "cancels_locally",
            local::cancels_locally(rt, alloc)? == CANCELLED,
        ),
        (
            "has_no_local_output",
            local::has_no_local_output(rt, alloc)? == ended,
        ),
        ("ends_locally", local::ends_locally(rt, alloc)? == ended),
        (
            "leaks_locally",
            local::leaks_locally(rt, alloc)? == [true, true],
        ),
        (
            "outlasts_locally",
            local::outlasts_locally(rt, alloc)? == Poll::Pending,
        ),
        (
            "limits_locally_for_good",
            local::limits_locally_for_good(rt, alloc)?,
        ),
    ])
}

#[test]
fn examples_of_executors_give_what_they_say(rt: HostRuntime) -> Result<(), Fail> {
    match of_executors(&rt, rt.alloc()) {
        Ok(lines) => compare(&lines),
        Err(_) => Err(Fail::from("no memory")),
    }
}

#[test]
fn examples_of_handles_give_what_they_say(rt: HostRuntime) -> Result<(), Fail> {
    match of_handles(&rt, rt.alloc()) {
        Ok(lines) => compare(&lines),
        Err(_) => Err(Fail::from("no memory")),
    }
}

#[test]
fn examples_of_local_executors_give_what_they_say(rt: HostRuntime) -> Result<(), Fail> {
    match of_local_ones(&rt, rt.alloc()) {
        Ok(lines) => compare(&lines),
        Err(_) => Err(Fail::from("no memory")),
    }
}
