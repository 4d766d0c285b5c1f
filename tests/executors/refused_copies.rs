//! A waker that cannot be copied is woken once by reference, and nothing else comes of it.
use crate::tests::support::running::future::Kind::{LeavesWaker, Never, Ready};
use crate::tests::support::running::line::Answer::{Output, Pending, Ticked};
use crate::tests::support::running::line::Line::{
    Count, MakeRun, MakeTick, Poll, Refuse, Shows, Spawn, Tick, Wake,
};
use crate::tests::support::running::player::{play, play_unsharded};
use crate::tests::support::running::record::Moment::WakerWake;
use std::test::Fail;

#[test]
fn of_a_handle(rt: HostRuntime) -> Result<(), Fail> {
    play(
        &rt,
        &[
            Spawn(LeavesWaker(1)),
            Tick(true),
            Shows(1, 0, &[], 0),
            Refuse(0),
            Poll(0, Pending),
            Count(0, WakerWake, 1),
            Shows(1, 0, &[], 0),
            Wake(0),
            Tick(true),
            // Nobody awaits it.
            Count(0, WakerWake, 1),
            Poll(0, Output(2)),
        ],
    )
}

#[test]
fn of_a_handle_that_has_an_earlier_one(rt: HostRuntime) -> Result<(), Fail> {
    play(
        &rt,
        &[
            Spawn(LeavesWaker(1)),
            Tick(true),
            Poll(0, Pending),
            Count(0, WakerWake, 0),
            Refuse(0),
            Poll(0, Pending),
            Count(0, WakerWake, 1),
            Wake(0),
            Tick(true),
            Count(0, WakerWake, 2),
            Poll(0, Output(2)),
        ],
    )
}

#[test]
fn of_a_tick_that_is_awake(rt: HostRuntime) -> Result<(), Fail> {
    play(
        &rt,
        &[
            MakeTick,
            Refuse(0),
            Poll(0, Pending),
            Count(0, WakerWake, 1),
            Shows(0, 0, &[], 0),
            Spawn(Ready(7)),
            Count(0, WakerWake, 1),
            Poll(0, Ticked),
        ],
    )
}

#[test]
fn of_a_tick_that_sleeps(rt: HostRuntime) -> Result<(), Fail> {
    play(
        &rt,
        &[
            MakeTick,
            Poll(0, Pending),
            Shows(0, 0, &[], 1),
            Refuse(0),
            Poll(0, Pending),
            Count(0, WakerWake, 1),
            Shows(0, 0, &[], 1),
            Spawn(Ready(7)),
            Count(0, WakerWake, 2),
            Poll(0, Ticked),
            Shows(0, 0, &[], 0),
        ],
    )
}

#[test]
fn of_a_tick_that_was_notified(rt: HostRuntime) -> Result<(), Fail> {
    play(
        &rt,
        &[
            MakeTick,
            Poll(0, Pending),
            Spawn(Ready(7)),
            Count(0, WakerWake, 1),
            Tick(true),
            Refuse(0),
            Poll(0, Pending),
            Count(0, WakerWake, 2),
            Shows(0, 0, &[], 1),
        ],
    )
}

#[test]
fn of_a_run_that_was_never_polled(rt: HostRuntime) -> Result<(), Fail> {
    play(
        &rt,
        &[
            MakeRun(Never),
            Refuse(0),
            Poll(0, Pending),
            Count(0, WakerWake, 1),
            Shows(0, 0, &[0], 0),
            Poll(0, Pending),
            Count(0, WakerWake, 2),
            Shows(0, 0, &[0], 0),
        ],
    )
}

#[test]
fn of_a_run_that_sleeps(rt: HostRuntime) -> Result<(), Fail> {
    play_unsharded(
        &rt,
        &[
            MakeRun(Never),
            Poll(0, Pending),
            Shows(0, 0, &[0], 1),
            Refuse(0),
            Poll(0, Pending),
            Count(0, WakerWake, 1),
            Shows(0, 0, &[0], 1),
            Spawn(Ready(7)),
            Count(0, WakerWake, 2),
        ],
    )
}
