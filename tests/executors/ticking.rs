//! Ticks that sleep, are woken, and are dropped.
use crate::tests::support::running::future::Kind::{LeavesWaker, Ready, Yields};
use crate::tests::support::running::line::Answer::{Output, Pending, Ticked};
use crate::tests::support::running::line::Line::{
    AnotherWaker, Cancel, Count, DropHandle, Empty, Finished, MakeTick, OtherWoken, Poll, Refuse,
    Spawn, Tick, Wake,
};
use crate::tests::support::running::player::play;
use crate::tests::support::running::record::Moment::{FutureDrop, FuturePoll, WakerCopy, WakerDrop, WakerWake};
use std::test::Fail;

#[test]
fn a_tick_runs_one_task(rt: HostRuntime) -> Result<(), Fail> {
    play(
        &rt,
        &[
            Spawn(Ready(7)),
            Spawn(Ready(8)),
            MakeTick,
            Poll(2, Ticked),
            Count(0, FuturePoll, 1),
            Count(2, WakerCopy, 0),
            // One that has ended runs nothing more.
            Poll(2, Ticked),
            Finished(1, false),
            Poll(0, Output(7)),
        ],
    )
}

#[test]
fn a_tick_drops_a_cancelled_task(rt: HostRuntime) -> Result<(), Fail> {
    play(
        &rt,
        &[
            Spawn(Ready(7)),
            Cancel(0),
            MakeTick,
            Poll(1, Ticked),
            Count(0, FuturePoll, 0),
            Count(0, FutureDrop, 1),
            Empty(true),
        ],
    )
}

#[test]
fn a_spawn_wakes_the_last_to_sleep(rt: HostRuntime) -> Result<(), Fail> {
    play(
        &rt,
        &[
            MakeTick,
            MakeTick,
            Poll(0, Pending),
            Poll(1, Pending),
            Spawn(Ready(7)),
            Count(0, WakerWake, 0),
            Count(1, WakerWake, 1),
            // The one that was notified passes the news on.
            DropHandle(1),
            Count(0, WakerWake, 1),
            Count(1, WakerWake, 1),
            Poll(0, Ticked),
            Poll(2, Output(7)),
        ],
    )
}

#[test]
fn a_notified_tick_that_finds_a_task_wakes_another(rt: HostRuntime) -> Result<(), Fail> {
    play(
        &rt,
        &[
            MakeTick,
            MakeTick,
            Poll(0, Pending),
            Poll(1, Pending),
            Spawn(Ready(7)),
            Spawn(Ready(8)),
            Count(0, WakerWake, 0),
            Poll(1, Ticked),
            Count(0, WakerWake, 1),
            Poll(0, Ticked),
            Poll(2, Output(7)),
            Poll(3, Output(8)),
        ],
    )
}

#[test]
fn a_tick_that_was_not_notified_wakes_nobody_at_its_drop(rt: HostRuntime) -> Result<(), Fail> {
    play(
        &rt,
        &[
            MakeTick,
            MakeTick,
            MakeTick,
            Poll(1, Pending),
            Poll(2, Pending),
            DropHandle(2),
            DropHandle(0),
            Count(1, WakerWake, 0),
            Spawn(Ready(7)),
            Count(1, WakerWake, 1),
            // One that sleeps before another, and one that has ended.
            MakeTick,
            Poll(1, Ticked),
            MakeTick,
            Poll(4, Pending),
            Poll(5, Pending),
            DropHandle(4),
            DropHandle(1),
            Count(5, WakerWake, 0),
        ],
    )
}

#[test]
fn a_wake_wakes_a_tick(rt: HostRuntime) -> Result<(), Fail> {
    play(
        &rt,
        &[
            Spawn(LeavesWaker(1)),
            Tick(true),
            MakeTick,
            Poll(1, Pending),
            Wake(0),
            Count(1, WakerWake, 1),
            Poll(1, Ticked),
            Poll(0, Output(2)),
        ],
    )
}

#[test]
fn a_cancel_wakes_a_tick(rt: HostRuntime) -> Result<(), Fail> {
    play(
        &rt,
        &[
            Spawn(LeavesWaker(1)),
            Tick(true),
            MakeTick,
            Poll(1, Pending),
            DropHandle(0),
            Count(1, WakerWake, 1),
            Poll(1, Ticked),
            Count(0, FutureDrop, 1),
        ],
    )
}

#[test]
fn a_task_that_wakes_itself_is_run_by_the_next_tick(rt: HostRuntime) -> Result<(), Fail> {
    play(
        &rt,
        &[
            MakeTick,
            Poll(0, Pending),
            Spawn(Yields(1)),
            Count(0, WakerWake, 1),
            Poll(0, Ticked),
            Count(1, FuturePoll, 1),
            MakeTick,
            Poll(2, Ticked),
            Poll(1, Output(2)),
        ],
    )
}

#[test]
fn a_tick_is_woken_by_its_last_waker(rt: HostRuntime) -> Result<(), Fail> {
    play(
        &rt,
        &[
            MakeTick,
            Poll(0, Pending),
            AnotherWaker(0),
            Poll(0, Pending),
            // A poll that parks copies the waker once.
            Count(0, WakerCopy, 1),
            Count(0, WakerDrop, 1),
            Spawn(Ready(7)),
            Count(0, WakerWake, 0),
            OtherWoken(0, 1),
        ],
    )
}

#[test]
fn a_notified_tick_sleeps_again(rt: HostRuntime) -> Result<(), Fail> {
    play(
        &rt,
        &[
            MakeTick,
            Poll(0, Pending),
            Spawn(Ready(7)),
            Count(0, WakerWake, 1),
            Tick(true),
            Poll(0, Pending),
            Count(0, WakerWake, 1),
            Spawn(Ready(8)),
            Count(0, WakerWake, 2),
            Poll(0, Ticked),
            Poll(2, Output(8)),
        ],
    )
}

#[test]
fn a_refused_copy_wakes_the_one_who_polls(rt: HostRuntime) -> Result<(), Fail> {
    play(
        &rt,
        &[
            MakeTick,
            Refuse(0),
            Poll(0, Pending),
            Count(0, WakerWake, 1),
            // It does not sleep.
            Spawn(Ready(7)),
            Count(0, WakerWake, 1),
            Tick(true),
            AnotherWaker(0),
            Poll(0, Pending),
            Spawn(Ready(8)),
            OtherWoken(0, 1),
            Poll(0, Ticked),
            Poll(2, Output(8)),
        ],
    )
}

#[test]
fn a_refused_copy_leaves_a_tick_asleep(rt: HostRuntime) -> Result<(), Fail> {
    play(
        &rt,
        &[
            MakeTick,
            Poll(0, Pending),
            Refuse(0),
            Poll(0, Pending),
            Count(0, WakerWake, 1),
            Count(0, WakerDrop, 0),
            Spawn(Ready(7)),
            Count(0, WakerWake, 2),
            Poll(0, Ticked),
        ],
    )
}

#[test]
fn a_refused_copy_leaves_a_tick_notified(rt: HostRuntime) -> Result<(), Fail> {
    play(
        &rt,
        &[
            MakeTick,
            MakeTick,
            Poll(0, Pending),
            Poll(1, Pending),
            Spawn(Ready(7)),
            Tick(true),
            Refuse(1),
            Poll(1, Pending),
            Count(1, WakerWake, 2),
            Count(0, WakerWake, 0),
            DropHandle(1),
            Count(0, WakerWake, 1),
        ],
    )
}

#[test]
fn a_tick_that_has_ended_gives_one_place_back(rt: HostRuntime) -> Result<(), Fail> {
    play(
        &rt,
        &[
            MakeTick,
            MakeTick,
            Spawn(Ready(7)),
            Poll(0, Ticked),
            Poll(0, Ticked),
            // The other one still has a place, and so sleeps.
            Poll(1, Pending),
            Count(1, WakerWake, 0),
        ],
    )
}

#[test]
fn a_drop_gives_one_place_back(rt: HostRuntime) -> Result<(), Fail> {
    play(
        &rt,
        &[
            // Before the first poll, parked, parked and notified, and after the end.
            MakeTick,
            MakeTick,
            MakeTick,
            MakeTick,
            MakeTick,
            DropHandle(0),
            Poll(1, Pending),
            DropHandle(1),
            Poll(2, Pending),
            Spawn(Ready(7)),
            Count(2, WakerWake, 1),
            DropHandle(2),
            Poll(3, Ticked),
            DropHandle(3),
            // The one that is left still has a place, and so sleeps.
            Poll(4, Pending),
            Count(4, WakerWake, 0),
            Spawn(Ready(8)),
            Count(4, WakerWake, 1),
        ],
    )
}
