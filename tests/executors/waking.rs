//! What a task's waker does, and what it no longer does.
use crate::tests::support::running::future::Kind::{LeavesWaker, WakesTwice};
use crate::tests::support::running::line::Answer::{Output, Pending};
use crate::tests::support::running::line::Line::{
    Count, Detach, DropExecutor, DropHandle, Poll, Spawn, Tick, Wake, WakeCopy, WakeElsewhere,
};
use crate::tests::support::running::player::play;
use crate::tests::support::running::record::Moment::{FutureDrop, FuturePoll, WakerWake};
use std::test::Fail;

#[test]
fn an_idle_task_is_scheduled_once(rt: HostRuntime) -> Result<(), Fail> {
    play(
        &rt,
        &[
            Spawn(LeavesWaker(5)),
            Detach(0),
            Tick(true),
            Tick(false),
            Wake(0),
            WakeCopy(0),
            Wake(0),
            Tick(true),
            Tick(false),
            Count(0, FuturePoll, 2),
        ],
    )
}

#[test]
fn a_task_that_wakes_itself_twice_is_polled_again(rt: HostRuntime) -> Result<(), Fail> {
    play(
        &rt,
        &[
            Spawn(WakesTwice),
            Tick(true),
            Tick(true),
            Poll(0, Output(2)),
            Tick(false),
        ],
    )
}

#[test]
fn a_waker_of_another_thread_wakes(rt: HostRuntime) -> Result<(), Fail> {
    play(
        &rt,
        &[
            Spawn(LeavesWaker(1)),
            Tick(true),
            Poll(0, Pending),
            WakeElsewhere(0),
            Tick(true),
            Count(0, WakerWake, 1),
            Poll(0, Output(2)),
            Count(0, FuturePoll, 2),
            Count(0, FutureDrop, 1),
        ],
    )
}

#[test]
fn a_waker_outlives_its_task(rt: HostRuntime) -> Result<(), Fail> {
    play(
        &rt,
        &[
            Spawn(LeavesWaker(1)),
            Tick(true),
            Wake(0),
            Tick(true),
            Wake(0),
            Tick(false),
            Poll(0, Output(2)),
            Wake(0),
            Tick(false),
            // A later task may have the slot of the earlier one, whose waker does not wake it.
            Spawn(LeavesWaker(1)),
            Tick(true),
            Wake(0),
            Tick(false),
            DropHandle(1),
            DropExecutor,
            Wake(0),
            Count(0, FuturePoll, 2),
            Count(1, FuturePoll, 1),
            Count(0, FutureDrop, 1),
            Count(1, FutureDrop, 1),
        ],
    )
}

#[test]
fn a_waker_outlives_the_executor(rt: HostRuntime) -> Result<(), Fail> {
    play(
        &rt,
        &[
            Spawn(LeavesWaker(1)),
            Detach(0),
            Tick(true),
            DropExecutor,
            Count(0, FuturePoll, 1),
            Count(0, FutureDrop, 1),
            WakeElsewhere(0),
            Count(0, FuturePoll, 1),
            Count(0, FutureDrop, 1),
        ],
    )
}
