//! What becomes of tasks that are cancelled.
use crate::tests::support::running::future::Kind::{LeavesWaker, Never, Ready};
use crate::tests::support::running::line::Answer::{Cancelled, Output, Pending};
use crate::tests::support::running::line::Line::{
    Cancel, Count, Detach, DropHandle, Empty, Fallible, Finished, Poll, Spawn, Tick,
};
use crate::tests::support::running::player::play;
use crate::tests::support::running::record::Moment::{FutureDrop, FuturePoll, OutputDrop, WakerDrop, WakerWake};
use std::test::Fail;

#[test]
fn a_cancel_after_the_end_gives_the_output(rt: HostRuntime) -> Result<(), Fail> {
    play(
        &rt,
        &[
            Spawn(Ready(7)),
            Tick(true),
            Cancel(0),
            Poll(0, Output(7)),
            Poll(0, Cancelled),
            Tick(false),
        ],
    )
}

#[test]
fn a_fallible_task_gives_the_output(rt: HostRuntime) -> Result<(), Fail> {
    play(
        &rt,
        &[
            Spawn(Ready(7)),
            Tick(true),
            Fallible(0),
            Finished(0, true),
            Poll(0, Output(7)),
            Poll(0, Cancelled),
            Spawn(Ready(8)),
            Fallible(1),
            Finished(1, false),
            Cancel(1),
            Tick(true),
            Poll(1, Cancelled),
        ],
    )
}

#[test]
fn a_cancelled_task_is_dropped_unpolled(rt: HostRuntime) -> Result<(), Fail> {
    play(
        &rt,
        &[
            Spawn(Never),
            Cancel(0),
            Poll(0, Pending),
            Empty(false),
            Tick(true),
            Empty(true),
            Count(0, WakerWake, 1),
            Poll(0, Cancelled),
            Count(0, FuturePoll, 0),
            Count(0, FutureDrop, 1),
            Tick(false),
        ],
    )
}

#[test]
fn an_idle_task_that_is_cancelled_is_scheduled(rt: HostRuntime) -> Result<(), Fail> {
    play(
        &rt,
        &[
            Spawn(Never),
            Tick(true),
            Tick(false),
            Poll(0, Pending),
            Cancel(0),
            Count(0, WakerWake, 0),
            Poll(0, Pending),
            Tick(true),
            Count(0, WakerWake, 1),
            Poll(0, Cancelled),
            Count(0, FuturePoll, 1),
            Count(0, FutureDrop, 1),
        ],
    )
}

#[test]
fn a_cancel_wakes_nobody_who_awaits(rt: HostRuntime) -> Result<(), Fail> {
    play(
        &rt,
        &[
            Spawn(Ready(7)),
            Poll(0, Pending),
            Cancel(0),
            Count(0, WakerWake, 0),
            Tick(true),
            Count(0, FutureDrop, 1),
            Count(0, WakerWake, 1),
            // Without a handle, not even then.
            Spawn(Ready(8)),
            Poll(1, Pending),
            DropHandle(1),
            Count(1, WakerWake, 0),
            Count(1, WakerDrop, 1),
            Tick(true),
            Count(1, FutureDrop, 1),
            Count(1, WakerWake, 0),
        ],
    )
}

#[test]
fn a_detached_task_wakes_nobody_at_its_end(rt: HostRuntime) -> Result<(), Fail> {
    play(
        &rt,
        &[
            Spawn(Ready(7)),
            Poll(0, Pending),
            Detach(0),
            Count(0, WakerDrop, 1),
            Tick(true),
            Count(0, OutputDrop, 1),
            Count(0, WakerWake, 0),
        ],
    )
}

#[test]
fn a_dropped_handle_cancels(rt: HostRuntime) -> Result<(), Fail> {
    play(
        &rt,
        &[
            Spawn(Never),
            DropHandle(0),
            Spawn(Never),
            Fallible(1),
            DropHandle(1),
            Spawn(Never),
            Cancel(2),
            DropHandle(2),
            Empty(false),
            Count(0, FutureDrop, 0),
            Tick(true),
            Count(0, FutureDrop, 1),
            Count(1, FutureDrop, 0),
            Tick(true),
            Count(1, FutureDrop, 1),
            Count(2, FutureDrop, 0),
            Tick(true),
            Count(2, FutureDrop, 1),
            Count(0, FuturePoll, 0),
            Count(1, FuturePoll, 0),
            Count(2, FuturePoll, 0),
            Empty(true),
            Tick(false),
        ],
    )
}

#[test]
fn a_dropped_cancel_lets_the_task_go(rt: HostRuntime) -> Result<(), Fail> {
    play(
        &rt,
        &[
            Spawn(Never),
            Tick(true),
            Cancel(0),
            Poll(0, Pending),
            DropHandle(0),
            Tick(true),
            // The waker went with the handle.
            Count(0, WakerWake, 0),
            Count(0, FuturePoll, 1),
            Count(0, FutureDrop, 1),
            Empty(true),
        ],
    )
}

#[test]
fn detached_tasks_are_not_cancelled(rt: HostRuntime) -> Result<(), Fail> {
    play(
        &rt,
        &[
            Spawn(LeavesWaker(0)),
            Detach(0),
            Spawn(LeavesWaker(0)),
            Fallible(1),
            Detach(1),
            Tick(true),
            Tick(true),
            Count(0, FuturePoll, 1),
            Count(1, FuturePoll, 1),
            Count(0, FutureDrop, 1),
            Count(1, FutureDrop, 1),
            Empty(true),
        ],
    )
}
