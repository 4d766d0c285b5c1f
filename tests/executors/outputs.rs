//! What handles give.
use crate::tests::support::running::future::Kind::{Never, Ready, Yields};
use crate::tests::support::running::line::Answer::{Cancelled, Output, Pending};
use crate::tests::support::running::line::Line::{
    AnotherWaker, Cancel, Count, Detach, Empty, Finished, OtherWoken, Poll, Refuse, Spawn, Tick,
};
use crate::tests::support::running::player::play;
use crate::tests::support::running::record::Moment::{OutputDrop, WakerWake};
use std::test::Fail;

#[test]
fn one_task_gives_its_output(rt: HostRuntime) -> Result<(), Fail> {
    play(
        &rt,
        &[
            Empty(true),
            Tick(false),
            Spawn(Ready(7)),
            Empty(false),
            Tick(true),
            Empty(true),
            Poll(0, Output(7)),
            Tick(false),
        ],
    )
}

#[test]
fn an_awaiter_is_woken_once(rt: HostRuntime) -> Result<(), Fail> {
    play(
        &rt,
        &[
            Spawn(Ready(7)),
            Finished(0, false),
            Poll(0, Pending),
            Tick(true),
            Count(0, WakerWake, 1),
            Finished(0, true),
            Poll(0, Output(7)),
            Finished(0, true),
            Poll(0, Cancelled),
            Count(0, WakerWake, 1),
        ],
    )
}

#[test]
fn the_last_waker_is_woken(rt: HostRuntime) -> Result<(), Fail> {
    play(
        &rt,
        &[
            Spawn(Ready(7)),
            Poll(0, Pending),
            AnotherWaker(0),
            Poll(0, Pending),
            Tick(true),
            Count(0, WakerWake, 0),
            OtherWoken(0, 1),
        ],
    )
}

#[test]
fn two_handles_are_awaited(rt: HostRuntime) -> Result<(), Fail> {
    play(
        &rt,
        &[
            Spawn(Ready(1)),
            Spawn(Ready(2)),
            Poll(1, Pending),
            Poll(0, Pending),
            Tick(true),
            Count(0, WakerWake, 1),
            Count(1, WakerWake, 0),
            Tick(true),
            Count(0, WakerWake, 1),
            Count(1, WakerWake, 1),
            Poll(1, Output(2)),
            Poll(0, Output(1)),
        ],
    )
}

#[test]
fn a_task_that_wakes_itself_is_polled_again(rt: HostRuntime) -> Result<(), Fail> {
    play(
        &rt,
        &[
            Spawn(Yields(3)),
            Empty(false),
            Tick(true),
            Empty(false),
            Tick(true),
            Empty(false),
            Tick(true),
            Empty(false),
            Tick(true),
            Empty(true),
            Tick(false),
            Poll(0, Output(4)),
        ],
    )
}

#[test]
fn detached_tasks_run_in_order(rt: HostRuntime) -> Result<(), Fail> {
    play(
        &rt,
        &[
            Spawn(Ready(1)),
            Detach(0),
            Spawn(Ready(2)),
            Detach(1),
            Count(0, OutputDrop, 0),
            Count(1, OutputDrop, 0),
            Tick(true),
            Count(0, OutputDrop, 1),
            Count(1, OutputDrop, 0),
            Tick(true),
            Count(0, OutputDrop, 1),
            Count(1, OutputDrop, 1),
            Empty(true),
        ],
    )
}

#[test]
fn a_waker_that_cannot_be_copied_is_woken_at_once(rt: HostRuntime) -> Result<(), Fail> {
    play(
        &rt,
        &[
            Spawn(Ready(7)),
            Refuse(0),
            Poll(0, Pending),
            Count(0, WakerWake, 1),
            Tick(true),
            // Nothing was registered, so the end wakes nobody.
            Count(0, WakerWake, 1),
            // What is there is given without a copy.
            Poll(0, Output(7)),
            Poll(0, Cancelled),
            Count(0, WakerWake, 1),
        ],
    )
}

#[test]
fn a_cancelled_task_answers_without_a_copy_of_the_waker(rt: HostRuntime) -> Result<(), Fail> {
    play(
        &rt,
        &[
            Spawn(Never),
            Cancel(0),
            Refuse(0),
            Poll(0, Pending),
            Count(0, WakerWake, 1),
            Tick(true),
            Count(0, WakerWake, 1),
            Poll(0, Cancelled),
            Count(0, WakerWake, 1),
        ],
    )
}
