//! What becomes of a task, and in which order, if it is cancelled or let go while another thread
//! polls or drops its future.
use crate::tests::support::running::future::Kind::{Never, Ready, WakesAndReady, Yields};
use crate::tests::support::running::line::Answer::{Cancelled, Output, Pending, Ticked};
use crate::tests::support::running::line::Line::{
    Cancel, Count, Detach, DropHandle, Empty, Finished, HaltAt, HaltsAgain, Poll, Returns, Spawn,
    Tick, TickHalts,
};
use crate::tests::support::running::player::play;
use crate::tests::support::running::record::Moment::{FutureDrop, FuturePoll, OutputDrop, WakerWake};
use std::test::Fail;

#[test]
fn a_task_that_is_cancelled_in_its_poll_gives_nothing(rt: HostRuntime) -> Result<(), Fail> {
    play(
        &rt,
        &[
            Spawn(WakesAndReady(7)),
            HaltAt(0, FuturePoll),
            Poll(0, Pending),
            TickHalts,
            Cancel(0),
            Returns(Ticked),
            Count(0, WakerWake, 1),
            Count(0, OutputDrop, 1),
            Count(0, FutureDrop, 1),
            Poll(0, Cancelled),
            Empty(true),
            Tick(false),
        ],
    )
}

#[test]
fn a_handle_that_goes_in_a_poll_leaves_the_output(rt: HostRuntime) -> Result<(), Fail> {
    play(
        &rt,
        &[
            Spawn(WakesAndReady(7)),
            HaltAt(0, FuturePoll),
            TickHalts,
            DropHandle(0),
            Returns(Ticked),
            Count(0, OutputDrop, 1),
            Count(0, FutureDrop, 1),
            Empty(true),
            Tick(false),
        ],
    )
}

#[test]
fn a_task_that_is_detached_in_its_poll_leaves_the_output(rt: HostRuntime) -> Result<(), Fail> {
    play(
        &rt,
        &[
            Spawn(WakesAndReady(7)),
            HaltAt(0, FuturePoll),
            TickHalts,
            Detach(0),
            Returns(Ticked),
            Count(0, OutputDrop, 1),
            Count(0, FutureDrop, 1),
            Empty(true),
            Tick(false),
        ],
    )
}

#[test]
fn a_pending_task_that_was_cancelled_is_dropped_at_once(rt: HostRuntime) -> Result<(), Fail> {
    play(
        &rt,
        &[
            Spawn(Yields(5)),
            HaltAt(0, FuturePoll),
            TickHalts,
            Cancel(0),
            Returns(Ticked),
            Count(0, FutureDrop, 1),
            Poll(0, Cancelled),
            Empty(true),
            Tick(false),
        ],
    )
}

#[test]
fn a_pending_task_that_was_cancelled_ends_after_its_future_is_dropped(
    rt: HostRuntime,
) -> Result<(), Fail> {
    play(
        &rt,
        &[
            Spawn(Never),
            HaltAt(0, FuturePoll),
            HaltAt(0, FutureDrop),
            TickHalts,
            Cancel(0),
            Poll(0, Pending),
            HaltsAgain,
            Count(0, FutureDrop, 1),
            Empty(false),
            Count(0, WakerWake, 0),
            Poll(0, Pending),
            Returns(Ticked),
            Empty(true),
            Count(0, WakerWake, 1),
            Poll(0, Cancelled),
        ],
    )
}

#[test]
fn a_cancelled_task_ends_after_its_future_is_dropped(rt: HostRuntime) -> Result<(), Fail> {
    play(
        &rt,
        &[
            Spawn(Never),
            HaltAt(0, FutureDrop),
            Cancel(0),
            Poll(0, Pending),
            TickHalts,
            Empty(false),
            Count(0, WakerWake, 0),
            Poll(0, Pending),
            Returns(Ticked),
            Empty(true),
            Count(0, WakerWake, 1),
            Poll(0, Cancelled),
        ],
    )
}

#[test]
fn a_task_ends_after_its_ready_future_is_dropped(rt: HostRuntime) -> Result<(), Fail> {
    play(
        &rt,
        &[
            Spawn(Ready(7)),
            HaltAt(0, FutureDrop),
            TickHalts,
            Finished(0, false),
            Empty(false),
            Returns(Ticked),
            Finished(0, true),
            Empty(true),
            Poll(0, Output(7)),
        ],
    )
}

#[test]
fn an_awaiter_is_woken_after_an_unwanted_output_is_dropped(rt: HostRuntime) -> Result<(), Fail> {
    play(
        &rt,
        &[
            Spawn(Ready(7)),
            HaltAt(0, FuturePoll),
            HaltAt(0, OutputDrop),
            TickHalts,
            Cancel(0),
            Poll(0, Pending),
            HaltsAgain,
            Count(0, OutputDrop, 1),
            Count(0, WakerWake, 0),
            Returns(Ticked),
            Count(0, WakerWake, 1),
            Poll(0, Cancelled),
        ],
    )
}
