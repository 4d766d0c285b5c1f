//! When futures and outputs are dropped, whatever ends first.
use crate::tests::support::running::future::Kind::{KeepsWaker, Never, Ready};
use crate::tests::support::running::line::Answer::Output;
use crate::tests::support::running::line::Line::{
    Count, Detach, DropExecutor, DropHandle, DropOutput, Empty, Poll, Spawn, Tick,
};
use crate::tests::support::running::player::play;
use crate::tests::support::running::record::Moment::{FutureDrop, FuturePoll, OutputDrop};
use std::test::Fail;

#[test]
fn an_output_outlives_the_executor(rt: HostRuntime) -> Result<(), Fail> {
    play(
        &rt,
        &[
            Spawn(Ready(7)),
            Tick(true),
            Count(0, OutputDrop, 0),
            DropExecutor,
            Count(0, OutputDrop, 0),
            DropHandle(0),
            Count(0, OutputDrop, 1),
        ],
    )
}

#[test]
fn an_output_goes_with_its_handle(rt: HostRuntime) -> Result<(), Fail> {
    play(
        &rt,
        &[
            Spawn(Ready(7)),
            Tick(true),
            Count(0, OutputDrop, 0),
            DropHandle(0),
            Count(0, OutputDrop, 1),
            Spawn(Ready(8)),
            Tick(true),
            Detach(1),
            Count(1, OutputDrop, 1),
            DropExecutor,
            Count(0, OutputDrop, 1),
            Count(1, OutputDrop, 1),
        ],
    )
}

#[test]
fn an_output_that_was_given_is_dropped_by_its_owner(rt: HostRuntime) -> Result<(), Fail> {
    play(
        &rt,
        &[
            Spawn(Ready(7)),
            Tick(true),
            Poll(0, Output(7)),
            DropHandle(0),
            DropExecutor,
            Count(0, OutputDrop, 0),
            DropOutput(0),
            Count(0, OutputDrop, 1),
        ],
    )
}

#[test]
fn a_future_that_was_not_run_is_dropped_once(rt: HostRuntime) -> Result<(), Fail> {
    play(
        &rt,
        &[
            Spawn(Never),
            DropExecutor,
            DropHandle(0),
            Count(0, FuturePoll, 0),
            Count(0, FutureDrop, 1),
        ],
    )?;
    play(
        &rt,
        &[
            Spawn(Never),
            DropHandle(0),
            Count(0, FutureDrop, 0),
            DropExecutor,
            Count(0, FuturePoll, 0),
            Count(0, FutureDrop, 1),
        ],
    )
}

#[test]
fn an_idle_future_is_dropped_once(rt: HostRuntime) -> Result<(), Fail> {
    play(
        &rt,
        &[
            Spawn(Never),
            Spawn(Never),
            Detach(1),
            Tick(true),
            Tick(true),
            Empty(false),
            Count(0, FuturePoll, 1),
            Count(1, FuturePoll, 1),
            Count(0, FutureDrop, 0),
            Count(1, FutureDrop, 0),
            DropExecutor,
            DropHandle(0),
            Count(0, FuturePoll, 1),
            Count(1, FuturePoll, 1),
            Count(0, FutureDrop, 1),
            Count(1, FutureDrop, 1),
        ],
    )
}

#[test]
fn a_future_that_keeps_its_waker_is_dropped_once(rt: HostRuntime) -> Result<(), Fail> {
    play(
        &rt,
        &[
            Spawn(KeepsWaker),
            Detach(0),
            Tick(true),
            Count(0, FutureDrop, 0),
            DropExecutor,
            Count(0, FutureDrop, 1),
        ],
    )
}
