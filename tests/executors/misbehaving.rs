//! Futures that do all that they may: in their polls and their drops other threads use the same
//! executor.
use crate::tests::support::running::future::Kind::{LeavesWaker, Never, Ready, WakesAtDrop, Yields};
use crate::tests::support::running::line::Answer::{Pending, Ticked};
use crate::tests::support::running::line::Line::{
    Cancel, Count, Detach, DropExecutor, DropHandle, Empty, HaltAt, HandWaker, MakeRun, MakeTick,
    Poll, PollHalts, Returns, Shows, Spawn, Tick, TickHalts, Ticks, Wake, WakeElsewhere,
};
use crate::tests::support::running::player::play;
use crate::tests::support::running::record::Moment::{FutureDrop, FuturePoll, WakerWake};
use std::test::Fail;

#[test]
fn one_that_wakes_itself_in_every_poll_ends_the_turn_of_a_run(rt: HostRuntime) -> Result<(), Fail> {
    play(
        &rt,
        &[
            Spawn(Yields(u64::MAX)),
            Detach(0),
            MakeRun(Never),
            Poll(1, Pending),
            Count(0, FuturePoll, 200),
            Count(1, WakerWake, 1),
            Poll(1, Pending),
            Count(0, FuturePoll, 400),
            Count(1, WakerWake, 2),
            Empty(false),
        ],
    )
}

#[test]
fn the_handle_of_a_scheduled_task_is_dropped_in_a_poll(rt: HostRuntime) -> Result<(), Fail> {
    play(
        &rt,
        &[
            Spawn(Ready(7)),
            Spawn(Ready(8)),
            HaltAt(0, FuturePoll),
            TickHalts,
            DropHandle(1),
            Returns(Ticked),
            Tick(true),
            Count(1, FuturePoll, 0),
            Count(1, FutureDrop, 1),
            Tick(false),
        ],
    )
}

#[test]
fn a_task_is_spawned_in_a_poll(rt: HostRuntime) -> Result<(), Fail> {
    play(
        &rt,
        &[
            Spawn(Ready(7)),
            HaltAt(0, FuturePoll),
            TickHalts,
            Spawn(Ready(8)),
            Detach(1),
            Returns(Ticked),
            Count(0, FutureDrop, 1),
            Empty(false),
            Tick(true),
            Count(1, FuturePoll, 1),
            Empty(true),
            Tick(false),
        ],
    )
}

#[test]
fn a_tick_is_made_and_polled_in_a_poll(rt: HostRuntime) -> Result<(), Fail> {
    play(
        &rt,
        &[
            Spawn(Ready(7)),
            Spawn(Ready(8)),
            HaltAt(0, FuturePoll),
            TickHalts,
            MakeTick,
            Poll(2, Ticked),
            Count(1, FuturePoll, 1),
            Count(1, FutureDrop, 1),
            Count(0, FutureDrop, 0),
            Returns(Ticked),
            Count(0, FutureDrop, 1),
            Tick(false),
        ],
    )
}

#[test]
fn one_wakes_another_task_as_it_is_dropped(rt: HostRuntime) -> Result<(), Fail> {
    play(
        &rt,
        &[
            Spawn(WakesAtDrop),
            Spawn(LeavesWaker(5)),
            Ticks(2),
            HandWaker(1, 0),
            Cancel(0),
            Tick(true),
            Count(0, FuturePoll, 1),
            Count(0, FutureDrop, 1),
            Count(1, FuturePoll, 1),
            Tick(true),
            Count(1, FuturePoll, 2),
            Tick(false),
        ],
    )
}

// The same in a run, which takes the woken task in the same poll.
#[test]
fn one_wakes_another_task_as_a_run_drops_it(rt: HostRuntime) -> Result<(), Fail> {
    play(
        &rt,
        &[
            MakeRun(Never),
            Spawn(WakesAtDrop),
            Spawn(LeavesWaker(5)),
            Poll(0, Pending),
            HandWaker(2, 1),
            DropHandle(1),
            Poll(0, Pending),
            Count(1, FuturePoll, 1),
            Count(1, FutureDrop, 1),
            Count(2, FuturePoll, 2),
            Shows(1, 0, &[0], 1),
            Tick(false),
        ],
    )
}

#[test]
fn one_wakes_itself_as_it_is_dropped(rt: HostRuntime) -> Result<(), Fail> {
    play(
        &rt,
        &[
            Spawn(WakesAtDrop),
            Tick(true),
            Cancel(0),
            Tick(true),
            Count(0, FuturePoll, 1),
            Count(0, FutureDrop, 1),
            Empty(true),
            Shows(0, 0, &[], 0),
            Tick(false),
        ],
    )
}

#[test]
fn wakers_of_ended_and_idle_tasks_outlive_the_executor(rt: HostRuntime) -> Result<(), Fail> {
    play(
        &rt,
        &[
            Spawn(LeavesWaker(1)),
            Spawn(LeavesWaker(5)),
            Spawn(LeavesWaker(5)),
            Spawn(LeavesWaker(5)),
            Ticks(4),
            Wake(0),
            Tick(true),
            Count(0, FutureDrop, 1),
            Cancel(1),
            Tick(true),
            Count(1, FutureDrop, 1),
            Cancel(2),
            Count(2, FutureDrop, 0),
            Empty(false),
            DropExecutor,
            Count(2, FutureDrop, 1),
            Count(3, FutureDrop, 1),
            Wake(0),
            Wake(1),
            Wake(2),
            Wake(3),
            WakeElsewhere(0),
            WakeElsewhere(1),
            WakeElsewhere(2),
            WakeElsewhere(3),
            Count(0, FuturePoll, 2),
            Count(1, FuturePoll, 1),
            Count(2, FuturePoll, 1),
            Count(3, FuturePoll, 1),
            Count(0, FutureDrop, 1),
            Count(1, FutureDrop, 1),
            Count(2, FutureDrop, 1),
            Count(3, FutureDrop, 1),
        ],
    )
}

#[test]
fn a_task_is_spawned_and_run_in_a_drop(rt: HostRuntime) -> Result<(), Fail> {
    play(
        &rt,
        &[
            Spawn(Never),
            HaltAt(0, FutureDrop),
            Cancel(0),
            TickHalts,
            Spawn(Ready(8)),
            Shows(2, 1, &[], 0),
            Tick(true),
            Count(1, FuturePoll, 1),
            Empty(false),
            Returns(Ticked),
            Empty(true),
            Tick(false),
        ],
    )
}

#[test]
fn a_task_is_spawned_and_run_in_a_drop_by_a_run(rt: HostRuntime) -> Result<(), Fail> {
    play(
        &rt,
        &[
            MakeRun(Never),
            Spawn(Never),
            HaltAt(1, FutureDrop),
            DropHandle(1),
            PollHalts(0),
            Spawn(Ready(8)),
            Shows(2, 1, &[0], 0),
            Tick(true),
            Count(2, FuturePoll, 1),
            Returns(Pending),
            Shows(0, 0, &[0], 1),
            Empty(true),
            Tick(false),
        ],
    )
}
