//! Wakers of the caller's that use the same executor, by another thread, while they are woken, copied
//! and dropped.
use crate::tests::support::running::future::Kind::{LeavesWaker, Never, Ready};
use crate::tests::support::running::line::Answer::{Cancelled, Gone, Output, Pending, Ticked};
use crate::tests::support::running::line::Line::{
    AnotherWaker, Cancel, Count, Detach, DropHandle, Empty, HaltAt, MakeRun, MakeTick, OtherWoken,
    Poll, PollHalts, Returns, Shows, Spawn, SpawnHalts, Tick, TickHalts, Ticks, Wake, WakeHalts,
};
use crate::tests::support::running::player::play;
use crate::tests::support::running::record::Moment::{
    FutureDrop, FuturePoll, OutputDrop, WakerCopy, WakerDrop, WakerWake,
};
use std::test::Fail;

#[test]
fn the_awaiter_of_a_handle_asks_all_of_the_executor(rt: HostRuntime) -> Result<(), Fail> {
    play(
        &rt,
        &[
            Spawn(Ready(7)),
            Spawn(Ready(8)),
            HaltAt(0, WakerWake),
            Poll(0, Pending),
            TickHalts,
            Shows(1, 1, &[], 0),
            Empty(false),
            Tick(true),
            Shows(0, 0, &[], 0),
            Empty(true),
            Tick(false),
            Returns(Ticked),
            Count(0, WakerWake, 1),
            Poll(0, Output(7)),
            Poll(1, Output(8)),
        ],
    )
}

#[test]
fn the_waker_of_a_tick_asks_all_of_the_executor(rt: HostRuntime) -> Result<(), Fail> {
    play(
        &rt,
        &[
            MakeTick,
            HaltAt(0, WakerWake),
            Poll(0, Pending),
            Shows(0, 0, &[], 1),
            SpawnHalts,
            Shows(1, 1, &[], 1),
            Empty(false),
            Tick(true),
            Shows(0, 0, &[], 1),
            Empty(true),
            Tick(false),
            Returns(Gone),
            Poll(0, Pending),
        ],
    )
}

#[test]
fn the_waker_of_a_run_asks_all_of_the_executor(rt: HostRuntime) -> Result<(), Fail> {
    play(
        &rt,
        &[
            MakeRun(Never),
            Spawn(LeavesWaker(5)),
            HaltAt(0, WakerWake),
            Poll(0, Pending),
            Shows(1, 0, &[0], 1),
            WakeHalts(1),
            Shows(1, 1, &[0], 1),
            Tick(true),
            Count(1, FuturePoll, 2),
            Shows(1, 0, &[0], 1),
            Empty(false),
            Tick(false),
            Returns(Gone),
        ],
    )
}

#[test]
fn handles_are_dropped_while_the_waker_of_a_handle_is_copied(rt: HostRuntime) -> Result<(), Fail> {
    play(
        &rt,
        &[
            Spawn(Never),
            Spawn(Ready(8)),
            Spawn(Ready(9)),
            HaltAt(0, WakerCopy),
            PollHalts(0),
            DropHandle(1),
            Detach(2),
            Ticks(3),
            Count(1, FuturePoll, 0),
            Count(1, FutureDrop, 1),
            Count(2, OutputDrop, 1),
            Returns(Pending),
            Shows(1, 0, &[], 0),
        ],
    )
}

// The task ends after the handle was found without an output, and before its waker is there.
#[test]
fn a_task_ends_while_its_awaiter_is_copied(rt: HostRuntime) -> Result<(), Fail> {
    play(
        &rt,
        &[
            Spawn(Ready(7)),
            HaltAt(0, WakerCopy),
            PollHalts(0),
            Tick(true),
            Returns(Output(7)),
            Count(0, WakerWake, 0),
            Count(0, OutputDrop, 1),
            Poll(0, Cancelled),
        ],
    )
}

#[test]
fn handles_are_dropped_while_the_waker_of_a_tick_is_copied(rt: HostRuntime) -> Result<(), Fail> {
    play(
        &rt,
        &[
            MakeTick,
            Spawn(LeavesWaker(5)),
            Tick(true),
            HaltAt(0, WakerCopy),
            PollHalts(0),
            DropHandle(1),
            Shows(1, 1, &[], 0),
            Returns(Ticked),
            Count(1, FuturePoll, 1),
            Count(1, FutureDrop, 1),
            Shows(0, 0, &[], 0),
        ],
    )
}

#[test]
fn a_handle_is_dropped_while_an_earlier_waker_is_dropped(rt: HostRuntime) -> Result<(), Fail> {
    play(
        &rt,
        &[
            Spawn(Never),
            Spawn(Ready(8)),
            Poll(0, Pending),
            AnotherWaker(0),
            HaltAt(0, WakerDrop),
            PollHalts(0),
            DropHandle(1),
            Shows(2, 2, &[], 0),
            Ticks(2),
            Count(1, FuturePoll, 0),
            Count(1, FutureDrop, 1),
            Returns(Pending),
            Shows(1, 0, &[], 0),
        ],
    )
}

#[test]
fn a_handle_is_dropped_while_the_earlier_waker_of_a_run_is_dropped(
    rt: HostRuntime,
) -> Result<(), Fail> {
    play(
        &rt,
        &[
            MakeRun(Never),
            Spawn(LeavesWaker(5)),
            Poll(0, Pending),
            AnotherWaker(0),
            HaltAt(0, WakerDrop),
            PollHalts(0),
            DropHandle(1),
            OtherWoken(0, 1),
            Shows(1, 1, &[0], 1),
            Returns(Pending),
            Poll(0, Pending),
            Count(1, FutureDrop, 1),
            Shows(0, 0, &[0], 1),
        ],
    )
}

// The task ends while the awaiter of an earlier poll is dropped: the later one alone is woken.
#[test]
fn the_later_awaiter_is_woken_while_the_earlier_is_dropped(rt: HostRuntime) -> Result<(), Fail> {
    play(
        &rt,
        &[
            Spawn(Ready(7)),
            Poll(0, Pending),
            AnotherWaker(0),
            HaltAt(0, WakerDrop),
            PollHalts(0),
            Tick(true),
            OtherWoken(0, 1),
            Count(0, WakerWake, 0),
            Returns(Pending),
            Poll(0, Output(7)),
        ],
    )
}

// The same of a tick.
#[test]
fn the_later_waker_of_a_tick_is_woken_while_the_earlier_is_dropped(
    rt: HostRuntime,
) -> Result<(), Fail> {
    play(
        &rt,
        &[
            MakeTick,
            Poll(0, Pending),
            AnotherWaker(0),
            HaltAt(0, WakerDrop),
            PollHalts(0),
            Spawn(Ready(7)),
            OtherWoken(0, 1),
            Count(0, WakerWake, 0),
            Returns(Pending),
            Poll(0, Ticked),
            Poll(1, Output(7)),
        ],
    )
}

#[test]
fn an_awaiter_cancels_the_task_that_wakes_it(rt: HostRuntime) -> Result<(), Fail> {
    play(
        &rt,
        &[
            Spawn(Ready(7)),
            HaltAt(0, WakerWake),
            Poll(0, Pending),
            TickHalts,
            Cancel(0),
            Poll(0, Output(7)),
            Empty(true),
            Returns(Ticked),
            Count(0, WakerWake, 1),
            Count(0, FutureDrop, 1),
            Tick(false),
        ],
    )
}

#[test]
fn an_awaiter_drops_the_handle_that_wakes_it(rt: HostRuntime) -> Result<(), Fail> {
    play(
        &rt,
        &[
            Spawn(Ready(7)),
            HaltAt(0, WakerWake),
            Poll(0, Pending),
            TickHalts,
            DropHandle(0),
            Count(0, OutputDrop, 1),
            // The slot is another task's while the awaiter is still woken.
            Spawn(Ready(8)),
            Tick(true),
            Returns(Ticked),
            Count(0, WakerWake, 1),
            Count(0, FutureDrop, 1),
            Count(1, WakerWake, 0),
            Poll(1, Output(8)),
        ],
    )
}

// The awaiter is woken by the drop of the future that it cancelled, and drops the handle there.
#[test]
fn an_awaiter_drops_the_handle_that_it_cancelled(rt: HostRuntime) -> Result<(), Fail> {
    play(
        &rt,
        &[
            Spawn(LeavesWaker(5)),
            Tick(true),
            HaltAt(0, WakerWake),
            Poll(0, Pending),
            Cancel(0),
            TickHalts,
            Wake(0),
            DropHandle(0),
            Returns(Ticked),
            Count(0, WakerWake, 1),
            Count(0, FuturePoll, 1),
            Count(0, FutureDrop, 1),
            Empty(true),
            Tick(false),
        ],
    )
}
