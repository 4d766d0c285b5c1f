//! No lock is held while something of the caller's runs: it halts, and another thread uses the same
//! executor.
use crate::tests::support::running::future::Kind::{LeavesWaker, Never, Ready, Yields};
use crate::tests::support::running::line::Answer::{Gone, Output, Pending, Ticked};
use crate::tests::support::running::line::Line;
use crate::tests::support::running::line::Line::{
    AnotherWaker, Cancel, CancelHalts, Count, Detach, DetachHalts, DropHalts, DropHandle, HaltAt,
    HaltsAgain, MakeTick, PassOnAt, Poll, PollHalts, Refuse, Returns, Spawn, SpawnHalts, SpawnMany,
    Tick, TickAny, TickHalts, Used, WakeHalts,
};
use crate::tests::support::running::player::play;
use crate::tests::support::running::record::Moment::{
    FutureDrop, FuturePoll, OutputDrop, WakerCopy, WakerDrop, WakerWake,
};
use std::test::Fail;

#[test]
fn while_a_future_is_polled(rt: HostRuntime) -> Result<(), Fail> {
    play(
        &rt,
        &[
            Spawn(Ready(7)),
            HaltAt(0, FuturePoll),
            Detach(0),
            TickHalts,
            Used,
            Count(1, FutureDrop, 1),
            Returns(Ticked),
            Count(0, FutureDrop, 1),
        ],
    )
}

#[test]
fn while_a_future_is_dropped(rt: HostRuntime) -> Result<(), Fail> {
    play(
        &rt,
        &[
            Spawn(Ready(7)),
            HaltAt(0, FutureDrop),
            Detach(0),
            TickHalts,
            Used,
            Count(1, FutureDrop, 1),
            Returns(Ticked),
            Count(0, FutureDrop, 1),
        ],
    )
}

#[test]
fn while_a_cancelled_future_is_dropped(rt: HostRuntime) -> Result<(), Fail> {
    play(
        &rt,
        &[
            Spawn(Ready(7)),
            HaltAt(0, FutureDrop),
            DropHandle(0),
            TickHalts,
            Used,
            Count(1, FutureDrop, 1),
            Returns(Ticked),
            Count(0, FuturePoll, 0),
            Count(0, FutureDrop, 1),
        ],
    )
}

#[test]
fn while_an_unwanted_output_is_dropped(rt: HostRuntime) -> Result<(), Fail> {
    play(
        &rt,
        &[
            Spawn(Ready(7)),
            HaltAt(0, OutputDrop),
            Detach(0),
            TickHalts,
            Used,
            Returns(Ticked),
        ],
    )
}

#[test]
fn while_a_handle_drops_its_output(rt: HostRuntime) -> Result<(), Fail> {
    play(
        &rt,
        &[
            Spawn(Ready(7)),
            HaltAt(0, OutputDrop),
            Tick(true),
            DropHalts(0),
            Used,
            Returns(Gone),
        ],
    )
}

#[test]
fn while_a_detached_output_is_dropped(rt: HostRuntime) -> Result<(), Fail> {
    play(
        &rt,
        &[
            Spawn(Ready(7)),
            HaltAt(0, OutputDrop),
            Tick(true),
            DetachHalts(0),
            Used,
            Returns(Gone),
        ],
    )
}

#[test]
fn while_an_awaiter_is_woken(rt: HostRuntime) -> Result<(), Fail> {
    play(
        &rt,
        &[
            Spawn(Ready(7)),
            HaltAt(0, WakerWake),
            Poll(0, Pending),
            TickHalts,
            Used,
            Returns(Ticked),
        ],
    )
}

#[test]
fn while_the_awaiter_of_a_cancel_is_woken(rt: HostRuntime) -> Result<(), Fail> {
    play(
        &rt,
        &[
            Spawn(Ready(7)),
            HaltAt(0, WakerWake),
            Cancel(0),
            Poll(0, Pending),
            TickHalts,
            Used,
            Returns(Ticked),
        ],
    )
}

#[test]
fn while_an_earlier_waker_is_dropped(rt: HostRuntime) -> Result<(), Fail> {
    play(
        &rt,
        &[
            Spawn(Never),
            HaltAt(0, WakerDrop),
            Poll(0, Pending),
            AnotherWaker(0),
            PollHalts(0),
            Used,
            Returns(Pending),
        ],
    )
}

#[test]
fn while_a_handle_drops_its_waker(rt: HostRuntime) -> Result<(), Fail> {
    play(
        &rt,
        &[
            Spawn(Ready(7)),
            HaltAt(0, WakerDrop),
            Poll(0, Pending),
            DropHalts(0),
            Used,
            Returns(Gone),
        ],
    )
}

#[test]
fn while_a_detached_waker_is_dropped(rt: HostRuntime) -> Result<(), Fail> {
    play(
        &rt,
        &[
            Spawn(Ready(7)),
            HaltAt(0, WakerDrop),
            Poll(0, Pending),
            DetachHalts(0),
            Used,
            Returns(Gone),
        ],
    )
}

#[test]
fn while_a_waker_is_copied(rt: HostRuntime) -> Result<(), Fail> {
    play(
        &rt,
        &[
            Spawn(Never),
            HaltAt(0, WakerCopy),
            PollHalts(0),
            Used,
            Returns(Pending),
        ],
    )
}

#[test]
fn while_a_waker_that_cannot_be_copied_is_woken(rt: HostRuntime) -> Result<(), Fail> {
    play(
        &rt,
        &[
            Spawn(Never),
            Refuse(0),
            HaltAt(0, WakerWake),
            PollHalts(0),
            Used,
            Returns(Pending),
        ],
    )
}

#[test]
fn while_a_waker_that_is_not_needed_is_dropped(rt: HostRuntime) -> Result<(), Fail> {
    play(
        &rt,
        &[
            Spawn(Ready(7)),
            HaltAt(0, WakerCopy),
            HaltAt(0, WakerDrop),
            PollHalts(0),
            // The task ends while the waker is copied, so the copy is not needed.
            Tick(true),
            HaltsAgain,
            Used,
            Returns(Output(7)),
        ],
    )
}

#[test]
fn while_a_tick_polls_a_future(rt: HostRuntime) -> Result<(), Fail> {
    play(
        &rt,
        &[
            MakeTick,
            Poll(0, Pending),
            Spawn(Ready(7)),
            HaltAt(1, FuturePoll),
            PollHalts(0),
            Used,
            Returns(Ticked),
            Poll(1, Output(7)),
        ],
    )
}

#[test]
fn while_a_spawn_wakes_a_tick(rt: HostRuntime) -> Result<(), Fail> {
    play(
        &rt,
        &[
            MakeTick,
            Poll(0, Pending),
            HaltAt(0, WakerWake),
            SpawnHalts,
            Used,
            Returns(Gone),
            Count(0, WakerWake, 1),
        ],
    )
}

#[test]
fn while_a_wake_wakes_a_tick(rt: HostRuntime) -> Result<(), Fail> {
    play(
        &rt,
        &[
            Spawn(LeavesWaker(1)),
            Tick(true),
            MakeTick,
            Poll(1, Pending),
            HaltAt(1, WakerWake),
            WakeHalts(0),
            Used,
            Returns(Gone),
            Count(1, WakerWake, 1),
        ],
    )
}

#[test]
fn while_a_cancel_wakes_a_tick(rt: HostRuntime) -> Result<(), Fail> {
    play(
        &rt,
        &[
            Spawn(Never),
            Tick(true),
            MakeTick,
            Poll(1, Pending),
            HaltAt(1, WakerWake),
            CancelHalts(0),
            Used,
            Returns(Gone),
            Count(1, WakerWake, 1),
        ],
    )
}

#[test]
fn while_a_handle_that_is_dropped_wakes_a_tick(rt: HostRuntime) -> Result<(), Fail> {
    play(
        &rt,
        &[
            Spawn(Never),
            Tick(true),
            MakeTick,
            Poll(1, Pending),
            HaltAt(1, WakerWake),
            DropHalts(0),
            Used,
            Returns(Gone),
            Count(1, WakerWake, 1),
        ],
    )
}

// A task is queued and somebody sleeps unnotified only while another thread has news of it. That of
// the second tick stops in between: it has found a task, and has the news still to spend.
fn wakes_a_tick(try_tick: Line) -> [Line; 19] {
    [
        MakeTick,
        MakeTick,
        Poll(0, Pending),
        Poll(1, Pending),
        SpawnMany(1),
        Tick(true),
        HaltAt(1, WakerCopy),
        PollHalts(1),
        // It was notified, so the news of these tasks wakes nobody.
        Spawn(Ready(7)),
        HaltAt(2, OutputDrop),
        Detach(2),
        SpawnMany(1),
        HaltAt(1, WakerDrop),
        HaltsAgain,
        Count(0, WakerWake, 0),
        // The waker of the first tick waits until the other thread has ended its task.
        PassOnAt(0, WakerWake),
        try_tick,
        Count(0, WakerWake, 1),
        Returns(Ticked),
    ]
}

#[test]
fn while_a_try_tick_wakes_a_tick(rt: HostRuntime) -> Result<(), Fail> {
    play(&rt, &wakes_a_tick(Tick(true)))
}

#[test]
fn while_a_try_tick_any_wakes_a_tick(rt: HostRuntime) -> Result<(), Fail> {
    play(&rt, &wakes_a_tick(TickAny(true)))
}

#[test]
fn while_a_task_that_wakes_itself_wakes_a_tick(rt: HostRuntime) -> Result<(), Fail> {
    play(
        &rt,
        &[
            Spawn(Yields(1)),
            HaltAt(0, FuturePoll),
            MakeTick,
            HaltAt(1, WakerWake),
            TickHalts,
            // Before the task is queued again.
            Poll(1, Pending),
            HaltsAgain,
            // So that its next poll does not halt.
            Cancel(0),
            Used,
            Returns(Ticked),
            Count(1, WakerWake, 1),
        ],
    )
}

#[test]
fn while_a_tick_that_is_dropped_wakes_another(rt: HostRuntime) -> Result<(), Fail> {
    play(
        &rt,
        &[
            MakeTick,
            MakeTick,
            Poll(0, Pending),
            Poll(1, Pending),
            Spawn(Ready(7)),
            HaltAt(0, WakerWake),
            DropHalts(1),
            Used,
            Returns(Gone),
        ],
    )
}

#[test]
fn while_the_waker_of_a_tick_is_copied(rt: HostRuntime) -> Result<(), Fail> {
    play(
        &rt,
        &[
            MakeTick,
            HaltAt(0, WakerCopy),
            PollHalts(0),
            Used,
            Returns(Pending),
        ],
    )
}

#[test]
fn while_an_earlier_waker_of_a_tick_is_dropped(rt: HostRuntime) -> Result<(), Fail> {
    play(
        &rt,
        &[
            MakeTick,
            Poll(0, Pending),
            HaltAt(0, WakerDrop),
            AnotherWaker(0),
            PollHalts(0),
            Used,
            Returns(Pending),
        ],
    )
}

#[test]
fn while_a_tick_that_is_dropped_drops_its_waker(rt: HostRuntime) -> Result<(), Fail> {
    play(
        &rt,
        &[
            MakeTick,
            Poll(0, Pending),
            HaltAt(0, WakerDrop),
            DropHalts(0),
            Used,
            Returns(Gone),
        ],
    )
}

#[test]
fn while_a_tick_that_found_a_task_drops_its_waker(rt: HostRuntime) -> Result<(), Fail> {
    play(
        &rt,
        &[
            MakeTick,
            MakeTick,
            Poll(0, Pending),
            Poll(1, Pending),
            HaltAt(0, WakerDrop),
            Spawn(Ready(7)),
            PollHalts(0),
            Used,
            Returns(Ticked),
            Poll(2, Output(7)),
        ],
    )
}
