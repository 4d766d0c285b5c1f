//! No lock is held while a run runs something of the caller's: it halts, and another thread uses the
//! same executor.
use crate::tests::support::running::future::Kind::{Never, Ready, Yields};
use crate::tests::support::running::line::Answer::{Gone, Output, Pending};
use crate::tests::support::running::line::Line::{
    AnotherWaker, Cancel, Count, Detach, DropHalts, DropHandle, Empty, HaltAt, HaltsAgain, MakeRun,
    MakeTick, Poll, PollHalts, Returns, Spawn, SpawnHalts, SpawnMany, Ticks, Used,
};
use crate::tests::support::running::player::play;
use crate::tests::support::running::record::Moment::{
    FutureDrop, FuturePoll, OutputDrop, WakerCopy, WakerDrop, WakerWake,
};
use std::test::Fail;

#[test]
fn while_the_own_future_is_polled(rt: HostRuntime) -> Result<(), Fail> {
    play(
        &rt,
        &[
            MakeRun(Ready(7)),
            HaltAt(0, FuturePoll),
            PollHalts(0),
            Used,
            Returns(Output(7)),
        ],
    )
}

#[test]
fn while_the_own_future_is_dropped_at_its_end(rt: HostRuntime) -> Result<(), Fail> {
    play(
        &rt,
        &[
            MakeRun(Ready(7)),
            HaltAt(0, FutureDrop),
            PollHalts(0),
            Used,
            Returns(Output(7)),
        ],
    )
}

// The runner leaves after the own future is dropped: its tasks are in its own queue until then.
#[test]
fn while_the_own_future_of_a_dropped_run_is_dropped(rt: HostRuntime) -> Result<(), Fail> {
    play(
        &rt,
        &[
            MakeRun(Never),
            SpawnMany(300),
            Poll(0, Pending),
            // What is left to all.
            Ticks(18),
            HaltAt(0, FutureDrop),
            DropHalts(0),
            Used,
            Ticks(0),
            Returns(Gone),
            Ticks(82),
        ],
    )
}

#[test]
fn while_a_run_polls_a_future(rt: HostRuntime) -> Result<(), Fail> {
    play(
        &rt,
        &[
            Spawn(Ready(7)),
            HaltAt(0, FuturePoll),
            MakeRun(Never),
            PollHalts(1),
            Used,
            Returns(Pending),
            Poll(0, Output(7)),
        ],
    )
}

#[test]
fn while_a_run_polls_the_next_future(rt: HostRuntime) -> Result<(), Fail> {
    play(
        &rt,
        &[
            SpawnMany(1),
            Spawn(Ready(7)),
            HaltAt(0, FuturePoll),
            MakeRun(Never),
            PollHalts(1),
            Used,
            Returns(Pending),
            Poll(0, Output(7)),
        ],
    )
}

#[test]
fn while_a_run_drops_a_future(rt: HostRuntime) -> Result<(), Fail> {
    play(
        &rt,
        &[
            Spawn(Ready(7)),
            HaltAt(0, FutureDrop),
            // One that is found after it.
            Spawn(Ready(8)),
            MakeRun(Never),
            PollHalts(2),
            Used,
            Returns(Pending),
            Poll(0, Output(7)),
            Poll(1, Output(8)),
        ],
    )
}

#[test]
fn while_a_run_drops_a_cancelled_future(rt: HostRuntime) -> Result<(), Fail> {
    play(
        &rt,
        &[
            Spawn(Ready(7)),
            HaltAt(0, FutureDrop),
            DropHandle(0),
            MakeRun(Never),
            PollHalts(1),
            Used,
            Returns(Pending),
            Count(0, FuturePoll, 0),
            Count(0, FutureDrop, 1),
        ],
    )
}

#[test]
fn while_a_run_drops_a_future_that_was_cancelled_in_its_poll(rt: HostRuntime) -> Result<(), Fail> {
    play(
        &rt,
        &[
            Spawn(Yields(5)),
            HaltAt(0, FuturePoll),
            HaltAt(0, FutureDrop),
            MakeRun(Never),
            PollHalts(1),
            Cancel(0),
            HaltsAgain,
            Used,
            Empty(false),
            Returns(Pending),
            Empty(true),
            Count(0, FuturePoll, 1),
            Count(0, FutureDrop, 1),
        ],
    )
}

#[test]
fn while_a_run_drops_an_unwanted_output(rt: HostRuntime) -> Result<(), Fail> {
    play(
        &rt,
        &[
            Spawn(Ready(7)),
            HaltAt(0, OutputDrop),
            Detach(0),
            MakeRun(Never),
            PollHalts(1),
            Used,
            Returns(Pending),
        ],
    )
}

// No task is taken before the one before is over: another run may steal it meanwhile.
#[test]
fn while_a_run_wakes_an_awaiter(rt: HostRuntime) -> Result<(), Fail> {
    play(
        &rt,
        &[
            Spawn(Ready(7)),
            HaltAt(0, WakerWake),
            Poll(0, Pending),
            Spawn(Ready(8)),
            MakeRun(Never),
            MakeRun(Never),
            PollHalts(2),
            Poll(3, Pending),
            Poll(1, Output(8)),
            Used,
            Returns(Pending),
            Poll(0, Output(7)),
        ],
    )
}

// No task was scheduled as the one before ended, so the run goes to sleep once its awaiter is woken.
#[test]
fn what_is_queued_while_a_run_wakes_an_awaiter_is_run_before_it_sleeps(rt: HostRuntime) -> Result<(), Fail> {
    play(
        &rt,
        &[
            Spawn(Ready(7)),
            HaltAt(0, WakerWake),
            Poll(0, Pending),
            MakeRun(Never),
            PollHalts(1),
            Spawn(Ready(8)),
            Returns(Pending),
            Poll(2, Output(8)),
            Poll(0, Output(7)),
        ],
    )
}

#[test]
fn while_a_task_that_wakes_itself_in_a_run_wakes_a_tick(rt: HostRuntime) -> Result<(), Fail> {
    play(
        &rt,
        &[
            Spawn(Yields(1)),
            HaltAt(0, FuturePoll),
            MakeRun(Never),
            MakeTick,
            HaltAt(2, WakerWake),
            PollHalts(1),
            // Before the task is queued again.
            Poll(2, Pending),
            HaltsAgain,
            Used,
            Returns(Pending),
            Count(2, WakerWake, 1),
            Poll(0, Output(2)),
        ],
    )
}

#[test]
fn while_a_spawn_wakes_a_run(rt: HostRuntime) -> Result<(), Fail> {
    play(
        &rt,
        &[
            MakeRun(Never),
            Poll(0, Pending),
            HaltAt(0, WakerWake),
            SpawnHalts,
            Used,
            Returns(Gone),
            Count(0, WakerWake, 1),
        ],
    )
}

#[test]
fn while_a_run_that_found_a_task_wakes_another(rt: HostRuntime) -> Result<(), Fail> {
    play(
        &rt,
        &[
            MakeRun(Never),
            MakeRun(Never),
            Poll(0, Pending),
            Poll(1, Pending),
            Spawn(Ready(7)),
            Spawn(Ready(8)),
            HaltAt(0, WakerWake),
            PollHalts(1),
            Used,
            // The news of a task is spent before the task is polled.
            Count(2, FuturePoll, 0),
            Returns(Pending),
            Count(0, WakerWake, 1),
            Poll(2, Output(7)),
        ],
    )
}

#[test]
fn while_a_run_that_is_dropped_wakes_another(rt: HostRuntime) -> Result<(), Fail> {
    play(
        &rt,
        &[
            MakeRun(Never),
            MakeRun(Never),
            Poll(0, Pending),
            Poll(1, Pending),
            SpawnMany(1),
            HaltAt(0, WakerWake),
            DropHalts(1),
            Used,
            Returns(Gone),
        ],
    )
}

// What stands in the queue of a run that ends goes to all.
#[test]
fn while_the_tasks_of_a_run_that_is_dropped_wake_a_tick(rt: HostRuntime) -> Result<(), Fail> {
    play(
        &rt,
        &[
            MakeRun(Never),
            SpawnMany(300),
            Poll(0, Pending),
            Ticks(18),
            MakeTick,
            Poll(1, Pending),
            HaltAt(1, WakerWake),
            DropHalts(0),
            Ticks(82),
            Returns(Gone),
            Count(1, WakerWake, 1),
        ],
    )
}

#[test]
fn while_the_waker_of_a_run_is_copied(rt: HostRuntime) -> Result<(), Fail> {
    play(
        &rt,
        &[
            MakeRun(Never),
            HaltAt(0, WakerCopy),
            PollHalts(0),
            Used,
            Returns(Pending),
        ],
    )
}

#[test]
fn while_a_run_that_yields_is_woken(rt: HostRuntime) -> Result<(), Fail> {
    play(
        &rt,
        &[
            MakeRun(Never),
            SpawnMany(201),
            HaltAt(0, WakerWake),
            PollHalts(0),
            Used,
            Returns(Pending),
        ],
    )
}

#[test]
fn while_an_earlier_waker_of_a_run_is_dropped(rt: HostRuntime) -> Result<(), Fail> {
    play(
        &rt,
        &[
            MakeRun(Never),
            Poll(0, Pending),
            HaltAt(0, WakerDrop),
            AnotherWaker(0),
            PollHalts(0),
            Used,
            Returns(Pending),
        ],
    )
}

#[test]
fn while_a_run_that_is_dropped_drops_its_waker(rt: HostRuntime) -> Result<(), Fail> {
    play(
        &rt,
        &[
            MakeRun(Never),
            Poll(0, Pending),
            HaltAt(0, WakerDrop),
            DropHalts(0),
            Used,
            Returns(Gone),
        ],
    )
}
