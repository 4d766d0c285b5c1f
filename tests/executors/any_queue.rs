//! Ticks that look at each queue, also at those of runs.
use crate::tests::support::running::future::Kind::{Never, Ready};
use crate::tests::support::running::line::Answer::{Output, Pending, Ticked};
use crate::tests::support::running::line::Line::{
    Cancel, Count, Empty, HaltAt, MakeRun, MakeTick, ManyRan, Poll, PollHalts, Returns, Spawn,
    SpawnMany, TickAny, TickAnyHalts, Ticks, TicksAny,
};
use crate::tests::support::running::player::play;
use crate::tests::support::running::record::Moment::{FutureDrop, FuturePoll, WakerWake};
use std::test::Fail;

#[test]
fn it_says_whether_it_ran_a_task(rt: HostRuntime) -> Result<(), Fail> {
    play(
        &rt,
        &[
            TickAny(false),
            Spawn(Ready(7)),
            TickAny(true),
            Count(0, FuturePoll, 1),
            TickAny(false),
            Poll(0, Output(7)),
        ],
    )
}

// A run takes half of the tasks, rounded up, to its own queue.
#[test]
fn it_takes_the_tasks_of_a_run_after_those_of_all(rt: HostRuntime) -> Result<(), Fail> {
    play(
        &rt,
        &[
            Spawn(Ready(7)),
            Spawn(Ready(8)),
            Spawn(Ready(9)),
            HaltAt(0, FuturePoll),
            MakeRun(Never),
            PollHalts(3),
            TickAny(true),
            Count(2, FuturePoll, 1),
            Count(1, FuturePoll, 0),
            TickAny(true),
            Count(1, FuturePoll, 1),
            TickAny(false),
            Returns(Pending),
            Poll(0, Output(7)),
            Poll(1, Output(8)),
            Poll(2, Output(9)),
        ],
    )
}

#[test]
fn it_drops_a_cancelled_task_of_a_run(rt: HostRuntime) -> Result<(), Fail> {
    play(
        &rt,
        &[
            Spawn(Ready(7)),
            Spawn(Ready(8)),
            Spawn(Ready(9)),
            HaltAt(0, FuturePoll),
            MakeRun(Never),
            PollHalts(3),
            Cancel(1),
            TickAny(true),
            Count(1, FutureDrop, 0),
            TickAny(true),
            Count(1, FutureDrop, 1),
            Count(1, FuturePoll, 0),
            TickAny(false),
            Returns(Pending),
        ],
    )
}

#[test]
fn it_runs_what_a_run_that_is_not_polled_has(rt: HostRuntime) -> Result<(), Fail> {
    play(
        &rt,
        &[
            MakeRun(Never),
            SpawnMany(300),
            Poll(0, Pending),
            ManyRan(200),
            // What is left to all.
            Ticks(18),
            TicksAny(82),
            ManyRan(300),
            Empty(true),
        ],
    )
}

#[test]
fn it_looks_past_the_empty_queue_of_a_run(rt: HostRuntime) -> Result<(), Fail> {
    play(
        &rt,
        &[
            MakeRun(Never),
            Poll(0, Pending),
            MakeRun(Never),
            SpawnMany(300),
            Poll(1, Pending),
            ManyRan(200),
            TicksAny(100),
            ManyRan(300),
        ],
    )
}

// The news of its take is spent before the poll, and so wakes nobody who goes to sleep while the task
// is polled.
#[test]
fn its_take_wakes_nobody_who_sleeps_later(rt: HostRuntime) -> Result<(), Fail> {
    play(
        &rt,
        &[
            Spawn(Ready(7)),
            HaltAt(0, FuturePoll),
            TickAnyHalts,
            MakeTick,
            Poll(1, Pending),
            Returns(Ticked),
            Count(1, WakerWake, 0),
        ],
    )
}
