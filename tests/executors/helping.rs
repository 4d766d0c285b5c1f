//! Who has no queue of its own, and runs tasks of any queue, one after another.
use crate::tests::support::running::future::Kind::{Never, Ready, Yields};
use crate::tests::support::running::line::Answer::{Output, Pending, Ticked};
use crate::tests::support::running::line::Line;
use crate::tests::support::running::line::Line::{
    Cancel, Count, Detach, Empty, HaltAt, HaltsAgain, HelpHalts, MakeRun, MakeTick, ManyRan, Poll,
    Returns, Spawn, SpawnMany, Tick, TickAny,
};
use crate::tests::support::running::player::play;
use crate::tests::support::running::record::Moment::{
    FutureDrop, FuturePoll, OutputDrop, WakerWake,
};
use std::sync::Wait;
use std::test::Fail;
use std::thread::Threads;

// Under a name of its own, since what sleepers do is not replayed: `checks/lib/tables.py` looks for `play`.
fn take_lines<R: AllocGlobal + Wait + Threads + Clone + Drop + Send + Sync + 'static>(
    rt: &R,
    lines: &[Line],
) -> Result<(), Fail> {
    play(rt, lines)
}

#[test]
fn it_runs_one_task_and_so_many_more(rt: HostRuntime) -> Result<(), Fail> {
    take_lines(
        &rt,
        &[
            Spawn(Ready(7)),
            Spawn(Ready(8)),
            Spawn(Ready(9)),
            HaltAt(0, FuturePoll),
            HelpHalts(1),
            Returns(Ticked),
            Poll(0, Output(7)),
            Poll(1, Output(8)),
            Count(2, FuturePoll, 0),
            TickAny(true),
            Poll(2, Output(9)),
        ],
    )
}

#[test]
fn it_runs_what_a_run_that_is_not_polled_has(rt: HostRuntime) -> Result<(), Fail> {
    take_lines(
        &rt,
        &[
            MakeRun(Never),
            SpawnMany(300),
            Poll(0, Pending),
            ManyRan(200),
            Spawn(Ready(7)),
            HaltAt(1, FuturePoll),
            HelpHalts(200),
            // What was left to all.
            ManyRan(218),
            Returns(Ticked),
            ManyRan(300),
            Poll(1, Output(7)),
            Empty(true),
        ],
    )
}

#[test]
fn it_drops_a_cancelled_task_and_goes_on(rt: HostRuntime) -> Result<(), Fail> {
    take_lines(
        &rt,
        &[
            Spawn(Ready(7)),
            Spawn(Ready(8)),
            Spawn(Ready(9)),
            HaltAt(0, FuturePoll),
            Cancel(1),
            HelpHalts(2),
            Returns(Ticked),
            Count(1, FutureDrop, 1),
            Count(1, FuturePoll, 0),
            Poll(2, Output(9)),
        ],
    )
}

// Its end and the take of the next one are one change, and yet the next one may be the same.
#[test]
fn it_runs_a_task_that_wakes_itself_again(rt: HostRuntime) -> Result<(), Fail> {
    take_lines(
        &rt,
        &[
            Spawn(Yields(5)),
            HaltAt(0, FuturePoll),
            HelpHalts(2),
            HaltsAgain,
            HaltsAgain,
            Returns(Ticked),
            Count(0, FuturePoll, 3),
            TickAny(true),
            Count(0, FuturePoll, 4),
        ],
    )
}

#[test]
fn others_run_what_stands_behind_its_task(rt: HostRuntime) -> Result<(), Fail> {
    take_lines(
        &rt,
        &[
            Spawn(Ready(7)),
            Spawn(Ready(8)),
            Spawn(Ready(9)),
            HaltAt(1, FuturePoll),
            HelpHalts(2),
            Tick(true),
            Poll(2, Output(9)),
            Returns(Ticked),
            Poll(0, Output(7)),
            Poll(1, Output(8)),
        ],
    )
}

// The news of each take is spent before the poll, and so wakes nobody who goes to sleep while the task is
// polled.
#[test]
fn its_later_take_wakes_nobody_who_sleeps_later(rt: HostRuntime) -> Result<(), Fail> {
    take_lines(
        &rt,
        &[
            Spawn(Ready(7)),
            Spawn(Ready(8)),
            HaltAt(1, FuturePoll),
            HelpHalts(2),
            MakeTick,
            Poll(2, Pending),
            Returns(Ticked),
            Count(2, WakerWake, 0),
        ],
    )
}

#[test]
fn it_wakes_who_awaits_its_task(rt: HostRuntime) -> Result<(), Fail> {
    take_lines(
        &rt,
        &[
            Spawn(Ready(7)),
            Spawn(Ready(8)),
            Poll(0, Pending),
            Poll(1, Pending),
            HaltAt(0, FuturePoll),
            HelpHalts(2),
            Returns(Ticked),
            Count(0, WakerWake, 1),
            Count(1, WakerWake, 1),
            Poll(0, Output(7)),
            Poll(1, Output(8)),
        ],
    )
}

#[test]
fn it_drops_an_output_that_nobody_wants_and_goes_on(rt: HostRuntime) -> Result<(), Fail> {
    take_lines(
        &rt,
        &[
            Spawn(Ready(7)),
            Spawn(Ready(8)),
            HaltAt(0, FuturePoll),
            HaltAt(0, OutputDrop),
            HelpHalts(2),
            Detach(0),
            HaltsAgain,
            // No lock is held meanwhile.
            Spawn(Ready(9)),
            Count(1, FuturePoll, 0),
            Returns(Ticked),
            Count(0, OutputDrop, 1),
            Poll(1, Output(8)),
            Poll(2, Output(9)),
        ],
    )
}
