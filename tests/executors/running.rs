//! Runs: the turn of a run, its own future, the words of its searches, what its drop leaves behind,
//! and whom it wakes.
use crate::tests::support::running::future::Kind::{LeavesWaker, Never, Ready, Yields};
use crate::tests::support::running::line::Answer::{Output, Pending};
use crate::tests::support::running::line::Line::{
    AnotherWaker, Cancel, Count, DropHandle, Empty, Finished, HaltAt, HaltsAgain, MakeRun,
    MakeTick, ManyRan, OtherWoken, Poll, PollHalts, Refuse, Returns, Spawn, SpawnMany, Ticks, Wake,
};
use crate::tests::support::running::player::{play, play_unsharded};
use crate::tests::support::running::record::Moment::{FutureDrop, FuturePoll, OutputDrop, WakerCopy, WakerWake};
use std::test::Fail;

#[test]
fn a_run_yields_after_200_tasks(rt: HostRuntime) -> Result<(), Fail> {
    play(
        &rt,
        &[
            MakeRun(Never),
            SpawnMany(201),
            Poll(0, Pending),
            ManyRan(200),
            Count(0, WakerWake, 1),
            Poll(0, Pending),
            ManyRan(201),
            Count(0, WakerWake, 1),
            Empty(true),
        ],
    )
}

#[test]
fn a_turn_goes_on_over_polls(rt: HostRuntime) -> Result<(), Fail> {
    play_unsharded(
        &rt,
        &[
            MakeRun(Never),
            SpawnMany(150),
            Poll(0, Pending),
            ManyRan(150),
            Count(0, WakerWake, 0),
            SpawnMany(100),
            Count(0, WakerWake, 1),
            Poll(0, Pending),
            ManyRan(200),
            Count(0, WakerWake, 2),
            Poll(0, Pending),
            ManyRan(250),
            Count(0, WakerWake, 2),
        ],
    )
}

#[test]
fn each_poll_of_a_task_is_counted(rt: HostRuntime) -> Result<(), Fail> {
    play(
        &rt,
        &[
            Spawn(Yields(500)),
            MakeRun(Never),
            Poll(1, Pending),
            Count(0, FuturePoll, 200),
            Count(1, WakerWake, 1),
            Poll(1, Pending),
            Count(0, FuturePoll, 400),
            Count(1, WakerWake, 2),
            Count(1, FuturePoll, 2),
            Poll(1, Pending),
            Poll(0, Output(501)),
        ],
    )
}

#[test]
fn the_queue_of_a_run_has_room_for_512_tasks(rt: HostRuntime) -> Result<(), Fail> {
    play(
        &rt,
        &[
            Spawn(Ready(7)),
            HaltAt(0, FuturePoll),
            SpawnMany(1_099),
            MakeRun(Never),
            PollHalts(1),
            // Half of them are 550.
            Ticks(587),
            Returns(Pending),
        ],
    )
}

#[test]
fn a_run_takes_its_part_before_the_64th_task(rt: HostRuntime) -> Result<(), Fail> {
    play(
        &rt,
        &[
            SpawnMany(62),
            Spawn(Ready(7)),
            Spawn(Ready(8)),
            HaltAt(0, FuturePoll),
            HaltAt(1, FuturePoll),
            SpawnMany(100),
            MakeRun(Never),
            PollHalts(2),
            ManyRan(62),
            // What is left to all since the first search.
            Ticks(81),
            SpawnMany(100),
            HaltsAgain,
            Ticks(50),
            Returns(Pending),
        ],
    )
}

// The first search of the second poll takes half of what is left, and then the part is taken.
#[test]
fn a_run_takes_its_part_before_a_64th_task_that_is_the_first_of_a_poll(
    rt: HostRuntime,
) -> Result<(), Fail> {
    play(
        &rt,
        &[
            MakeRun(Never),
            SpawnMany(63),
            Poll(0, Pending),
            ManyRan(63),
            Spawn(Ready(7)),
            HaltAt(1, FuturePoll),
            SpawnMany(100),
            PollHalts(0),
            Ticks(25),
            Returns(Pending),
        ],
    )
}

// The first search takes half of the tasks after the first one to the run's own queue, and those
// come before the last one.
#[test]
fn a_run_runs_its_own_tasks_first(rt: HostRuntime) -> Result<(), Fail> {
    play(
        &rt,
        &[
            Spawn(Ready(5)),
            Spawn(Ready(6)),
            Spawn(Ready(7)),
            Spawn(Ready(8)),
            HaltAt(3, FuturePoll),
            MakeRun(Never),
            PollHalts(4),
            Count(0, FuturePoll, 1),
            Count(1, FuturePoll, 1),
            Count(2, FuturePoll, 1),
            Returns(Pending),
        ],
    )
}

#[test]
fn a_dropped_run_gives_its_tasks_back(rt: HostRuntime) -> Result<(), Fail> {
    play(
        &rt,
        &[
            MakeRun(Never),
            SpawnMany(300),
            Poll(0, Pending),
            ManyRan(200),
            DropHandle(0),
            Count(0, FutureDrop, 1),
            Ticks(100),
            ManyRan(300),
        ],
    )
}

#[test]
fn a_run_runs_what_a_dropped_one_had(rt: HostRuntime) -> Result<(), Fail> {
    play(
        &rt,
        &[
            MakeRun(Never),
            MakeRun(Never),
            SpawnMany(300),
            Poll(0, Pending),
            ManyRan(200),
            DropHandle(0),
            Poll(1, Pending),
            ManyRan(300),
            Empty(true),
        ],
    )
}

#[test]
fn a_run_that_has_ended_gives_its_tasks_back(rt: HostRuntime) -> Result<(), Fail> {
    play(
        &rt,
        &[
            MakeRun(LeavesWaker(1)),
            SpawnMany(300),
            Poll(0, Pending),
            ManyRan(200),
            Poll(0, Output(2)),
            ManyRan(200),
            Ticks(100),
        ],
    )
}

#[test]
fn another_run_steals_what_a_run_has(rt: HostRuntime) -> Result<(), Fail> {
    play(
        &rt,
        &[
            MakeRun(Never),
            MakeRun(Never),
            SpawnMany(300),
            Poll(0, Pending),
            ManyRan(200),
            Poll(1, Pending),
            ManyRan(300),
        ],
    )
}

// A run takes one word a search, even if its own queue has a task. By its words the first of
// three runs steals from the second at its third search, and from the third at its 110th, when it
// takes the task of number 3. With more or fewer words it would steal from the second again.
#[test]
fn each_search_takes_one_word(rt: HostRuntime) -> Result<(), Fail> {
    play_unsharded(
        &rt,
        &[
            MakeRun(Never),
            MakeRun(Never),
            MakeRun(Never),
            Poll(0, Pending),
            SpawnMany(359),
            Spawn(Ready(7)),
            SpawnMany(309),
            Poll(1, Pending),
            ManyRan(200),
            Poll(2, Pending),
            ManyRan(400),
            Count(3, FuturePoll, 0),
            Poll(0, Pending),
            ManyRan(599),
            Count(3, FuturePoll, 1),
        ],
    )
}

// By its words the first of three runs steals from the third at its seventh search, which is the
// first of its sixth poll. With word 0, or with two words a search, it would steal from the second.
#[test]
fn a_search_goes_by_its_word(rt: HostRuntime) -> Result<(), Fail> {
    play(
        &rt,
        &[
            MakeRun(Never),
            MakeRun(Never),
            MakeRun(Never),
            Poll(0, Pending),
            Poll(0, Pending),
            Poll(0, Pending),
            Poll(0, Pending),
            Poll(0, Pending),
            // Each of the others is left one task.
            SpawnMany(200),
            Spawn(Ready(7)),
            Poll(1, Pending),
            SpawnMany(200),
            Spawn(Ready(8)),
            Poll(2, Pending),
            HaltAt(4, FuturePoll),
            PollHalts(0),
            Count(3, FuturePoll, 0),
            Returns(Pending),
            Count(3, FuturePoll, 1),
        ],
    )
}

// The same search, which here follows the end of a task that all share.
#[test]
fn a_search_after_an_end_goes_by_its_word(rt: HostRuntime) -> Result<(), Fail> {
    play(
        &rt,
        &[
            MakeRun(Never),
            MakeRun(Never),
            MakeRun(Never),
            Poll(0, Pending),
            Poll(0, Pending),
            Poll(0, Pending),
            Poll(0, Pending),
            SpawnMany(200),
            Spawn(Ready(7)),
            Poll(1, Pending),
            SpawnMany(200),
            Spawn(Ready(8)),
            Poll(2, Pending),
            Spawn(Ready(9)),
            HaltAt(4, FuturePoll),
            PollHalts(0),
            Count(5, FuturePoll, 1),
            Count(3, FuturePoll, 0),
            Returns(Pending),
            Count(3, FuturePoll, 1),
        ],
    )
}

// A run that has ended wakes who polls it and does nothing more.
#[test]
fn a_run_ends_with_its_own_future(rt: HostRuntime) -> Result<(), Fail> {
    play(
        &rt,
        &[
            MakeRun(LeavesWaker(1)),
            MakeRun(Never),
            Poll(0, Pending),
            Count(0, FutureDrop, 0),
            Poll(0, Output(2)),
            Count(0, FutureDrop, 1),
            Count(0, OutputDrop, 0),
            Count(0, WakerWake, 0),
            Poll(0, Pending),
            Count(0, WakerWake, 1),
            Count(0, FuturePoll, 2),
            SpawnMany(1),
            Poll(0, Pending),
            ManyRan(0),
            Poll(1, Pending),
            ManyRan(1),
        ],
    )
}

#[test]
fn the_own_future_is_polled_first(rt: HostRuntime) -> Result<(), Fail> {
    play(
        &rt,
        &[
            MakeRun(Ready(7)),
            SpawnMany(1),
            Poll(0, Output(7)),
            ManyRan(0),
            Ticks(1),
        ],
    )
}

#[test]
fn a_run_lives_on_after_another_is_dropped(rt: HostRuntime) -> Result<(), Fail> {
    play(
        &rt,
        &[
            MakeRun(Never),
            MakeRun(Never),
            Poll(0, Pending),
            Poll(1, Pending),
            DropHandle(0),
            Poll(1, Pending),
            SpawnMany(1),
            Count(1, WakerWake, 1),
            Poll(1, Pending),
            ManyRan(1),
        ],
    )
}

#[test]
fn a_dropped_run_that_was_notified_wakes_another(rt: HostRuntime) -> Result<(), Fail> {
    play(
        &rt,
        &[
            MakeRun(Never),
            MakeRun(Never),
            Poll(0, Pending),
            Poll(1, Pending),
            SpawnMany(1),
            Count(0, WakerWake, 0),
            Count(1, WakerWake, 1),
            DropHandle(1),
            Count(0, WakerWake, 1),
            Poll(0, Pending),
            ManyRan(1),
        ],
    )
}

#[test]
fn a_dropped_run_that_was_notified_wakes_a_tick(rt: HostRuntime) -> Result<(), Fail> {
    play(
        &rt,
        &[
            MakeTick,
            MakeRun(Never),
            Poll(0, Pending),
            Poll(1, Pending),
            SpawnMany(1),
            Count(0, WakerWake, 0),
            DropHandle(1),
            Count(0, WakerWake, 1),
        ],
    )
}

#[test]
fn a_dropped_run_with_tasks_wakes_another(rt: HostRuntime) -> Result<(), Fail> {
    play(
        &rt,
        &[
            MakeRun(Never),
            SpawnMany(300),
            Poll(0, Pending),
            // What is left to all. Then a tick goes to sleep, while the run has tasks of its own.
            Ticks(18),
            MakeTick,
            Poll(1, Pending),
            DropHandle(0),
            Count(1, WakerWake, 1),
            Ticks(82),
        ],
    )
}

#[test]
fn a_run_that_was_never_polled_is_dropped(rt: HostRuntime) -> Result<(), Fail> {
    play(
        &rt,
        &[
            MakeRun(Never),
            MakeRun(Never),
            DropHandle(0),
            Count(0, FuturePoll, 0),
            Count(0, FutureDrop, 1),
            SpawnMany(1),
            Poll(1, Pending),
            ManyRan(1),
            DropHandle(1),
            Ticks(0),
        ],
    )
}

#[test]
fn a_run_gives_an_output_to_its_handle(rt: HostRuntime) -> Result<(), Fail> {
    play(
        &rt,
        &[
            Spawn(Ready(7)),
            Spawn(Ready(8)),
            Poll(0, Pending),
            MakeRun(Never),
            Poll(2, Pending),
            Count(0, WakerWake, 1),
            Finished(1, true),
            Poll(0, Output(7)),
            Poll(1, Output(8)),
        ],
    )
}

#[test]
fn a_run_drops_a_cancelled_task(rt: HostRuntime) -> Result<(), Fail> {
    play(
        &rt,
        &[
            Spawn(Ready(7)),
            Spawn(Ready(8)),
            Cancel(0),
            MakeRun(Never),
            Poll(2, Pending),
            Count(0, FuturePoll, 0),
            Count(0, FutureDrop, 1),
            Poll(1, Output(8)),
            Empty(true),
        ],
    )
}

#[test]
fn a_wake_wakes_a_run(rt: HostRuntime) -> Result<(), Fail> {
    play(
        &rt,
        &[
            Spawn(LeavesWaker(1)),
            MakeRun(Never),
            Poll(1, Pending),
            Count(0, FuturePoll, 1),
            Wake(0),
            Count(1, WakerWake, 1),
            Poll(1, Pending),
            Poll(0, Output(2)),
        ],
    )
}

#[test]
fn a_run_is_woken_by_its_last_waker(rt: HostRuntime) -> Result<(), Fail> {
    play(
        &rt,
        &[
            MakeRun(Never),
            Poll(0, Pending),
            AnotherWaker(0),
            Poll(0, Pending),
            Count(0, WakerCopy, 1),
            SpawnMany(1),
            Count(0, WakerWake, 0),
            OtherWoken(0, 1),
        ],
    )
}

#[test]
fn a_refused_copy_leaves_a_run_awake(rt: HostRuntime) -> Result<(), Fail> {
    play(
        &rt,
        &[
            MakeRun(Never),
            Refuse(0),
            Poll(0, Pending),
            Count(0, WakerWake, 1),
            // It does not sleep.
            SpawnMany(1),
            Count(0, WakerWake, 1),
            Poll(0, Pending),
            ManyRan(1),
            Count(0, WakerWake, 2),
            AnotherWaker(0),
            Poll(0, Pending),
            SpawnMany(1),
            OtherWoken(0, 1),
        ],
    )
}

#[test]
fn a_run_gives_one_place_back(rt: HostRuntime) -> Result<(), Fail> {
    play(
        &rt,
        &[
            // Before the first poll, parked, parked and notified, and after the end.
            MakeRun(Never),
            MakeRun(Never),
            MakeRun(Never),
            MakeRun(Ready(7)),
            MakeRun(Never),
            DropHandle(0),
            Poll(1, Pending),
            DropHandle(1),
            Poll(2, Pending),
            SpawnMany(1),
            Count(2, WakerWake, 1),
            DropHandle(2),
            Poll(3, Output(7)),
            Poll(3, Pending),
            DropHandle(3),
            // The one that is left still has its places, and so registers and sleeps.
            Poll(4, Pending),
            ManyRan(1),
            Count(4, WakerWake, 0),
            SpawnMany(1),
            Count(4, WakerWake, 1),
        ],
    )
}
