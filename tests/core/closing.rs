//! All tasks woken at once, and a table that is closed and drained.
use crate::tests::core::cells::Answer::{Cancelled, Output};
use crate::tests::core::cells::Line::{
    Close, Detach, Drain, Empty, GlobalAt, GlobalLen, Law, Poll, SameSlot, Spawn, Tick, Wake,
    WakeAll,
};
use crate::tests::core::cells::{Line, Table};
use crate::tests::support::core::lines::{Player, play};
use crate::tests::support::core::notices::{is_spent, spend};
use crate::tests::core::runners::{Line as Runner, Table as Runners};
use crate::tests::support::core::tasks::{Tasks, dropped, polled, run, spawn};
use executor_core::task::Taken;
use std::alloc::Global;
use std::test::Fail;

// A table of three idle tasks: by rising slot they are 3, 1 and 2.
fn reused(alloc: Global) -> Result<Table, Fail> {
    let mut table = Table::new(alloc, 0)?;
    let lines = [
        Spawn(10, 0),
        Spawn(11, 1),
        Spawn(12, 2),
        Tick(Some(7), Some(polled(0))),
        Poll(0, Output(7)),
        Spawn(13, 3),
        SameSlot(0, 3),
        Tick(None, Some(polled(1))),
        Tick(None, Some(polled(2))),
        Tick(None, Some(polled(3))),
    ];
    for line in &lines {
        if !table.holds(*line)? {
            return Err(Fail::from("the tasks are not idle in their slots"));
        }
    }
    Ok(table)
}

#[test]
fn all_are_woken_by_rising_slot(rt: HostRuntime) -> Result<(), Fail> {
    play(
        reused(rt.alloc())?,
        &[
            WakeAll(true),
            GlobalAt(0, Some(3)),
            GlobalAt(1, Some(1)),
            GlobalAt(2, Some(2)),
            GlobalLen(3),
            Law,
            // None is idle.
            WakeAll(false),
            GlobalLen(3),
            Drain(None),
            Tick(Some(7), Some(polled(3))),
        ],
    )
}

#[test]
fn a_close_cancels_all_by_rising_slot(rt: HostRuntime) -> Result<(), Fail> {
    play(
        reused(rt.alloc())?,
        &[
            // It stands in the queue already.
            Wake(2, true),
            // Nobody has its handle.
            Detach(1, None),
            Close(true),
            GlobalAt(0, Some(2)),
            GlobalAt(1, Some(3)),
            GlobalAt(2, Some(1)),
            GlobalLen(3),
            Law,
            Close(false),
            Drain(Some(dropped(2))),
            Drain(Some(dropped(3))),
            Empty(false),
            Drain(Some(dropped(1))),
            Drain(None),
            Empty(true),
            Poll(3, Cancelled),
        ],
    )
}

#[test]
fn nothing_is_drained_before_a_close(rt: HostRuntime) -> Result<(), Fail> {
    play(
        Table::new(rt.alloc(), 0)?,
        &[
            Spawn(10, 0),
            Drain(None),
            GlobalLen(1),
            // The queue has the task, and does not grow.
            Close(false),
            Drain(Some(dropped(0))),
            Drain(None),
            Empty(true),
        ],
    )
}

#[test]
fn a_finished_task_keeps_its_output_over_a_close(rt: HostRuntime) -> Result<(), Fail> {
    play(
        Table::new(rt.alloc(), 0)?,
        &[
            Spawn(10, 0),
            Spawn(11, 1),
            Tick(Some(7), Some(polled(0))),
            Close(false),
            Drain(Some(dropped(1))),
            Drain(None),
            Poll(0, Output(7)),
            Poll(1, Cancelled),
        ],
    )
}

#[test]
fn a_close_queues_what_is_idle_and_then_what_runners_have(rt: HostRuntime) -> Result<(), Fail> {
    play(
        Runners::new(rt.alloc(), 5)?,
        &[
            Runner::Reserve,
            Runner::Register(0, 8),
            Runner::Reserve,
            Runner::Register(1, 8),
            Runner::Fair(1, 3),
            Runner::Fair(0, 1),
            Runner::Find(1, 0, Some(0)),
            Runner::Lengths(1, Some(1), Some(2)),
            Runner::Close(true),
            Runner::GlobalAt(0, Some(4)),
            Runner::GlobalAt(1, Some(0)),
            Runner::GlobalAt(2, Some(3)),
            Runner::GlobalAt(3, Some(1)),
            Runner::GlobalAt(4, Some(2)),
            Runner::Lengths(5, Some(0), Some(0)),
            Runner::Runners(2),
            Runner::Law,
        ],
    )
}

// A table of one task, which is out.
fn held(alloc: Global) -> Result<(Tasks, Taken<u8>), Fail> {
    let mut cells = Tasks::new(alloc)?;
    spawn(&mut cells, 10)?;
    match cells.take_global(None) {
        Some((taken, notice)) => {
            spend(notice);
            Ok((cells, taken))
        }
        None => Err(Fail::from("no task was taken")),
    }
}

#[test]
fn a_task_that_is_out_is_queued_again_once_all_were_woken(rt: HostRuntime) -> Result<(), Fail> {
    let (mut cells, taken) = held(rt.alloc())?;
    let has_notice = is_spent(cells.wake_all());
    let ticked = run(&mut cells, taken, None);
    assert_eq!(rt;
        (has_notice, ticked.is_queued, cells.global_len()),
        (false, true, 1)
    );
    Ok(())
}

#[test]
fn a_task_that_is_out_is_not_queued_again_after_a_close(rt: HostRuntime) -> Result<(), Fail> {
    let (mut cells, taken) = held(rt.alloc())?;
    let has_notice = is_spent(cells.close());
    let ticked = run(&mut cells, taken, None);
    assert_eq!(rt;
        (has_notice, ticked.is_queued, cells.is_empty()),
        (false, false, true)
    );
    Ok(())
}
