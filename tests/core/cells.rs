//! Tasks in the table, by its calls.
use crate::tests::support::core::lines::{Player, play};
use crate::tests::support::core::notices::{is_spent, spend};
use crate::tests::support::core::tasks::{Tasks, Ticked, drain, dropped, polled, spawn, tick};
use crate::tests::support::core::wakers::Wakers;
use Line::{
    Cancel, Close, Detach, Drain, DropHandle, Empty, Finished, GlobalAt, GlobalLen, Keeps, Law,
    Poll, Refuse, SameSlot, Spawn, Tick, Undropped, Wake, WakeAll, Woken,
};
use executor_core::task::{PollHandle, SpawnError, TaskId};
use std::alloc::Global;
use std::test::Fail;

/// What a poll of a handle answers.
#[derive(Clone, Copy, PartialEq)]
pub enum Answer {
    Output(u64),
    Cancelled,
    // Not yet, and the waker of an earlier poll comes out or not.
    Pending(bool),
}

/// What is done with a table, and what has to come of it. A task is named by how many were spawned
/// before it.
#[derive(Clone, Copy)]
pub enum Line {
    // A task of this future is spawned, and has this number.
    Spawn(u8, u64),
    // No number is left for a task of this future, which comes back.
    Refuse(u8),
    // The task at the front is polled, which gives this output or is pending, or it is dropped.
    // This comes of it, or there is no task.
    Tick(Option<u64>, Option<Ticked>),
    // The task is woken, and there is a notice or not.
    Wake(usize, bool),
    // The task's handle is polled with a new waker, and answers this.
    Poll(usize, Answer),
    // The task is cancelled, and there is a notice or not.
    Cancel(usize, bool),
    // The task is detached, which gives this output or none, and no waker.
    Detach(usize, Option<u64>),
    // The task's handle is dropped, which gives no notice, no output and no waker.
    DropHandle(usize),
    // The task is finished or not.
    Finished(usize, bool),
    // The task's future is in its cell or not.
    Keeps(usize, bool),
    // Both tasks have the same slot.
    SameSlot(usize, usize),
    // So many futures are not dropped.
    Undropped(usize),
    // Every future is dropped, or not.
    Empty(bool),
    // So many tasks stand in the global queue.
    GlobalLen(usize),
    // At this place of the global queue stands the task of this number, or none.
    GlobalAt(usize, Option<u64>),
    // The waker of so many polls before was woken so often.
    Woken(usize, u32),
    // All tasks are woken, and there is a notice or not.
    WakeAll(bool),
    // The cells are closed, and there is a notice or not.
    Close(bool),
    // A task is drained and run, and this comes of it, or there is none.
    Drain(Option<Ticked>),
    // The law of the table, which is a contract alone.
    Law,
}

/// A table, the ids of its tasks, and the wakers of its handles.
#[derive(Drop)]
pub struct Table {
    cells: Tasks,
    ids: Vec<TaskId>,
    wakers: Wakers,
}

impl Table {
    /// A table whose first task has this number.
    pub fn new(alloc: Global, first: u64) -> Result<Table, Fail> {
        Ok(Table {
            cells: Tasks::first_number(alloc, first)?,
            ids: Vec::new(alloc),
            wakers: Wakers::new(alloc),
        })
    }

    fn id(&self, task: usize) -> Result<TaskId, Fail> {
        match self.ids.get(task) {
            Some(id) => Ok(*id),
            None => Err(Fail::from("there is no such task")),
        }
    }

    fn spawn(&mut self, future: u8, number: u64) -> Result<bool, Fail> {
        let id = spawn(&mut self.cells, future)?;
        self.ids.push(id)?;
        Ok(id.number() == number)
    }

    fn refuses(&mut self, future: u8) -> bool {
        match self.cells.spawn(future) {
            Ok((_, notice)) => {
                spend(notice);
                false
            }
            Err(SpawnError::OutOfMemory(_)) => false,
            Err(refused) => refused.into_inner() == future,
        }
    }

    fn poll(&mut self, task: usize) -> Result<Answer, Fail> {
        let id = self.id(task)?;
        let waker = self.wakers.make()?;
        Ok(match self.cells.poll_handle(id, waker) {
            PollHandle::Output(output, _) => Answer::Output(output),
            PollHandle::Cancelled(_) => Answer::Cancelled,
            PollHandle::Pending(before) => Answer::Pending(before.is_some()),
        })
    }

    fn detach(&mut self, id: TaskId, wanted: Option<u64>) -> bool {
        let (output, waker) = self.cells.detach(id);
        output == wanted && waker.is_none()
    }

    fn drop_handle(&mut self, id: TaskId) -> bool {
        let (notice, output, waker) = self.cells.drop_handle(id);
        !is_spent(notice) && output.is_none() && waker.is_none()
    }

    // Whether the line, which is one on a task, holds.
    fn task_holds(&mut self, id: TaskId, line: Line) -> bool {
        match line {
            Wake(_, has_notice) => is_spent(self.cells.wake(id)) == has_notice,
            Cancel(_, has_notice) => is_spent(self.cells.cancel(id)) == has_notice,
            Detach(_, output) => self.detach(id, output),
            DropHandle(_) => self.drop_handle(id),
            Finished(_, answer) => self.cells.is_finished(id) == answer,
            Keeps(_, answer) => self.cells.keeps(id) == answer,
            _ => false,
        }
    }
}

impl Player<Line> for Table {
    fn holds(&mut self, line: Line) -> Result<bool, Fail> {
        Ok(match line {
            Spawn(future, number) => self.spawn(future, number)?,
            Refuse(future) => self.refuses(future),
            Tick(output, ticked) => tick(&mut self.cells, output) == ticked,
            Poll(task, answer) => self.poll(task)? == answer,
            Wake(task, _)
            | Cancel(task, _)
            | Detach(task, _)
            | DropHandle(task)
            | Finished(task, _)
            | Keeps(task, _) => {
                let id = self.id(task)?;
                self.task_holds(id, line)
            }
            SameSlot(one, other) => self.id(one)?.slot() == self.id(other)?.slot(),
            Undropped(count) => self.cells.undropped() == count,
            Empty(answer) => self.cells.is_empty() == answer,
            GlobalLen(count) => self.cells.global_len() == count,
            GlobalAt(place, number) => self.cells.global_at(place) == number,
            Woken(waker, times) => self.wakers.wakes(waker) == Some(times),
            WakeAll(has_notice) => is_spent(self.cells.wake_all()) == has_notice,
            Close(has_notice) => is_spent(self.cells.close()) == has_notice,
            Drain(ticked) => drain(&mut self.cells) == ticked,
            Law => {
                self.cells.law_holds();
                true
            }
        })
    }
}

#[test]
fn an_id_finds_no_other_task_in_its_slot(rt: HostRuntime) -> Result<(), Fail> {
    play(
        Table::new(rt.alloc(), 0)?,
        &[
            Spawn(10, 0),
            Tick(Some(7), Some(polled(0))),
            Poll(0, Answer::Output(7)),
            Spawn(11, 1),
            SameSlot(0, 1),
            Tick(None, Some(polled(1))),
            Wake(0, false),
            GlobalLen(0),
            Keeps(1, true),
            // The second task is idle.
            Wake(1, true),
            GlobalAt(0, Some(1)),
            GlobalAt(1, None),
        ],
    )
}

#[test]
fn the_last_number_is_never_given(rt: HostRuntime) -> Result<(), Fail> {
    play(Table::new(rt.alloc(), u64::MAX)?, &[Refuse(10)])
}

#[test]
fn the_number_before_the_last_is_given_once(rt: HostRuntime) -> Result<(), Fail> {
    play(
        Table::new(rt.alloc(), u64::MAX - 1)?,
        &[
            Spawn(10, 18_446_744_073_709_551_614),
            Refuse(11),
            Undropped(1),
        ],
    )
}

#[test]
fn a_cancelled_task_is_dropped_unpolled_and_its_awaiter_woken(rt: HostRuntime) -> Result<(), Fail> {
    let dropped = Ticked {
        wakes_awaiter: true,
        ..dropped(0)
    };
    play(
        Table::new(rt.alloc(), 0)?,
        &[
            Spawn(10, 0),
            Poll(0, Answer::Pending(false)),
            // It is queued already.
            Cancel(0, false),
            Finished(0, true),
            Empty(false),
            Tick(Some(7), Some(dropped)),
            Woken(0, 1),
            Empty(true),
            Poll(0, Answer::Cancelled),
        ],
    )
}

#[test]
fn a_handle_that_ends_lets_its_output_go(rt: HostRuntime) -> Result<(), Fail> {
    let unwanted = Ticked {
        unwanted: Some(9),
        ..polled(2)
    };
    play(
        Table::new(rt.alloc(), 0)?,
        &[
            Spawn(10, 0),
            Spawn(11, 1),
            Spawn(12, 2),
            Tick(Some(7), Some(polled(0))),
            Detach(0, Some(7)),
            DropHandle(1),
            Detach(2, None),
            Tick(Some(8), Some(dropped(1))),
            Tick(Some(9), Some(unwanted)),
            Tick(None, None),
        ],
    )
}
