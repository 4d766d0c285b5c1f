//! Tasks in the queues of runners.
use crate::tests::support::core::lines::{Player, play};
use crate::tests::support::core::notices::{is_spent, spend};
use crate::tests::support::core::rings::Line::{Fill, Pop, Push, Source, Stand, Steal, Target};
use crate::tests::support::core::rings::Rings;
use crate::tests::support::core::tasks::{Tasks, run, spawn};
use Line::{
    Any, Close, Fair, Find, GlobalAt, Law, Leave, Lengths, LocalAt, Refuse, Register, Release,
    Reserve, Runners,
};
use executor_core::queue::{Ring, RunnerKey};
use std::alloc::Global;
use std::test::Fail;

/// What is done with a table that has tasks in its global queue, and what has to come of it. Runners
/// have the numbers 0, 1 and so on, in order of their reservations.
#[derive(Clone, Copy)]
pub enum Line {
    // A place is reserved for a runner, whose key no other has.
    Reserve,
    // The place that was reserved for this runner is given back.
    Release(usize),
    // This runner gets a queue of its own, with room for so many tasks.
    Register(usize, usize),
    // This runner gets no queue: the one with room for so many tasks comes back.
    Refuse(usize, usize),
    // This runner's search, with this word, finds this task, which is idle then, or none.
    Find(usize, u64, Option<u64>),
    // A take of any queue finds this task, which is idle then, or none.
    Any(Option<u64>),
    // So many tasks of the global queue go to this runner's.
    Fair(usize, usize),
    // This runner leaves, and there is a notice or not.
    Leave(usize, bool),
    // The cells are closed, and there is a notice or not.
    Close(bool),
    // So many runners have a queue.
    Runners(usize),
    // So many tasks stand in the global queue, and in those of the first two runners.
    Lengths(usize, Option<usize>, Option<usize>),
    // At this place of the global queue stands this task, or none.
    GlobalAt(usize, Option<u64>),
    // In the queue of this runner, at this place, stands this task, or none.
    LocalAt(usize, usize, Option<u64>),
    // The law of the table, which is a contract alone.
    Law,
}

/// A table, and the keys of its runners.
#[derive(Drop)]
pub struct Table {
    cells: Tasks,
    keys: Vec<RunnerKey>,
    alloc: Global,
}

impl Table {
    /// A table with so many tasks, all in the global queue.
    pub fn new(alloc: Global, tasks: u8) -> Result<Table, Fail> {
        let mut cells = Tasks::new(alloc)?;
        for future in 0..tasks {
            spawn(&mut cells, future)?;
        }
        Ok(Table {
            cells,
            keys: Vec::new(alloc),
            alloc,
        })
    }

    fn key(&self, runner: usize) -> Result<RunnerKey, Fail> {
        match self.keys.get(runner) {
            Some(key) => Ok(*key),
            None => Err(Fail::from("there is no such runner")),
        }
    }

    fn reserve(&mut self) -> Result<bool, Fail> {
        let key = self.cells.reserve_runner()?;
        for other in &self.keys {
            if *other == key {
                return Ok(false);
            }
        }
        self.keys.push(key)?;
        Ok(true)
    }

    // The room of the queue that comes back, if one does.
    fn register(&mut self, key: RunnerKey, room: usize) -> Result<Option<usize>, Fail> {
        let ring = Ring::new(self.alloc, room)?;
        Ok(match self.cells.register(key, ring) {
            Ok(()) => None,
            Err(back) => Some(back.capacity()),
        })
    }

    // The number of the task that is found, which is idle then.
    fn find(&mut self, key: RunnerKey, word: u64) -> Option<u64> {
        let (taken, notice) = self.cells.search(key, word, None)?;
        spend(notice);
        Some(run(&mut self.cells, taken, None).number)
    }

    // The number of the task at the front of the first queue that has one, which is idle then.
    fn take_any(&mut self) -> Option<u64> {
        let (taken, notice) = self.cells.take_any(None)?;
        spend(notice);
        Some(run(&mut self.cells, taken, None).number)
    }

    fn lengths(&self) -> (usize, Option<usize>, Option<usize>) {
        let cells = &self.cells;
        (cells.global_len(), cells.local_len(0), cells.local_len(1))
    }

    // Whether the line, which is one on the runner of this key, holds.
    fn runner_holds(&mut self, key: RunnerKey, line: Line) -> Result<bool, Fail> {
        Ok(match line {
            Release(_) => {
                self.cells.release_runner(key);
                true
            }
            Register(_, room) => self.register(key, room)?.is_none(),
            Refuse(_, room) => self.register(key, room)? == Some(room),
            Find(_, word, task) => self.find(key, word) == task,
            Fair(_, count) => self.cells.fair(key) == count,
            Leave(_, has_notice) => is_spent(self.cells.unregister(key)) == has_notice,
            _ => false,
        })
    }
}

impl Player<Line> for Table {
    fn holds(&mut self, line: Line) -> Result<bool, Fail> {
        Ok(match line {
            Reserve => self.reserve()?,
            Release(runner)
            | Register(runner, _)
            | Refuse(runner, _)
            | Find(runner, _, _)
            | Fair(runner, _)
            | Leave(runner, _) => {
                let key = self.key(runner)?;
                self.runner_holds(key, line)?
            }
            Any(task) => self.take_any() == task,
            Close(has_notice) => is_spent(self.cells.close()) == has_notice,
            Runners(count) => self.cells.runners() == count,
            Lengths(global, first, second) => self.lengths() == (global, first, second),
            GlobalAt(place, task) => self.cells.global_at(place) == task,
            LocalAt(runner, place, task) => self.cells.local_at(runner, place) == task,
            Law => {
                self.cells.law_holds();
                true
            }
        })
    }
}

#[test]
fn a_search_takes_the_global_front_and_half_of_the_rest(rt: HostRuntime) -> Result<(), Fail> {
    play(
        Table::new(rt.alloc(), 5)?,
        &[
            Reserve,
            Register(0, 8),
            Find(0, 0, Some(0)),
            Lengths(2, Some(2), None),
            LocalAt(0, 0, Some(1)),
            LocalAt(0, 1, Some(2)),
            LocalAt(0, 2, None),
            Find(0, 0, Some(1)),
            Find(0, 0, Some(2)),
            Find(0, 0, Some(3)),
            Find(0, 0, Some(4)),
            Find(0, 0, None),
        ],
    )
}

#[test]
fn a_search_moves_no_more_than_its_own_queue_has_room_for(rt: HostRuntime) -> Result<(), Fail> {
    play(
        Table::new(rt.alloc(), 5)?,
        &[
            Reserve,
            Register(0, 1),
            Reserve,
            Register(1, 0),
            Find(0, 0, Some(0)),
            Lengths(3, Some(1), Some(0)),
            Find(1, 0, Some(2)),
            Find(1, 0, Some(3)),
            Find(1, 0, Some(4)),
            Find(1, 0, None),
            Find(0, 0, Some(1)),
        ],
    )
}

#[test]
fn a_take_of_any_queue_takes_the_first_front_and_steals_nothing(
    rt: HostRuntime,
) -> Result<(), Fail> {
    play(
        Table::new(rt.alloc(), 6)?,
        &[
            Reserve,
            Register(0, 8),
            Reserve,
            Register(1, 2),
            Reserve,
            Register(2, 2),
            Fair(1, 2),
            Fair(2, 2),
            Any(Some(4)),
            Lengths(1, Some(0), Some(2)),
            Any(Some(5)),
            Any(Some(0)),
            Lengths(0, Some(0), Some(1)),
            LocalAt(1, 0, Some(1)),
            LocalAt(2, 1, Some(3)),
            Any(Some(1)),
            Any(Some(2)),
            Any(Some(3)),
            Any(None),
            Law,
        ],
    )
}

#[test]
fn a_search_steals_half_of_another_runners_queue(rt: HostRuntime) -> Result<(), Fail> {
    play(
        Table::new(rt.alloc(), 5)?,
        &[
            Reserve,
            Register(0, 8),
            Reserve,
            Register(1, 8),
            Fair(0, 3),
            Fair(0, 1),
            Find(1, 0, Some(4)),
            Lengths(0, Some(4), Some(0)),
            Find(1, 0, Some(0)),
            Lengths(0, Some(2), Some(1)),
            LocalAt(0, 0, Some(2)),
            LocalAt(1, 0, Some(1)),
        ],
    )
}

#[test]
fn the_word_says_where_the_walk_over_the_others_starts(rt: HostRuntime) -> Result<(), Fail> {
    play(
        Table::new(rt.alloc(), 3)?,
        &[
            Reserve,
            Register(0, 1),
            Reserve,
            Register(1, 1),
            Reserve,
            Register(2, 1),
            Fair(0, 1),
            Fair(1, 1),
            Find(2, 0, Some(2)),
            Find(2, 4, Some(1)),
            Find(2, 4, Some(0)),
            Find(2, 4, None),
        ],
    )
}

#[test]
fn a_runner_that_leaves_gives_its_tasks_back_in_order(rt: HostRuntime) -> Result<(), Fail> {
    play(
        Table::new(rt.alloc(), 4)?,
        &[
            Reserve,
            Register(0, 8),
            Reserve,
            Register(1, 8),
            Fair(0, 2),
            // Its queue is not empty, and that of the other is.
            Leave(0, true),
            Leave(1, false),
            Runners(0),
            GlobalAt(0, Some(2)),
            GlobalAt(1, Some(3)),
            GlobalAt(2, Some(0)),
            GlobalAt(3, Some(1)),
            Law,
        ],
    )
}

#[test]
fn a_runner_without_a_queue_takes_the_global_front(rt: HostRuntime) -> Result<(), Fail> {
    play(
        Table::new(rt.alloc(), 3)?,
        &[
            Reserve,
            Register(0, 8),
            Leave(0, false),
            // It has left already.
            Leave(0, false),
            Find(0, 0, Some(0)),
            Fair(0, 0),
            Lengths(2, None, None),
        ],
    )
}

#[test]
fn a_place_is_registered_once(rt: HostRuntime) -> Result<(), Fail> {
    play(
        Table::new(rt.alloc(), 0)?,
        &[
            Reserve,
            Register(0, 2),
            Reserve,
            // The first is registered already.
            Refuse(0, 3),
            Release(1),
            // No place is free.
            Refuse(1, 3),
            Runners(1),
            Reserve,
            Register(2, 4),
            Runners(2),
        ],
    )
}

#[test]
fn a_steal_moves_the_first_half(rt: HostRuntime) -> Result<(), Fail> {
    play(
        Rings::new(rt.alloc())?,
        &[
            Source(3),
            Target(3),
            Push(true),
            Push(true),
            Push(true),
            // The source is full.
            Push(false),
            Steal(2),
            Stand(1, 2),
            Pop(Some(0)),
            Pop(Some(1)),
            Pop(None),
            Stand(1, 0),
        ],
    )
}

#[test]
fn a_steal_moves_as_many_as_there_is_room_for(rt: HostRuntime) -> Result<(), Fail> {
    play(
        Rings::new(rt.alloc())?,
        &[
            Source(5),
            Fill,
            Target(512),
            Steal(3),
            Stand(2, 3),
            Source(2_000),
            Fill,
            Target(512),
            Steal(512),
            Stand(1_488, 512),
            Steal(0),
            Stand(1_488, 512),
        ],
    )
}
