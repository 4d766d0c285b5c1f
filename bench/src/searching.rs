//! Rows of runners' searches, on the cells alone.
ghost use Rattle.std.specs.Prelude.{◌≡◌, false};

use crate::futures::IdleWaker;
use executor_core::plain_core::FlagValue;
use executor_core::queue::{Ring, RunnerKey};
use executor_core::task::{
    Cells, EndPending, EndReady, Held, Notice, Polled, Poller, Ran, TaskId, Wakeup, run_taken,
};
use std::alloc::Global;

/// For how many tasks a runner's queue has room.
const PLACES: usize = 512;

/// How many tasks a runner steals from another by halves.
const STOLEN: usize = 300;

/// Counts its polls, which are all pending.
#[derive(Drop)]
struct Pends {
    polls: u64,
    disposals: u64,
}

impl Poller<(), ()> for Pends {
    ghost polls = { λ p. p.polls };

    ghost disposals = { λ p. p.disposals };

    ghost answers = { λ p id f r. Unit {0} };

    ghost disposed = { λ p id f after. Unit {0} };

    fn poll(&mut self, _id: TaskId, future: ()) -> Polled<(), ()> {
        self.polls += 1;
        Polled::Pending(future)
    }

    fn dispose(&mut self, _id: TaskId, _future: ()) {
        self.disposals += 1;
    }
}

/// The cells of tasks that nobody awaits.
pub type Tasks = Cells<(), (), IdleWaker>;

// Spends the notice by a flag that says that nobody sleeps.
fn spend(notice: Notice) {
    match FlagValue::new().exchange(notice) {
        None => {}
        Some(_) => unreachable!(),
    }
}

/// Spends the notice, if there is one.
pub fn spend_if(notice: Option<Notice>) {
    if let Some(notice) = notice {
        spend(notice);
    }
}

fn wake_if(wakeup: Option<Wakeup<IdleWaker>>) {
    if let Some(wakeup) = wakeup {
        wakeup.wake();
    }
}

/// Cells with so many scheduled tasks, and their ids. `None` if memory was refused.
pub fn tasks(alloc: Global, count: usize) -> Option<(Tasks, Vec<TaskId>)> {
    let mut cells = Cells::new(alloc).ok()?;
    let mut ids = Vec::with_capacity(alloc, count).ok()?;
    for _ in 0..count {
        let (id, notice) = cells.spawn(()).ok()?;
        spend(notice);
        ids.push(id).ok()?;
    }
    Some((cells, ids))
}

/// A runner with an empty queue of its own. `None` if memory was refused.
pub fn runner(cells: &mut Tasks, alloc: Global) -> Option<RunnerKey> {
    let key = cells.reserve_runner().ok()?;
    let ring = Ring::new(alloc, PLACES).ok()?;
    match cells.register(key, ring) {
        Ok(()) => Some(key),
        Err(_) => None,
    }
}

// The poll was pending, and the task is idle.
fn end_pending(cells: &mut Tasks, held: Held)
    requires { held.to_drop ≡ false }
{
    match cells.end_pending(held, ()) {
        EndPending::Back(notice) => spend_if(notice),
        EndPending::Drop((), held) => wake_if(cells.end_dropped(held)),
    }
}

/// One search of the runner, and the poll of the task that it finds, which is idle then.
pub fn search_once(cells: &mut Tasks, key: RunnerKey, word: u64) -> Option<TaskId> {
    let (taken, notice) = cells.search(key, word, None)?;
    spend(notice);
    let id = taken.id();
    let mut poller = Pends {
        polls: 0,
        disposals: 0,
    };
    match run_taken(taken, &mut poller) {
        Ran::Pending(held, ()) => end_pending(cells, held),
        Ran::Ready(held, ()) => {
            let EndReady {
                awaiter,
                unwanted: _,
            } = cells.end_ready(held, ());
            wake_if(awaiter);
        }
        Ran::Dropped(held) => wake_if(cells.end_dropped(held)),
    }
    Some(id)
}

/// Moves all of the global queue to the runner's own, by halves, as far as it has room.
pub fn take_all(cells: &mut Tasks, key: RunnerKey) {
    for _ in 0..usize::BITS {
        if cells.fair(key) == 0 {
            return;
        }
    }
}

/// A runner takes tasks from its own queue, and each is queued again at the global end. Once its
/// queue is empty, it takes all of the global one.
pub fn search_own(alloc: Global, operations: u64) -> Option<u64> {
    let (mut cells, _) = tasks(alloc, PLACES)?;
    let key = runner(&mut cells, alloc)?;
    let mut found = 0u64;
    for operation in 0..operations {
        if operation % PLACES as u64 == 0 {
            take_all(&mut cells, key);
        }
        if let Some(id) = search_once(&mut cells, key, operation) {
            spend_if(cells.wake(id));
            found = found.saturating_add(1);
        }
    }
    Some(found)
}

/// A runner takes 300 tasks, which it steals by halves from the queue of another, over and over.
pub fn search_steal(alloc: Global, operations: u64) -> Option<u64> {
    let (mut cells, ids) = tasks(alloc, STOLEN)?;
    let owner = runner(&mut cells, alloc)?;
    let thief = runner(&mut cells, alloc)?;
    let mut found = 0u64;
    for operation in 0..operations {
        if operation % STOLEN as u64 == 0 {
            for id in &ids {
                spend_if(cells.wake(*id));
            }
            take_all(&mut cells, owner);
        }
        if search_once(&mut cells, thief, operation).is_some() {
            found = found.saturating_add(1);
        }
    }
    Some(found)
}

/// One of four runners searches, and all queues are empty.
pub fn search_empty(alloc: Global, operations: u64) -> Option<u64> {
    let (mut cells, _) = tasks(alloc, 0)?;
    let key = runner(&mut cells, alloc)?;
    for _ in 0..3 {
        runner(&mut cells, alloc)?;
    }
    let mut empty = 0u64;
    for operation in 0..operations {
        if search_once(&mut cells, key, operation).is_none() {
            empty = empty.saturating_add(1);
        }
    }
    Some(empty)
}
