//! Tasks that are spawned, taken and run.
ghost use Rattle.std.specs.Prelude.{◌≡◌, false, true};
ghost use Rattle.executor_core.specs.declared.task.polling.Polled.{Polled};

use crate::tests::support::core::notices::{is_spent, spend};
use crate::tests::support::core::wakers::{Counter, is_woken};
use executor_core::task::{
    Cells, EndPending, EndReady, Held, Polled, Poller, Ran, Taken, TaskId, run_taken,
};

// Polls give this output, or are pending if there is none.
#[derive(Drop)]
struct Answers {
    output: Option<u64>,
    polls: u64,
    disposals: u64,
}

impl Poller<u8, u64> for Answers {
    ghost polls = { λ a. a.polls };

    ghost disposals = { λ a. a.disposals };

    ghost answers = { λ a id p r. Unit {0} };

    ghost disposed = { λ a id p after. Unit {0} };

    fn poll(&mut self, _id: TaskId, future: u8) -> Polled<u8, u64> {
        self.polls += 1;
        match self.output {
            Some(output) => Polled::Ready(output),
            None => Polled::Pending(future),
        }
    }

    fn dispose(&mut self, _id: TaskId, _future: u8) {
        self.disposals += 1;
    }
}

/// Tables of tasks whose futures are numbers.
pub type Tasks = Cells<u8, u64, Counter>;

/// Spawns a task, and spends its notice.
pub fn spawn(cells: &mut Tasks, future: u8) -> Result<TaskId, &'static str> {
    match cells.spawn(future) {
        Ok((id, notice)) => {
            spend(notice);
            Ok(id)
        }
        Err(_) => Err("no task was spawned"),
    }
}

/// What became of a task that was taken.
#[derive(Clone, Copy, PartialEq)]
pub struct Ticked {
    pub number: u64,
    pub polls: u64,
    pub disposals: u64,
    pub is_queued: bool,
    pub unwanted: Option<u64>,
    pub wakes_awaiter: bool,
}

fn end_pending(cells: &mut Tasks, held: Held, future: u8, ticked: &mut Ticked)
    requires { held.to_drop ≡ false }
{
    match cells.end_pending(held, future) {
        EndPending::Back(notice) => ticked.is_queued = is_spent(notice),
        EndPending::Drop(_, held) => ticked.wakes_awaiter = is_woken(cells.end_dropped(held)),
    }
}

/// Takes the front, and runs it.
pub fn tick(cells: &mut Tasks, output: Option<u64>) -> Option<Ticked> {
    let (taken, notice) = cells.take_global(None)?;
    spend(notice);
    Some(run(cells, taken, output))
}

/// Takes what is to be drained, and runs it.
pub fn drain(cells: &mut Tasks) -> Option<Ticked> {
    let taken = cells.drain_next()?;
    Some(run(cells, taken, None))
}

/// Polls the task, or drops it if it is cancelled, and ends it.
pub fn run(cells: &mut Tasks, taken: Taken<u8>, output: Option<u64>) -> Ticked {
    let number = taken.id().number();
    let mut poller = Answers {
        output,
        polls: 0,
        disposals: 0,
    };
    let ran = run_taken(taken, &mut poller);
    let mut ticked = Ticked {
        number,
        polls: poller.polls,
        disposals: poller.disposals,
        is_queued: false,
        unwanted: None,
        wakes_awaiter: false,
    };
    match ran {
        Ran::Pending(held, future) => end_pending(cells, held, future, &mut ticked),
        Ran::Ready(held, output) => {
            let EndReady { awaiter, unwanted } = cells.end_ready(held, output);
            ticked.unwanted = unwanted;
            ticked.wakes_awaiter = is_woken(awaiter);
        }
        Ran::Dropped(held) => ticked.wakes_awaiter = is_woken(cells.end_dropped(held)),
    }
    ticked
}

/// A task that was polled, and no more.
pub fn polled(number: u64) -> Ticked {
    Ticked {
        number,
        polls: 1,
        disposals: 0,
        is_queued: false,
        unwanted: None,
        wakes_awaiter: false,
    }
}

/// A task that was dropped unpolled, and no more.
pub fn dropped(number: u64) -> Ticked {
    Ticked {
        polls: 0,
        disposals: 1,
        ..polled(number)
    }
}
