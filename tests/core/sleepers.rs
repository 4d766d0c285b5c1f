//! The sleepers behind their lock, and the flag beside them, by their calls.
ghost use Rattle.std.specs.Prelude.{◌≡◌, false};

use crate::tests::support::core::lines::{Player, play};
use crate::tests::support::core::notices::{is_spent, spend};
use crate::tests::support::core::tasks::{Tasks, run};
use crate::tests::support::core::wakers::{Counter, Wakers, is_woken};
use Line::{
    At, FlagIs, List, NoPlace, Queue, QueueTwice, Queued, Release, Remove, Reserve, Sleep,
    SleepAgain, Woken,
};
use executor_core::plain_core::FlagValue;
use executor_core::sleepers::{ClosedSleepers, Flag, Removed, Sleepers, Update};
use executor_core::task::{Again, Change, Notice, Pick};
use std::alloc::Global;
use std::sync::{Mutex, Wait};
use std::test::Fail;

// What is done with the sleepers and the flag, and what has to come of it. Whoever changes the list
// stores the flag under the same lock, and whoever goes to sleep then searches once more, in vain.
#[derive(Clone, Copy)]
enum Line {
    // One more place is reserved.
    Reserve,
    // A reserved place is given back.
    Release,
    // Someone with a new waker goes to sleep under this number.
    Sleep(usize),
    // Someone would go to sleep, but no place is free.
    NoPlace,
    // The sleeper of this number, which was notified, goes to sleep again with a new waker.
    SleepAgain(usize),
    // The sleeper of this number, which was not notified, is removed.
    Remove(usize),
    // A task is queued, and its notice spent: there is no pick, or one that wakes somebody or not.
    Queue(Option<bool>),
    // The same twice. Between the two someone goes to sleep under this number, and the picks are
    // spent at the end.
    QueueTwice(Option<bool>, usize, Option<bool>),
    // So many tasks are queued.
    Queued(usize),
    // So many numbers are in use, this one is notified, and so many stand in the list.
    List(usize, usize, usize),
    // At this place of the list stands this number.
    At(usize, usize),
    // The waker of so many before it was woken so often.
    Woken(usize, u32),
    // The flag has this value.
    FlagIs(bool),
}

// The flag, of either kind.
#[derive(Drop)]
enum AnyFlag {
    Plain(FlagValue),
    Shared(Flag),
}

impl AnyFlag {
    fn get(&self) -> bool {
        match self {
            AnyFlag::Plain(flag) => flag.get(),
            AnyFlag::Shared(flag) => flag.get(),
        }
    }

    fn exchange(&mut self, notice: Notice) -> Option<Pick> {
        match self {
            AnyFlag::Plain(flag) => flag.exchange(notice),
            AnyFlag::Shared(flag) => flag.exchange(notice),
        }
    }

    fn store<X>(&mut self, change: Change<X>, sleepers: &mut Sleepers<Counter>) -> X
        ensures { sleepers.new.is_open ≡ false }
    {
        match self {
            AnyFlag::Plain(flag) => flag.store(change, sleepers),
            AnyFlag::Shared(flag) => flag.store(change, sleepers),
        }
    }
}

// Whether the search that a sleeper makes again finds no task.
fn search_in_vain(tasks: &mut Tasks, again: Again) -> bool {
    match tasks.take_global(Some(again)) {
        None => true,
        Some((taken, notice)) => {
            spend(notice);
            run(tasks, taken, None);
            false
        }
    }
}

// Sleepers and their flag, a table for the tasks that are queued, and an empty one for the searches
// of those who sleep.
#[derive(Drop)]
struct Party<'r, R: Wait> {
    rt: &'r R,
    flag: AnyFlag,
    lock: Mutex<ClosedSleepers<Counter>>,
    tasks: Tasks,
    empty: Tasks,
    wakers: Wakers,
}

impl<'r, R: Wait> Party<'r, R> {
    fn new(rt: &'r R, alloc: Global, flag: AnyFlag) -> Result<Party<'r, R>, Fail> {
        let tasks = Tasks::new(alloc)?;
        let empty = Tasks::new(alloc)?;
        Ok(Party {
            rt,
            flag,
            lock: Mutex::new(ClosedSleepers::new(alloc)),
            tasks,
            empty,
            wakers: Wakers::new(alloc),
        })
    }

    fn reserve(&self) -> bool {
        self.lock.lock(self.rt).sleepers.reserve().is_ok()
    }

    fn release(&self) -> bool {
        self.lock.lock(self.rt).sleepers.release();
        true
    }

    // The number of the one who goes to sleep, and whether its search was in vain.
    fn sleep(&mut self, waker: Counter) -> Option<(usize, bool)> {
        let mut guard = self.lock.lock(self.rt);
        let sleepers = &mut guard.sleepers;
        match sleepers.insert(waker) {
            Ok((number, change)) => {
                let again = self.flag.store(change, sleepers);
                Some((number, search_in_vain(&mut self.empty, again)))
            }
            Err(_) => None,
        }
    }

    // Whether the sleeper was notified, and its search was in vain.
    fn sleep_again(&mut self, number: usize, waker: Counter) -> bool {
        let mut guard = self.lock.lock(self.rt);
        let sleepers = &mut guard.sleepers;
        match sleepers.update(number, waker) {
            Update::WasNotified(change) => {
                let again = self.flag.store(change, sleepers);
                search_in_vain(&mut self.empty, again)
            }
            Update::Asleep(_) | Update::Unknown(_) => false,
        }
    }

    // Whether the sleeper left its waker, and no notice.
    fn remove(&mut self, number: usize) -> bool {
        let mut guard = self.lock.lock(self.rt);
        let sleepers = &mut guard.sleepers;
        let change = sleepers.remove(number);
        let Removed { notice, waker } = self.flag.store(change, sleepers);
        !is_spent(notice) && waker.is_some()
    }

    // The exchange of the flag for the notice of a task that is queued.
    fn exchange(&mut self) -> Option<Pick> {
        match self.tasks.spawn(0) {
            Ok((_, notice)) => self.flag.exchange(notice),
            Err(_) => None,
        }
    }

    // Whether the pick, if there is one, wakes somebody.
    fn notify(&mut self, pick: Option<Pick>) -> Option<bool> {
        match pick {
            Some(pick) => Some(is_woken(self.lock.lock(self.rt).sleepers.notify(pick))),
            None => None,
        }
    }

    fn queue(&mut self) -> Option<bool> {
        let pick = self.exchange();
        self.notify(pick)
    }

    // What the picks do, and who went to sleep between them.
    fn queue_twice(
        &mut self,
        waker: Counter,
    ) -> (Option<bool>, Option<(usize, bool)>, Option<bool>) {
        let first = self.exchange();
        let slept = self.sleep(waker);
        let second = self.exchange();
        let first = self.notify(first);
        (first, slept, self.notify(second))
    }

    fn list(&self) -> (usize, usize, usize) {
        let guard = self.lock.lock(self.rt);
        let sleepers = &guard.sleepers;
        (sleepers.numbers(), sleepers.notified(), sleepers.len())
    }

    fn at(&self, place: usize) -> Option<usize> {
        self.lock.lock(self.rt).sleepers.at(place)
    }

    // Whether the line, which is one on someone with this waker who goes to sleep, holds.
    fn sleeper_holds(&mut self, waker: Counter, line: Line) -> bool {
        match line {
            Sleep(number) => self.sleep(waker) == Some((number, true)),
            NoPlace => self.sleep(waker).is_none(),
            SleepAgain(number) => self.sleep_again(number, waker),
            QueueTwice(first, number, second) => {
                self.queue_twice(waker) == (first, Some((number, true)), second)
            }
            _ => false,
        }
    }
}

impl<'r, R: Wait> Player<Line> for Party<'r, R> {
    fn holds(&mut self, line: Line) -> Result<bool, Fail> {
        Ok(match line {
            Reserve => self.reserve(),
            Release => self.release(),
            Sleep(_) | NoPlace | SleepAgain(_) | QueueTwice(_, _, _) => {
                let waker = self.wakers.make()?;
                self.sleeper_holds(waker, line)
            }
            Remove(number) => self.remove(number),
            Queue(woken) => self.queue() == woken,
            Queued(count) => self.tasks.global_len() == count,
            List(numbers, notified, len) => self.list() == (numbers, notified, len),
            At(place, number) => self.at(place) == Some(number),
            Woken(waker, times) => self.wakers.wakes(waker) == Some(times),
            FlagIs(value) => self.flag.get() == value,
        })
    }
}

// Takes the lines, by a flag that is a plain value.
fn play_plain<R: AllocGlobal + Wait>(rt: &R, lines: &[Line]) -> Result<(), Fail> {
    let flag = AnyFlag::Plain(FlagValue::new());
    play(Party::new(rt, rt.alloc(), flag)?, lines)
}

// Takes the lines, by a flag that threads share.
fn play_shared<R: AllocGlobal + Wait>(rt: &R, lines: &[Line]) -> Result<(), Fail> {
    let flag = AnyFlag::Shared(Flag::new());
    play(Party::new(rt, rt.alloc(), flag)?, lines)
}

#[test]
fn a_number_that_was_given_back_is_used_next(rt: HostRuntime) -> Result<(), Fail> {
    play_plain(
        &rt,
        &[
            Reserve,
            Reserve,
            Reserve,
            Sleep(1),
            Sleep(2),
            Remove(1),
            Sleep(1),
        ],
    )
}

#[test]
fn the_last_to_sleep_is_notified_alone(rt: HostRuntime) -> Result<(), Fail> {
    play_plain(
        &rt,
        &[
            Reserve,
            Reserve,
            Reserve,
            Sleep(1),
            QueueTwice(Some(true), 2, Some(false)),
            Woken(0, 0),
            Woken(1, 1),
        ],
    )
}

#[test]
fn a_notified_sleeper_sleeps_again_at_the_end(rt: HostRuntime) -> Result<(), Fail> {
    play_plain(
        &rt,
        &[
            Reserve,
            Reserve,
            Reserve,
            Release,
            Sleep(1),
            Sleep(2),
            NoPlace,
            Queue(Some(true)),
            List(2, 2, 1),
            SleepAgain(2),
            List(2, 0, 2),
            At(0, 1),
            At(1, 2),
        ],
    )
}

#[test]
fn a_list_change_and_its_store_go_under_one_lock(rt: HostRuntime) -> Result<(), Fail> {
    play_shared(
        &rt,
        &[
            FlagIs(true),
            Reserve,
            Sleep(1),
            FlagIs(false),
            Queue(Some(true)),
            FlagIs(true),
            Woken(0, 1),
        ],
    )
}

#[test]
fn a_true_flag_gives_no_pick(rt: HostRuntime) -> Result<(), Fail> {
    play_shared(
        &rt,
        &[
            Reserve,
            Reserve,
            Reserve,
            Queue(None),
            Queued(1),
            FlagIs(true),
        ],
    )
}

#[test]
fn a_change_that_leaves_nobody_asleep_sets_the_flag(rt: HostRuntime) -> Result<(), Fail> {
    play_shared(
        &rt,
        &[
            Reserve,
            Reserve,
            Reserve,
            Sleep(1),
            FlagIs(false),
            Remove(1),
            FlagIs(true),
        ],
    )
}
