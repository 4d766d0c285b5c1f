//! Ticks and runs that sleep, on several threads.
use crate::tests::support::running::future::{Kind, Until};
use crate::tests::support::running::line::Answer;
use crate::tests::support::running::line::Line::{
    Count, HaltAt, MakeTick, Poll as PollBy, PollHalts, Returns, Spawn, TickHalts,
};
use crate::tests::support::running::player::play;
use crate::tests::support::running::record::Moment::{FuturePoll, WakerWake};
use crate::tests::support::running::task::spawned;
use crate::tests::support::running::waiting::{parks, turns};
use async_executor::executor::{Executor, Task};
use executor_core::task::{Future, OutOfMemory, Poll, Wake};
use std::alloc::{AllocError, Global};
use std::sync::atomic::{AtomicU64, Ordering};
use std::sync::{Arc, Wait};
use std::test::Fail;
use std::thread;
use std::thread::{Parker, Threads, yield_now};
use std::time::Duration;

// The news of a task is spent before the task is polled, and so wakes nobody who goes to sleep while
// it is polled.
#[test]
fn a_take_wakes_nobody_who_sleeps_later(rt: HostRuntime) -> Result<(), Fail> {
    play(
        &rt,
        &[
            Spawn(Kind::Ready(7)),
            HaltAt(0, FuturePoll),
            TickHalts,
            MakeTick,
            PollBy(1, Answer::Pending),
            Returns(Answer::Ticked),
            Count(1, WakerWake, 0),
        ],
    )
}

#[test]
fn a_tick_that_found_a_task_wakes_another_before_the_poll(rt: HostRuntime) -> Result<(), Fail> {
    play(
        &rt,
        &[
            MakeTick,
            MakeTick,
            PollBy(0, Answer::Pending),
            PollBy(1, Answer::Pending),
            Spawn(Kind::Ready(7)),
            HaltAt(2, FuturePoll),
            PollHalts(1),
            Count(0, WakerWake, 1),
            Returns(Answer::Ticked),
        ],
    )
}

// Unparks a thread, and counts how often.
#[derive(Drop)]
struct Bell {
    parker: Parker,
    wakes: AtomicU64,
}

#[derive(Drop)]
struct Unparks {
    bell: Arc<Bell>,
}

impl Unparks {
    fn new(alloc: Global) -> Result<Unparks, AllocError> {
        let bell = Bell {
            parker: Parker::new(),
            wakes: AtomicU64::new(0),
        };
        Ok(Unparks {
            bell: Arc::new(alloc, bell)?,
        })
    }

    fn wakes(&self) -> u64 {
        self.bell.wakes.load(Ordering::SeqCst)
    }

    // Parks this thread until there were more wakes than this, and says whether it was so in time.
    fn sleeps<R: Wait>(&self, rt: &R, before: u64) -> bool {
        for _ in 0..parks() {
            if self.wakes() > before {
                return true;
            }
            self.bell
                .parker
                .park_timeout(rt, Duration::from_millis(100));
        }
        false
    }
}

impl Wake for Unparks {
    fn wake(&self) {
        self.bell.wakes.fetch_add(1, Ordering::SeqCst);
        self.bell.parker.unpark();
    }

    fn copy(&self) -> Result<Self, OutOfMemory> {
        Ok(Unparks {
            bell: Arc::try_clone(&self.bell)?,
        })
    }
}

// Counts who polls it, and is ready. It waits for as many others as it is told to.
#[derive(Drop)]
struct Meets {
    polls: Arc<AtomicU64>,
    all: u64,
}

impl<W> Future<W> for Meets {
    type Output = bool;

    fn poll(&mut self, _w: &W) -> Poll<bool> {
        self.polls.fetch_add(1, Ordering::SeqCst);
        Poll::Ready(are_there(&self.polls, self.all))
    }
}

// Waits until the number is so large, and says whether it was so in time.
fn are_there(number: &AtomicU64, all: u64) -> bool {
    for _ in 0..turns() {
        if number.load(Ordering::SeqCst) >= all {
            return true;
        }
        yield_now();
    }
    false
}

// An executor, the waker of a thread that sleeps, how often tasks were polled, and how often the
// thread went to sleep.
#[derive(Drop)]
struct Fixture<R: Wait + Clone + Drop + Send + Sync> {
    ex: Executor<Meets, Unparks, R>,
    waker: Unparks,
    polls: Arc<AtomicU64>,
    sleeps: AtomicU64,
    rt: R,
}

impl<R: Wait + Clone + Drop + Send + Sync + AllocGlobal> Fixture<R> {
    fn new(rt: &R) -> Result<Fixture<R>, Fail> {
        let alloc = rt.alloc();
        let waker = Unparks::new(alloc)?;
        let polls = Arc::new(alloc, AtomicU64::new(0))?;
        let ex = Executor::new(rt.clone()?, alloc)?;
        Ok(Fixture {
            ex,
            waker,
            polls,
            sleeps: AtomicU64::new(0),
            rt: rt.clone()?,
        })
    }
}

impl<R: Wait + Clone + Drop + Send + Sync> Fixture<R> {
    fn meets(&self, all: u64) -> Result<Meets, AllocError> {
        Ok(Meets {
            polls: Arc::try_clone(&self.polls)?,
            all,
        })
    }

    // A task that waits until it and another one are polled.
    fn spawn_one_of_two(&self) -> Result<Task<Meets, Unparks, R>, Fail> {
        spawned(&self.ex, self.meets(2)?)
    }

    // Whether the task has ended and was polled beside another one.
    fn has_met(&self, mut task: Task<Meets, Unparks, R>) -> bool {
        task.poll(&self.waker) == Poll::Ready(Ok(true))
    }

    // Whether a tick finds a task at its first poll.
    fn ticks(&self) -> bool {
        match self.ex.tick() {
            Ok(mut tick) => tick.poll(&self.waker) == Poll::Ready(()),
            Err(_) => false,
        }
    }

    // Whether a tick runs a task in time. While there is none, this thread sleeps until it is woken.
    fn ticks_asleep(&self) -> bool {
        let Ok(mut tick) = self.ex.tick() else {
            return false;
        };
        for _ in 0..turns() {
            let before = self.waker.wakes();
            if tick.poll(&self.waker) == Poll::Ready(()) {
                return true;
            }
            self.sleeps.fetch_add(1, Ordering::SeqCst);
            if !self.waker.sleeps(&self.rt, before) {
                return false;
            }
        }
        false
    }

    // Runs as many tasks by ticks as there are rounds, and counts them.
    fn ticks_each(&self) -> u64 {
        for round in 0..ROUNDS {
            if !self.ticks_asleep() {
                return round;
            }
        }
        ROUNDS
    }

    // Whether a run ends in time, which it does once so many tasks were polled as there are rounds.
    // While there is none, this thread sleeps until it is woken.
    fn runs_asleep(&self) -> bool {
        let Ok(all) = Until::new(&self.polls, ROUNDS) else {
            return false;
        };
        let Ok(mut run) = self.ex.run(all) else {
            return false;
        };
        for _ in 0..turns() {
            let before = self.waker.wakes();
            if run.poll(&self.waker) == Poll::Ready(()) {
                return true;
            }
            self.sleeps.fetch_add(1, Ordering::SeqCst);
            if !self.waker.sleeps(&self.rt, before) {
                return false;
            }
        }
        false
    }

    // Whether the thread went to sleep before each task.
    fn slept(&self) -> bool {
        self.sleeps.load(Ordering::SeqCst) >= ROUNDS
    }

    // Spawns the tasks one by one, and has the other thread see that all were polled.
    fn spawns_all(&self) {
        self.spawns_each();
        are_there(&self.polls, ROUNDS);
        self.waker.wake();
    }

    // Spawns the tasks one by one, each once the other thread sleeps and has run those before it.
    fn spawns_each(&self) {
        for round in 0..ROUNDS {
            if !are_there(&self.polls, round) || !are_there(&self.sleeps, round + 1) {
                return;
            }
            let Ok(future) = self.meets(0) else {
                return;
            };
            if let Ok(task) = self.ex.spawn(future) {
                task.detach();
            }
        }
    }
}

// Whether each of two threads ran a task, and whether each task met the other.
fn run_at_once<R: AllocGlobal + Wait + Threads + Clone + Drop + Send + Sync>(
    rt: &R,
) -> Result<[bool; 4], Fail> {
    let all = Fixture::new(rt)?;
    let one = all.spawn_one_of_two()?;
    let two = all.spawn_one_of_two()?;
    let shared = &all;
    let (first, second) = thread::join(rt, || shared.ticks(), || shared.ticks());
    Ok([first, second, all.has_met(one), all.has_met(two)])
}

#[test]
fn two_ticks_run_tasks_at_once(rt: HostRuntime) -> Result<(), Fail> {
    assert_eq!(rt; run_at_once(&rt)?, [true; 4]);
    Ok(())
}

// How many tasks were run by ticks, and whether the thread slept before each of them.
fn tick_asleep<R: AllocGlobal + Wait + Threads + Clone + Drop + Send + Sync>(
    rt: &R,
) -> Result<(u64, bool, bool), Fail> {
    let all = Fixture::new(rt)?;
    let shared = &all;
    let (ticked, ()) = thread::join(rt, || shared.ticks_each(), || shared.spawns_each());
    Ok((ticked, all.slept(), all.ex.is_empty()))
}

#[test]
fn a_tick_sleeps_on_a_thread_that_parks(rt: HostRuntime) -> Result<(), Fail> {
    assert_eq!(rt; tick_asleep(&rt)?, (ROUNDS, true, true));
    Ok(())
}

// How many tasks were run by a run, whether it ended, and whether the thread slept before each of
// them.
fn run_asleep<R: AllocGlobal + Wait + Threads + Clone + Drop + Send + Sync>(
    rt: &R,
) -> Result<(u64, bool, bool, bool), Fail> {
    let all = Fixture::new(rt)?;
    let shared = &all;
    let (ended, ()) = thread::join(rt, || shared.runs_asleep(), || shared.spawns_all());
    let polls = all.polls.load(Ordering::SeqCst);
    Ok((polls, ended, all.slept(), all.ex.is_empty()))
}

#[test]
fn a_run_sleeps_on_a_thread_that_parks(rt: HostRuntime) -> Result<(), Fail> {
    assert_eq!(rt; run_asleep(&rt)?, (ROUNDS, true, true, true));
    Ok(())
}

// How many tasks are run by a thread that parks.
const ROUNDS: u64 = 1_000;
