//! Runs on several threads, which share the tasks of one executor.
use crate::tests::support::running::future::Kind::{Never, Ready};
use crate::tests::support::running::future::{Until, WakerPlace};
use crate::tests::support::running::line::Answer::Pending;
use crate::tests::support::running::line::Line::{
    Count, HaltAt, MakeRun, Poll as PollBy, PollHalts, Returns, Spawn, Tick,
};
use crate::tests::support::running::player::play;
use crate::tests::support::running::record::{AtDrop, Moment, Record};
use crate::tests::support::running::task::{FutureWaker, spawned};
use crate::tests::support::running::waiting::turns;
use crate::tests::support::running::waker::TestWaker;
use async_executor::executor::Executor;
use executor_core::task::{Future, Poll, Wake};
use std::alloc::{AllocError, Global};
use std::sync::atomic::{AtomicU64, Ordering};
use std::sync::{Arc, Wait};
use std::test::Fail;
use std::thread::{self, Threads, yield_now};

// A run takes half of the tasks, rounded up, to its own queue, where `try_tick` does not look.
#[test]
fn a_tick_leaves_the_tasks_of_a_run(rt: HostRuntime) -> Result<(), Fail> {
    play(
        &rt,
        &[
            Spawn(Ready(7)),
            Spawn(Ready(8)),
            Spawn(Ready(9)),
            HaltAt(0, Moment::FuturePoll),
            MakeRun(Never),
            PollHalts(3),
            Tick(true),
            Count(2, Moment::FuturePoll, 1),
            Tick(false),
            Count(1, Moment::FuturePoll, 0),
            Returns(Pending),
            Count(1, Moment::FuturePoll, 1),
        ],
    )
}

const TASKS: usize = 10_000;

// Wakes itself and its neighbour at its first polls, and is ready at the last one.
#[derive(Drop)]
struct Neighbour<R: Wait + Clone + Drop + Send + Sync> {
    polls_left: u64,
    own: WakerPlace<FutureWaker<R>>,
    other: WakerPlace<FutureWaker<R>>,
    ended: Arc<AtomicU64>,
    parts: AtDrop,
}

impl<R: Wait + Clone + Drop + Send + Sync> Neighbour<R> {
    // Leaves its waker at one place, and finds that of its neighbour at the other.
    fn new(
        own: WakerPlace<FutureWaker<R>>,
        other: &WakerPlace<FutureWaker<R>>,
        ended: &Arc<AtomicU64>,
        record: &Record,
    ) -> Result<Neighbour<R>, AllocError> {
        Ok(Neighbour {
            polls_left: 2,
            own,
            other: other.share()?,
            ended: Arc::try_clone(ended)?,
            parts: AtDrop::new(record.share()?, Moment::FutureDrop),
        })
    }
}

impl<R: Wait + Clone + Drop + Send + Sync> Future<FutureWaker<R>> for Neighbour<R> {
    type Output = ();

    fn poll(&mut self, w: &FutureWaker<R>) -> Poll<()> {
        self.parts.record().meet(Moment::FuturePoll);
        if self.polls_left == 0 {
            self.ended.fetch_add(1, Ordering::SeqCst);
            return Poll::Ready(());
        }
        self.polls_left -= 1;
        // Its own wake, beside those of its neighbour.
        self.parts.record().meet(Moment::WakerWake);
        drop(self.own.replace(w.copy().ok()));
        w.wake();
        if let Some(other) = self.other.take() {
            other.wake();
        }
        Poll::Pending
    }
}

// The tasks of one executor, the record of each, and how many have ended.
#[derive(Drop)]
struct Neighbours<R: Wait + Clone + Drop + Send + Sync> {
    ex: Executor<Neighbour<R>, TestWaker, R>,
    waker: TestWaker,
    records: Vec<Record>,
    ended: Arc<AtomicU64>,
}

impl<R: Wait + Clone + Drop + Send + Sync> Neighbours<R> {
    fn new(rt: R, alloc: Global) -> Result<Neighbours<R>, Fail> {
        let waker = TestWaker::new(&Record::new(alloc)?)?;
        let ended = Arc::new(alloc, AtomicU64::new(0))?;
        let ex = Executor::new(rt, alloc)?;
        Ok(Neighbours {
            ex,
            waker,
            records: Vec::new(alloc),
            ended,
        })
    }

    // Spawns the tasks, each of which is the neighbour of the one before.
    fn spawn(&mut self, alloc: Global) -> Result<(), Fail> {
        let mut own = WakerPlace::new(alloc)?;
        for _ in 0..TASKS {
            let other = WakerPlace::new(alloc)?;
            let record = Record::new(alloc)?;
            let future = Neighbour::new(own, &other, &self.ended, &record)?;
            self.records.push(record)?;
            spawned(&self.ex, future)?.detach();
            own = other;
        }
        Ok(())
    }

    // Polls a run until all tasks have ended, and says whether it ended within as many polls as a
    // test may take.
    fn is_driven(&self) -> bool {
        let Ok(all_ended) = Until::new(&self.ended, TASKS as u64) else {
            return false;
        };
        let Ok(mut run) = self.ex.run(all_ended) else {
            return false;
        };
        for _ in 0..turns() {
            if run.poll(&self.waker) == Poll::Ready(()) {
                return true;
            }
            yield_now();
        }
        false
    }

    // Whether each future was polled three times, at most once more often than it was woken, and
    // dropped once.
    fn are_right(&self) -> bool {
        for record in self.records.iter() {
            let polls = record.times(Moment::FuturePoll);
            let wakes = record.times(Moment::WakerWake);
            if polls != 3
                || polls > wakes.saturating_add(1)
                || record.times(Moment::FutureDrop) != 1
            {
                return false;
            }
        }
        true
    }
}

// Drives a run on each of four threads.
fn are_driven<R: Wait + Threads + Clone + Drop + Send + Sync>(rt: &R, all: &Neighbours<R>) -> bool {
    let two = || thread::join(rt, || all.is_driven(), || all.is_driven()) == (true, true);
    thread::join(rt, two, two) == (true, true)
}

fn four_runs_end<R: Wait + Threads + Clone + Drop + Send + Sync>(
    rt: &R,
    alloc: Global,
) -> Result<bool, Fail> {
    let mut all = Neighbours::new(rt.clone()?, alloc)?;
    all.spawn(alloc)?;
    Ok(are_driven(rt, &all) && all.are_right() && all.ex.is_empty())
}

#[test]
fn four_runs_share_the_tasks(rt: HostRuntime) -> Result<(), Fail> {
    assert!(rt; four_runs_end(&rt, rt.alloc())?);
    Ok(())
}
