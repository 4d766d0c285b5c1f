//! Ticks and runs that are dropped wherever they stand. None is counted afterwards, and one that was
//! notified passes that on.
use crate::tests::support::running::future::Kind::{Never, Ready};
use crate::tests::support::running::future::{Ready as ReadyFuture, Until};
use crate::tests::support::running::line::Answer::{Pending, Ticked};
use crate::tests::support::running::line::Line::{
    Count, DropHandle, Empty, ForgetHandle, MakeRun, MakeTick, ManyRan, Poll, Shows, Spawn,
    SpawnMany, Ticks,
};
use crate::tests::support::running::player::play;
use crate::tests::support::running::record::Moment::{FutureDrop, FuturePoll, WakerWake};
use crate::tests::support::running::record::{AtDrop, Record};
use crate::tests::support::running::task::FutureWaker;
use crate::tests::support::running::waker::TestWaker;
use async_executor::{Executor, LocalExecutor};
use executor_core::task::{Future, Poll as PollAnswer};
use std::mem::ManuallyDrop;
use std::sync::atomic::AtomicU64;
use std::sync::{Arc, Wait};
use std::test::Fail;

#[test]
fn a_tick_that_was_never_polled(rt: HostRuntime) -> Result<(), Fail> {
    play(
        &rt,
        &[
            MakeTick,
            MakeTick,
            Poll(0, Pending),
            Shows(0, 0, &[], 1),
            DropHandle(1),
            Shows(0, 0, &[], 1),
            Count(0, WakerWake, 0),
            Spawn(Ready(7)),
            Count(0, WakerWake, 1),
            Poll(0, Ticked),
            Shows(0, 0, &[], 0),
        ],
    )
}

#[test]
fn a_tick_that_sleeps(rt: HostRuntime) -> Result<(), Fail> {
    play(
        &rt,
        &[
            MakeTick,
            MakeTick,
            Poll(0, Pending),
            Poll(1, Pending),
            Shows(0, 0, &[], 2),
            DropHandle(1),
            Shows(0, 0, &[], 1),
            Count(0, WakerWake, 0),
            Count(1, WakerWake, 0),
            Spawn(Ready(7)),
            Count(0, WakerWake, 1),
            DropHandle(0),
            Shows(1, 1, &[], 0),
        ],
    )
}

// It is counted among the sleepers until it is gone.
#[test]
fn a_tick_that_was_notified(rt: HostRuntime) -> Result<(), Fail> {
    play(
        &rt,
        &[
            MakeTick,
            MakeTick,
            Poll(0, Pending),
            Poll(1, Pending),
            Spawn(Ready(7)),
            Shows(1, 1, &[], 2),
            Count(0, WakerWake, 0),
            Count(1, WakerWake, 1),
            DropHandle(1),
            Shows(1, 1, &[], 1),
            Count(0, WakerWake, 1),
            Poll(0, Ticked),
            Shows(0, 0, &[], 0),
        ],
    )
}

#[test]
fn a_run_that_was_never_polled(rt: HostRuntime) -> Result<(), Fail> {
    play(
        &rt,
        &[
            MakeTick,
            MakeRun(Never),
            Poll(0, Pending),
            Shows(0, 0, &[], 1),
            DropHandle(1),
            Count(1, FuturePoll, 0),
            Count(1, FutureDrop, 1),
            Shows(0, 0, &[], 1),
            Count(0, WakerWake, 0),
        ],
    )
}

#[test]
fn a_run_with_tasks_of_its_own_after_its_turn(rt: HostRuntime) -> Result<(), Fail> {
    play(
        &rt,
        &[
            MakeRun(Never),
            SpawnMany(300),
            Poll(0, Pending),
            ManyRan(200),
            Shows(100, 18, &[82], 0),
            DropHandle(0),
            Shows(100, 100, &[], 0),
            Ticks(100),
            ManyRan(300),
            Empty(true),
        ],
    )
}

#[test]
fn a_run_that_sleeps(rt: HostRuntime) -> Result<(), Fail> {
    play(
        &rt,
        &[
            MakeTick,
            MakeRun(Never),
            Poll(0, Pending),
            Poll(1, Pending),
            Shows(0, 0, &[0], 2),
            DropHandle(1),
            Count(1, FutureDrop, 1),
            Shows(0, 0, &[], 1),
            Count(0, WakerWake, 0),
            Count(1, WakerWake, 0),
        ],
    )
}

#[test]
fn a_run_that_was_notified(rt: HostRuntime) -> Result<(), Fail> {
    play(
        &rt,
        &[
            MakeTick,
            MakeRun(Never),
            Poll(0, Pending),
            Poll(1, Pending),
            Spawn(Ready(7)),
            Shows(1, 1, &[0], 2),
            Count(0, WakerWake, 0),
            Count(1, WakerWake, 1),
            DropHandle(1),
            Shows(1, 1, &[], 1),
            Count(0, WakerWake, 1),
            Poll(0, Ticked),
            Shows(0, 0, &[], 0),
        ],
    )
}

// Among others, which keep their queues.
#[test]
fn the_second_of_three_runs(rt: HostRuntime) -> Result<(), Fail> {
    play(
        &rt,
        &[
            MakeRun(Never),
            MakeRun(Never),
            MakeRun(Never),
            Poll(0, Pending),
            Poll(1, Pending),
            Poll(2, Pending),
            SpawnMany(300),
            Poll(1, Pending),
            Shows(100, 18, &[0, 82, 0], 2),
            DropHandle(1),
            Shows(100, 100, &[0, 0], 2),
            Poll(0, Pending),
            ManyRan(300),
            Empty(true),
            DropHandle(2),
            DropHandle(0),
            Shows(0, 0, &[], 0),
        ],
    )
}

// One that is forgotten stays counted, and has its tasks.
#[test]
fn a_run_that_is_forgotten(rt: HostRuntime) -> Result<(), Fail> {
    play(
        &rt,
        &[
            MakeRun(Never),
            SpawnMany(300),
            Poll(0, Pending),
            ForgetHandle(0),
            Shows(100, 18, &[82], 0),
            Ticks(18),
            MakeRun(Never),
            Poll(1, Pending),
            Shows(0, 0, &[0, 0], 1),
            ManyRan(300),
        ],
    )
}

// Ready at its first poll, and counted.
#[derive(Drop)]
struct Counted {
    inner: ReadyFuture<u64>,
    parts: AtDrop,
}

impl<R: Wait + Clone + Drop + Send + Sync> Future<FutureWaker<R>> for Counted {
    type Output = u64;

    fn poll(&mut self, w: &FutureWaker<R>) -> PollAnswer<u64> {
        self.parts.record().meet(FuturePoll);
        self.inner.poll(w)
    }
}

const TASKS: usize = 300;

// How often each of the futures was dropped before their executor was, and after it, in all; and
// whether each of them was dropped once in the end. A run was polled once, and forgotten.
macro_rules! beside_a_forgotten_run {
    ($executor:ident, $rt:expr) => {{
        let alloc = $rt.alloc();
        let ex = $executor::<Counted, TestWaker, R>::new($rt.clone()?, alloc)?;
        let mut records = Vec::new(alloc);
        for _ in 0..TASKS {
            let record = Record::new(alloc)?;
            let parts = AtDrop::new(record.share()?, FutureDrop);
            records.push(record)?;
            let inner = ReadyFuture::new(7);
            match ex.spawn(Counted { inner, parts }) {
                Ok(task) => task.detach(),
                Err(_) => return Err("refused".into()),
            }
        }
        let never = Until::new(&Arc::new(alloc, AtomicU64::new(0))?, 1)?;
        let mut run = match ex.run(never) {
            Ok(run) => run,
            Err(_) => return Err("refused".into()),
        };
        run.poll(&TestWaker::new(&Record::new(alloc)?)?);
        let _forgotten = ManuallyDrop::new(run);
        let before = drops_of(&records);
        drop(ex);
        (before, drops_of(&records), records.iter().all(|record| record.times(FutureDrop) == 1))
    }};
}

fn drops_of(records: &Vec<Record>) -> u64 {
    let mut drops = 0;
    for record in records.iter() {
        drops += record.times(FutureDrop);
    }
    drops
}

fn beside_a_forgotten_run<R: AllocGlobal + Wait + Clone + Drop + Send + Sync>(
    rt: &R,
) -> Result<[(u64, u64, bool); 2], Fail> {
    Ok([
        beside_a_forgotten_run!(Executor, rt),
        beside_a_forgotten_run!(LocalExecutor, rt),
    ])
}

#[test]
fn the_drop_of_an_executor_drops_what_a_forgotten_run_had(rt: HostRuntime) -> Result<(), Fail> {
    assert_eq!(rt; beside_a_forgotten_run(&rt)?, [(200, 300, true); 2]);
    Ok(())
}
