//! Several executors, beside one another or within.
use crate::tests::support::running::future::{Ready, Until};
use crate::tests::support::running::record::{Moment, Record};
use crate::tests::support::running::task::granted;
use crate::tests::support::running::waker::TestWaker;
use async_executor::{Executor, LocalExecutor, StaticExecutor, StaticLocalExecutor, TaskWaker};
use executor_core::task::{Future, Poll};
use std::alloc::{AllocError, Global};
use std::sync::atomic::AtomicU64;
use std::sync::{Arc, Wait};
use std::test::Fail;

// Whether a handle answers as it should, whether each tick ran a task, how often a waker was woken, and
// whether no task is left.
type Seen = (bool, [bool; 4], [u64; 2], bool);

// A waker that nobody else has a share of.
fn new_waker(alloc: Global) -> Result<TestWaker, AllocError> {
    TestWaker::new(&Record::new(alloc)?)
}

// A handle of the inner executor is a task of the outer one. Gives whether the handle of that task
// answers at its first poll that it is pending, and at its last one what the inner task gave; whether
// the outer executor had a task to run, twice, then the inner one, and the outer again; how often the
// waker of the handle was woken before the last tick, and after it; and whether no task is left to the
// inner executor.
macro_rules! seen_within {
    ($outer:ident, $inner:ident, $rt:expr) => {{
        let alloc = $rt.alloc();
        let waker = new_waker(alloc)?;
        let inner = $inner::<Ready<u64>, TaskWaker<TestWaker, R>, R>::new($rt.clone()?, alloc)?;
        let handle = granted(inner.spawn(Ready::new(7)))?;
        let outer = $outer::<_, TestWaker, R>::new($rt.clone()?, alloc)?;
        let mut task = granted(outer.spawn(handle))?;
        let first = task.poll(&waker);
        let (one, two, three) = (outer.try_tick(), outer.try_tick(), inner.try_tick());
        let before = waker.record().times(Moment::WakerWake);
        let four = outer.try_tick();
        let after = waker.record().times(Moment::WakerWake);
        let is_right = [first, task.poll(&waker)] == [Poll::Pending, Poll::Ready(Ok(Ok(7)))];
        let text = format!(in alloc; "{inner:?}")?;
        let is_empty = text
            .as_str()
            .ends_with("{ active: 0, global_tasks: 0, local_runners: [], sleepers: 0 }");
        (is_right, [one, two, three, four], [before, after], is_empty)
    }};
}

// Two executors of each type, and one that stays on its thread around one that threads share.
fn seen_within_each<R: AllocGlobal + Wait + Clone + Drop + Send + Sync>(
    rt: &R,
) -> Result<[Seen; 5], Fail> {
    Ok([
        seen_within!(Executor, Executor, rt),
        seen_within!(LocalExecutor, LocalExecutor, rt),
        seen_within!(StaticExecutor, StaticExecutor, rt),
        seen_within!(StaticLocalExecutor, StaticLocalExecutor, rt),
        seen_within!(LocalExecutor, Executor, rt),
    ])
}

// The end of the inner task wakes the outer one.
#[test]
fn a_handle_is_a_task_of_another_executor(rt: HostRuntime) -> Result<(), Fail> {
    let seen = (true, [true, false, true, true], [0, 1], true);
    assert_eq!(rt; seen_within_each(&rt)?, [seen; 5]);
    Ok(())
}

// Whether a task is finished at three moments, and how often each of two wakers was woken at two.
type SeenApart = ([bool; 3], [[u64; 2]; 2]);

fn wakes_of(wakers: &[TestWaker; 2]) -> [u64; 2] {
    [
        wakers[0].record().times(Moment::WakerWake),
        wakers[1].record().times(Moment::WakerWake),
    ]
}

// Two executors of this type with nothing in common.
macro_rules! two_apart {
    ($executor:ident, $rt:expr) => {
        (
            $executor::<Ready<u64>, TestWaker, R>::new($rt.clone()?, $rt.alloc())?,
            $executor::<Ready<u64>, TestWaker, R>::new($rt.clone()?, $rt.alloc())?,
        )
    };
}

// Has a ticker of each of two executors go to sleep, and spawns a task on the first one. Gives
// whether it ran then, after a poll of the other ticker, and after one of its own; and how often the
// wakers of the two were woken by the spawn, and after another one on the second executor.
macro_rules! seen_apart {
    ($one:expr, $two:expr, $tickers:expr, $alloc:expr) => {{
        let (mut own, mut other) = $tickers;
        let wakers = [new_waker($alloc)?, new_waker($alloc)?];
        own.poll(&wakers[0]);
        other.poll(&wakers[1]);
        let task = granted($one.spawn(Ready::new(7)))?;
        let wakes = wakes_of(&wakers);
        let before = task.is_finished();
        other.poll(&wakers[1]);
        let between = task.is_finished();
        own.poll(&wakers[0]);
        let after = task.is_finished();
        granted($two.spawn(Ready::new(8)))?.detach();
        ([before, between, after], [wakes, wakes_of(&wakers)])
    }};
}

// What has to be seen of each type.
const SEEN_APART: [SeenApart; 4] = [([false, false, true], [[1, 0], [1, 1]]); 4];

// What is seen if the tickers are ticks.
macro_rules! ticks_apart {
    ($executor:ident, $rt:expr) => {{
        let (one, two) = two_apart!($executor, $rt);
        seen_apart!(one, two, (one.tick()?, two.tick()?), $rt.alloc())
    }};
}

fn ticks_apart<R: AllocGlobal + Wait + Clone + Drop + Send + Sync>(
    rt: &R,
) -> Result<[SeenApart; 4], Fail> {
    Ok([
        ticks_apart!(Executor, rt),
        ticks_apart!(LocalExecutor, rt),
        ticks_apart!(StaticExecutor, rt),
        ticks_apart!(StaticLocalExecutor, rt),
    ])
}

#[test]
fn a_spawn_wakes_no_tick_of_another_executor(rt: HostRuntime) -> Result<(), Fail> {
    assert_eq!(rt; ticks_apart(&rt)?, SEEN_APART);
    Ok(())
}

// What is seen if they are runs that do not end.
macro_rules! runs_apart {
    ($executor:ident, $rt:expr) => {{
        let (one, two) = two_apart!($executor, $rt);
        let count = Arc::new($rt.alloc(), AtomicU64::new(0))?;
        let runs = (
            granted(one.run(Until::new(&count, 1)?))?,
            granted(two.run(Until::new(&count, 1)?))?,
        );
        seen_apart!(one, two, runs, $rt.alloc())
    }};
}

fn runs_apart<R: AllocGlobal + Wait + Clone + Drop + Send + Sync>(
    rt: &R,
) -> Result<[SeenApart; 4], Fail> {
    Ok([
        runs_apart!(Executor, rt),
        runs_apart!(LocalExecutor, rt),
        runs_apart!(StaticExecutor, rt),
        runs_apart!(StaticLocalExecutor, rt),
    ])
}

#[test]
fn a_run_runs_no_task_of_another_executor(rt: HostRuntime) -> Result<(), Fail> {
    assert_eq!(rt; runs_apart(&rt)?, SEEN_APART);
    Ok(())
}
