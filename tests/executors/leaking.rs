//! An executor that is leaked, or forgotten: its tasks are not cancelled.
use crate::tests::support::running::future::Kind::{LeavesWaker, Never, Ready};
use crate::tests::support::running::future::WakerPlace;
use crate::tests::support::running::halt::Halt;
use crate::tests::support::running::record::Moment::{FutureDrop, FuturePoll, WakerWake};
use crate::tests::support::running::record::Record;
use crate::tests::support::running::task::TaskFuture;
use crate::tests::support::running::waker::TestWaker;
use async_executor::{Executor, LocalExecutor, StaticExecutor, StaticLocalExecutor};
use executor_core::task::{Future, Poll, Wake};
use std::sync::Wait;
use std::test::Fail;
use std::thread::{self, Threads};

// The handle of a new task of this kind, which leaves its waker at this place.
macro_rules! spawned {
    ($ex:expr, $kind:expr, $place:expr, $record:expr) => {
        match $ex.spawn(TaskFuture::new($kind, $place.share()?, $record)?) {
            Ok(task) => task,
            Err(_) => return Err("refused".into()),
        }
    };
}

// An executor of this type, and the handle of a task of this kind on it.
macro_rules! with_task {
    ($executor:ident, $rt:expr, $kind:expr, $place:expr, $record:expr) => {{
        let ex = $executor::<TaskFuture<R>, TestWaker, R>::new($rt.clone()?, $rt.alloc())?;
        let task = spawned!(ex, $kind, $place, $record);
        (ex, task)
    }};
}

// A waker that nobody else has a share of.
macro_rules! new_waker {
    ($rt:expr) => {
        TestWaker::new(&Record::new($rt.alloc())?)?
    };
}

// The number that a handle gives, if its task has ended.
macro_rules! number_of {
    ($task:expr, $waker:expr) => {
        match $task.poll($waker) {
            Poll::Ready(Ok(output)) => Some(output.number),
            _ => None,
        }
    };
}

// What is seen of a task that is idle as its executor is leaked: whether the ticks before, the one
// after and the last one find a task; the number that its handle gives; and how often a tick that was
// forgotten was woken before and after the leak.
type Leaked = ([bool; 4], Option<u64>, [u64; 2]);

macro_rules! leaked {
    ($executor:ident, $rt:expr) => {{
        let place = WakerPlace::new($rt.alloc())?;
        let record = Record::new($rt.alloc())?;
        let (ex, mut task) = with_task!($executor, $rt, LeavesWaker(1), place, &record);
        let first = ex.try_tick();
        let idle = ex.try_tick();
        let sleeper = new_waker!($rt);
        let mut tick = ex.tick()?;
        tick.poll(&sleeper);
        std::mem::forget(tick);
        let before = sleeper.record().times(WakerWake);
        let server = ex.leak();
        let woken = sleeper.record().times(WakerWake);
        let after = server.try_tick();
        let number = number_of!(task, &sleeper);
        ([first, idle, after, server.try_tick()], number, [before, woken])
    }};
}

fn leaked<R: AllocGlobal + Wait + Clone + Drop + Send + Sync>(
    rt: &R,
) -> Result<[Leaked; 2], Fail> {
    Ok([leaked!(Executor, rt), leaked!(LocalExecutor, rt)])
}

#[test]
fn a_leak_wakes_the_tasks(rt: HostRuntime) -> Result<(), Fail> {
    let wanted = ([true, false, true, false], Some(2), [0, 1]);
    assert_eq!(rt; leaked(&rt)?, [wanted, wanted]);
    Ok(())
}

// How often two idle tasks were polled after the leak and one tick. The second one was spawned after a
// task had ended, whose handle is kept, or gone.
macro_rules! polled_first {
    ($executor:ident, $rt:expr, $keeps:expr) => {{
        let place = WakerPlace::new($rt.alloc())?;
        let (first, one, two) = (Record::new($rt.alloc())?, Record::new($rt.alloc())?, Record::new($rt.alloc())?);
        let (ex, ended) = with_task!($executor, $rt, Ready(7), place, &first);
        spawned!(ex, Never, place, &one).detach();
        ex.try_tick();
        ex.try_tick();
        let kept = if $keeps {
            Some(ended)
        } else {
            drop(ended);
            None
        };
        spawned!(ex, Never, place, &two).detach();
        ex.try_tick();
        let server = ex.leak();
        server.try_tick();
        drop(kept);
        [one.times(FuturePoll), two.times(FuturePoll)]
    }};
}

fn polled_first<R: AllocGlobal + Wait + Clone + Drop + Send + Sync>(
    rt: &R,
    keeps: bool,
) -> Result<[[u64; 2]; 2], Fail> {
    Ok([
        polled_first!(Executor, rt, keeps),
        polled_first!(LocalExecutor, rt, keeps),
    ])
}

// The slot of a task that has ended is given again once its handle is gone.
#[test]
fn a_leak_schedules_idle_tasks_by_rising_slot(rt: HostRuntime) -> Result<(), Fail> {
    assert_eq!(rt; polled_first(&rt, true)?, [[2, 1]; 2]);
    assert_eq!(rt; polled_first(&rt, false)?, [[1, 2]; 2]);
    Ok(())
}

// Whether another thread that lets the executor go in this way, and wakes a tick that was forgotten,
// lets this one ask for a task meanwhile; and whether that task is finished then.
macro_rules! asked_meanwhile {
    ($rt:expr, $let_go:expr) => {{
        let halt = Halt::new($rt.alloc())?;
        let place = WakerPlace::new($rt.alloc())?;
        let record = Record::new($rt.alloc())?;
        let (ex, task) = with_task!(Executor, $rt, LeavesWaker(1), place, &record);
        ex.try_tick();
        let sleeper = TestWaker::new(&Record::with_halt($rt.alloc(), &halt)?)?;
        sleeper.record().halt_at(WakerWake);
        let mut tick = ex.tick()?;
        tick.poll(&sleeper);
        std::mem::forget(tick);
        let ((), is_finished) = thread::join(
            $rt,
            move || $let_go(ex),
            || {
                halt.await_other();
                let is_finished = task.is_finished();
                halt.open();
                is_finished
            },
        );
        [halt.was_passed(), is_finished]
    }};
}

fn asked_meanwhile<R: AllocGlobal + Wait + Threads + Clone + Drop + Send + Sync>(
    rt: &R,
) -> Result<[[bool; 2]; 2], Fail> {
    Ok([
        asked_meanwhile!(rt, |ex: Executor<_, _, _>| drop(ex.leak())),
        asked_meanwhile!(rt, drop),
    ])
}

#[test]
fn handles_go_on_while_a_forgotten_tick_is_woken(rt: HostRuntime) -> Result<(), Fail> {
    assert_eq!(rt; asked_meanwhile(&rt)?, [[true, false], [true, true]]);
    Ok(())
}

// How often a task was polled that was spawned before the leak and woken after it, by the waker that
// it had left before; and one that was spawned after it.
macro_rules! woken_after {
    ($executor:ident, $rt:expr) => {{
        let place = WakerPlace::new($rt.alloc())?;
        let record = Record::new($rt.alloc())?;
        let later = Record::new($rt.alloc())?;
        let (ex, task) = with_task!($executor, $rt, LeavesWaker(3), place, &record);
        ex.try_tick();
        let server = ex.leak();
        server.try_tick();
        if let Some(waker) = place.take() {
            waker.wake();
        }
        spawned!(server, Never, place, &later).detach();
        server.try_tick();
        server.try_tick();
        drop(task);
        [record.times(FuturePoll), later.times(FuturePoll)]
    }};
}

fn woken_after<R: AllocGlobal + Wait + Clone + Drop + Send + Sync>(
    rt: &R,
) -> Result<[[u64; 2]; 2], Fail> {
    Ok([
        woken_after!(Executor, rt),
        woken_after!(LocalExecutor, rt),
    ])
}

#[test]
fn tasks_and_wakers_go_on_after_a_leak(rt: HostRuntime) -> Result<(), Fail> {
    assert_eq!(rt; woken_after(&rt)?, [[3, 1], [3, 1]]);
    Ok(())
}

// Whether a leaked executor of this type finds a task before one is spawned on it, and after that; and
// the number that its handle gives then.
macro_rules! spawned_after {
    ($executor:ident, $rt:expr) => {{
        let place = WakerPlace::new($rt.alloc())?;
        let record = Record::new($rt.alloc())?;
        let ex = $executor::<TaskFuture<R>, TestWaker, R>::new($rt.clone()?, $rt.alloc())?;
        let server = ex.leak();
        let before = server.try_tick();
        let mut task = spawned!(server, Ready(7), place, &record);
        let after = server.try_tick();
        ([before, after], number_of!(task, &new_waker!($rt)))
    }};
}

fn spawned_after<R: AllocGlobal + Wait + Clone + Drop + Send + Sync>(
    rt: &R,
) -> Result<[([bool; 2], Option<u64>); 2], Fail> {
    Ok([
        spawned_after!(Executor, rt),
        spawned_after!(LocalExecutor, rt),
    ])
}

#[test]
fn a_task_that_is_spawned_after_a_leak_gives_its_output(rt: HostRuntime) -> Result<(), Fail> {
    assert_eq!(rt; spawned_after(&rt)?, [([false, true], Some(7)); 2]);
    Ok(())
}

// Whether the handle of an idle task is pending once its executor was let go in this way, and how
// often its future was dropped before the handle was and after that.
type LetGo = (bool, [u64; 2]);

macro_rules! let_go {
    ($executor:ident, $rt:expr, $let_go:expr) => {{
        let place = WakerPlace::new($rt.alloc())?;
        let record = Record::new($rt.alloc())?;
        let (ex, mut task) = with_task!($executor, $rt, LeavesWaker(1), place, &record);
        ex.try_tick();
        $let_go(ex);
        let is_pending = matches!(task.poll(&new_waker!($rt)), Poll::Pending);
        let before = record.times(FutureDrop);
        drop(task);
        (is_pending, [before, record.times(FutureDrop)])
    }};
}

// An executor that was forgotten keeps its tasks. What is left of a static one that was dropped goes
// with the last handle.
const FORGOTTEN: LetGo = (true, [0, 0]);

const DROPPED: LetGo = (true, [0, 1]);

fn forgotten<R: AllocGlobal + Wait + Clone + Drop + Send + Sync>(
    rt: &R,
) -> Result<[LetGo; 4], Fail> {
    Ok([
        let_go!(Executor, rt, std::mem::forget),
        let_go!(LocalExecutor, rt, std::mem::forget),
        let_go!(StaticExecutor, rt, std::mem::forget),
        let_go!(StaticLocalExecutor, rt, std::mem::forget),
    ])
}

fn dropped<R: AllocGlobal + Wait + Clone + Drop + Send + Sync>(
    rt: &R,
) -> Result<[LetGo; 2], Fail> {
    Ok([
        let_go!(StaticExecutor, rt, drop),
        let_go!(StaticLocalExecutor, rt, drop),
    ])
}

#[test]
fn no_task_is_cancelled_but_by_a_drop_that_closes(rt: HostRuntime) -> Result<(), Fail> {
    assert_eq!(rt; (forgotten(&rt)?, dropped(&rt)?), ([FORGOTTEN; 4], [DROPPED; 2]));
    Ok(())
}

fn leaked_and_dropped<R: AllocGlobal + Wait + Clone + Drop + Send + Sync>(
    rt: &R,
) -> Result<[LetGo; 2], Fail> {
    Ok([
        let_go!(Executor, rt, |ex: Executor<_, _, _>| drop(ex.leak())),
        let_go!(LocalExecutor, rt, |ex: LocalExecutor<_, _, _>| drop(ex.leak())),
    ])
}

#[test]
fn the_drop_of_what_was_leaked_cancels_nothing(rt: HostRuntime) -> Result<(), Fail> {
    assert_eq!(rt; leaked_and_dropped(&rt)?, [DROPPED; 2]);
    Ok(())
}

// How often a detached task was dropped that keeps no waker, while its executor is there.
macro_rules! detached {
    ($executor:ident, $rt:expr) => {{
        let place = WakerPlace::new($rt.alloc())?;
        let record = Record::new($rt.alloc())?;
        let (ex, task) = with_task!($executor, $rt, Never, place, &record);
        task.detach();
        let found = [ex.try_tick(), ex.try_tick()];
        let drops = record.times(FutureDrop);
        drop(ex);
        (found, drops)
    }};
}

fn detached<R: AllocGlobal + Wait + Clone + Drop + Send + Sync>(
    rt: &R,
) -> Result<[([bool; 2], u64); 4], Fail> {
    Ok([
        detached!(Executor, rt),
        detached!(LocalExecutor, rt),
        detached!(StaticExecutor, rt),
        detached!(StaticLocalExecutor, rt),
    ])
}

#[test]
fn an_idle_task_without_a_waker_is_kept(rt: HostRuntime) -> Result<(), Fail> {
    assert_eq!(rt; detached(&rt)?, [([true, false], 0); 4]);
    Ok(())
}
