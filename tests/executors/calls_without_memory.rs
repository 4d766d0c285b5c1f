//! Calls that take no memory: one that makes a request would meet a refusal.
use crate::tests::support::running::future::Kind::{LeavesWaker, Never, Ready};
use crate::tests::support::running::future::{Until, WakerPlace};
use crate::tests::support::running::record::Record;
use crate::tests::support::running::refusal::{ShortText, is_next_refused, refuse, text_of};
use crate::tests::support::running::task::TaskFuture;
use crate::tests::support::running::waker::TestWaker;
use async_executor::{Executor, Limits, LocalExecutor, StaticExecutor, StaticLocalExecutor};
use executor_core::task::{Future, Wake};
use std::fmt::{self, Write};
use std::sync::atomic::AtomicU64;
use std::sync::{Arc, Wait};
use std::test::Fail;

// Makes a call whose first request for memory would be refused, and notes its number if there was one.
macro_rules! without_memory {
    ($alloc:expr, $paid:expr, $number:expr, $call:expr) => {{
        refuse($alloc, 1);
        let answer = $call;
        if !is_next_refused($alloc) {
            $paid |= 1u64 << $number;
        }
        answer
    }};
}

macro_rules! task_of {
    ($ex:expr, $kind:expr, $place:expr, $record:expr) => {
        match $ex.spawn(TaskFuture::new($kind, $place.share()?, &$record)?) {
            Ok(task) => task,
            Err(_) => return Err("refused".into()),
        }
    };
}

// Which calls took memory, by the bits of their numbers: those on tasks, on a tick and a run, and the
// last one, by which the executor goes.
macro_rules! paid {
    ($executor:ident, $rt:expr, $last:expr) => {{
        let alloc = $rt.alloc();
        let mut paid = 0u64;
        let ex = $executor::<TaskFuture<R>, TestWaker, R>::new($rt.clone()?, alloc)?;
        let (record, place) = (Record::new(alloc)?, WakerPlace::new(alloc)?);
        let waker = TestWaker::new(&Record::new(alloc)?)?;
        let other = TestWaker::new(&Record::new(alloc)?)?;
        let mut idle = task_of!(ex, LeavesWaker(9), place, record);
        let mut ready = task_of!(ex, Ready(7), place, record);
        let cancelled = task_of!(ex, Never, place, record);
        let detached = task_of!(ex, Never, place, record);
        let dropped = task_of!(ex, Never, place, record);
        let mut tick = ex.tick()?;
        let mut second = ex.tick()?;
        let never = Until::new(&Arc::new(alloc, AtomicU64::new(0))?, 1)?;
        let mut run = match ex.run(never) {
            Ok(run) => run,
            Err(_) => return Err("refused".into()),
        };
        without_memory!(alloc, paid, 0, ex.try_tick());
        without_memory!(alloc, paid, 1, idle.poll(&waker));
        without_memory!(alloc, paid, 2, idle.poll(&other));
        without_memory!(alloc, paid, 3, tick.poll(&waker));
        drop(without_memory!(alloc, paid, 4, ready.poll(&waker)));
        without_memory!(alloc, paid, 5, run.poll(&waker));
        without_memory!(alloc, paid, 6, second.poll(&waker));
        without_memory!(alloc, paid, 7, second.poll(&other));
        let left = place.take();
        without_memory!(alloc, paid, 8, if let Some(left) = &left { left.wake() });
        let copy = without_memory!(alloc, paid, 9, left.as_ref().map(|left| left.copy().is_ok()));
        without_memory!(alloc, paid, 10, drop(left));
        without_memory!(alloc, paid, 11, run.poll(&waker));
        without_memory!(alloc, paid, 12, idle.is_finished());
        let mut cancelled = without_memory!(alloc, paid, 13, cancelled.cancel());
        without_memory!(alloc, paid, 14, cancelled.poll(&waker));
        without_memory!(alloc, paid, 15, detached.detach());
        without_memory!(alloc, paid, 16, drop(dropped));
        without_memory!(alloc, paid, 17, second.poll(&waker));
        let any = without_memory!(alloc, paid, 23, ex.try_tick_any());
        without_memory!(alloc, paid, 18, drop(run));
        without_memory!(alloc, paid, 19, drop(second));
        without_memory!(alloc, paid, 20, drop(tick));
        let text = without_memory!(alloc, paid, 21, text_of!(ex));
        without_memory!(alloc, paid, 22, $last(ex));
        (paid, copy, [text.is_some(), any])
    }};
}

type Paid = (u64, Option<bool>, [bool; 2]);

fn paid<R: AllocGlobal + Wait + Clone + Drop + Send + Sync>(rt: &R) -> Result<[Paid; 6], Fail> {
    Ok([
        paid!(Executor, rt, drop),
        paid!(Executor, rt, |ex: Executor<_, _, _>| drop(ex.leak())),
        paid!(LocalExecutor, rt, drop),
        paid!(
            LocalExecutor,
            rt,
            |ex: LocalExecutor<_, _, _>| drop(ex.leak())
        ),
        paid!(StaticExecutor, rt, drop),
        paid!(StaticLocalExecutor, rt, drop),
    ])
}

#[test]
fn polls_wakes_drops_and_leaks_take_no_memory(rt: HostRuntime) -> Result<(), Fail> {
    assert_eq!(rt; paid(&rt)?, [(0, Some(true), [true, true]); 6]);
    Ok(())
}

// Whether the help of a sleeper takes memory, and whether there was a task each time.
fn helped<R: AllocGlobal + Wait + Clone + Drop + Send + Sync>(
    rt: &R,
) -> Result<(u64, [bool; 2]), Fail> {
    let alloc = rt.alloc();
    let mut paid = 0u64;
    let ex = Executor::<TaskFuture<R>, TestWaker, R>::new(rt.clone()?, alloc)?;
    let (record, place) = (Record::new(alloc)?, WakerPlace::new(alloc)?);
    let pending = task_of!(ex, Never, place, record);
    let ready = task_of!(ex, Ready(7), place, record);
    let mut sleeper = ex.sleeper()?;
    let first = without_memory!(alloc, paid, 0, sleeper.help(1));
    let second = without_memory!(alloc, paid, 1, sleeper.help(1));
    drop((pending, ready));
    Ok((paid, [first, second]))
}

#[test]
fn a_help_takes_no_memory(rt: HostRuntime) -> Result<(), Fail> {
    assert_eq!(rt; helped(&rt)?, (0, [true, false]));
    Ok(())
}

// More runs than a text copies the lengths of the queues of at a time, twice over.
const RUNS: usize = 130;

// The text of an executor beside as many runs, of which the last one has a task in its queue, and all
// others sleep; and whether it made a request for memory, which would be refused.
macro_rules! text_beside_runs {
    ($executor:ident, $rt:expr) => {{
        let alloc = $rt.alloc();
        let limits = Limits {
            turn: 1,
            ..Limits::default()
        };
        let ex = $executor::<TaskFuture<R>, TestWaker, R>::new_with($rt.clone()?, alloc, limits)?;
        let (record, place) = (Record::new(alloc)?, WakerPlace::new(alloc)?);
        let waker = TestWaker::new(&record)?;
        let mut runs = Vec::new(alloc);
        for _ in 0..RUNS {
            let never = Until::new(&Arc::new(alloc, AtomicU64::new(0))?, 1)?;
            let mut run = match ex.run(never) {
                Ok(run) => run,
                Err(_) => return Err("refused".into()),
            };
            run.poll(&waker);
            runs.push(run)?;
        }
        for _ in 0..3 {
            task_of!(ex, Never, place, record).detach();
        }
        runs[RUNS - 1].poll(&waker);
        refuse(alloc, 1);
        let text = text_of!(ex);
        (text, !is_next_refused(alloc))
    }};
}

fn texts_beside_runs<R: AllocGlobal + Wait + Clone + Drop + Send + Sync>(
    rt: &R,
) -> Result<[(Option<ShortText>, bool); 4], Fail> {
    Ok([
        text_beside_runs!(Executor, rt),
        text_beside_runs!(LocalExecutor, rt),
        text_beside_runs!(StaticExecutor, rt),
        text_beside_runs!(StaticLocalExecutor, rt),
    ])
}

// The text that an executor of this name has beside these runs.
fn wanted(name: &str, active: usize) -> Result<ShortText, fmt::Error> {
    let mut text = ShortText::new();
    write!(text, "{name} {{ active: {active}, global_tasks: 1, local_runners: [")?;
    for _ in 1..RUNS {
        text.write_str("0, ")?;
    }
    write!(text, "1], sleepers: {} }}", RUNS - 1)?;
    Ok(text)
}

#[test]
fn a_text_beside_many_runs_takes_no_memory(rt: HostRuntime) -> Result<(), Fail> {
    let texts = texts_beside_runs(&rt)?;
    let names = [
        ("Executor", 3),
        ("LocalExecutor", 3),
        ("StaticExecutor", 0),
        ("StaticLocalExecutor", 0),
    ];
    for ((name, active), (text, has_paid)) in names.into_iter().zip(texts) {
        assert!(rt; text == wanted(name, active).ok() && text.is_some() && !has_paid);
    }
    Ok(())
}
