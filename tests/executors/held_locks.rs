//! A lock that another thread holds: who needs it waits and loses nothing, and holds no other lock that
//! the other thread may need.
use crate::tests::support::running::beside::{MOST_REQUESTS, Seen, beside_request};
use crate::tests::support::running::future::Kind::{self, LeavesWaker, Never, Ready};
use crate::tests::support::running::future::{Until, WakerPlace};
use crate::tests::support::running::record::Moment::{FuturePoll, WakerWake};
use crate::tests::support::running::record::Record;
use crate::tests::support::running::refusal::{ShortText, text_of};
use crate::tests::support::running::task::{FutureWaker, TaskFuture, TestExecutor, spawned};
use crate::tests::support::running::waker::TestWaker;
use async_executor::{Executor, Task};
use executor_core::task::{Future, Wake};
use std::fmt::Write;
use std::mem::forget;
use std::sync::atomic::{AtomicBool, AtomicU64, Ordering};
use std::sync::{Arc, Wait};
use std::test::Fail;
use std::thread::Threads;

type TestTask<R> = Task<TaskFuture<R>, TestWaker, R>;

// An executor without tasks, and the place and the record of those that it gets.
#[derive(Drop)]
struct Fixture<R: Wait + Clone + Drop + Send + Sync> {
    ex: TestExecutor<R>,
    place: WakerPlace<FutureWaker<R>>,
    record: Record,
    waker: TestWaker,
}

impl<R: AllocGlobal + Wait + Clone + Drop + Send + Sync> Fixture<R> {
    fn new(rt: &R) -> Result<Fixture<R>, Fail> {
        let alloc = rt.alloc();
        Ok(Fixture {
            ex: Executor::new(rt.clone()?, alloc)?,
            place: WakerPlace::new(alloc)?,
            record: Record::new(alloc)?,
            waker: TestWaker::new(&Record::new(alloc)?)?,
        })
    }
}

impl<R: Wait + Clone + Drop + Send + Sync> Fixture<R> {
    fn future(&self, kind: Kind) -> Result<TaskFuture<R>, Fail> {
        Ok(TaskFuture::new(kind, self.place.share()?, &self.record)?)
    }

    // A task of this kind, which a tick has polled.
    fn ticked(&self, kind: Kind) -> Result<TestTask<R>, Fail> {
        let task = spawned(&self.ex, self.future(kind)?)?;
        self.ex.try_tick();
        Ok(task)
    }

    // Takes places for ticks until one is refused, and keeps them.
    fn take_places(&self) {
        for _ in 0..MOST_REQUESTS {
            match self.ex.tick() {
                Ok(tick) => forget(tick),
                Err(_) => return,
            }
        }
    }

    fn text(&self) -> Option<ShortText> {
        text_of!(self.ex)
    }
}

// What comes of a call beside each request that another one makes, in turn: whether all is right, and
// whether the call waits at one of them.
macro_rules! beside_each {
    ($request:ident, $seen:expr) => {{
        let (mut are_right, mut waits) = (true, false);
        for $request in 1..MOST_REQUESTS {
            let Some((is_right, has_waited)) = $seen else {
                break;
            };
            are_right &= is_right;
            waits |= has_waited;
        }
        Ok((are_right, waits))
    }};
}

// Whether a task is polled again that another thread wakes while a run is made and halts at this
// request, and whether that thread waits.
fn woken_beside_a_run<R: AllocGlobal + Wait + Threads + Clone + Drop + Send + Sync>(
    rt: &R,
    request: u32,
) -> Result<Option<(bool, bool)>, Fail> {
    let it = Fixture::new(rt)?;
    it.ticked(LeavesWaker(1))?.detach();
    let Some(waker) = it.place.take() else {
        return Err("no waker was left".into());
    };
    let own = Until::new(&Arc::new(rt.alloc(), AtomicU64::new(0))?, 1)?;
    let seen = beside_request(rt, request, || drop(it.ex.run(own)), || waker.wake(), || ());
    let is_polled = it.ex.try_tick() && it.record.times(FuturePoll) == 2;
    Ok(seen.map(|seen| (is_polled, seen.waits)))
}

fn woken_beside_runs<R: AllocGlobal + Wait + Threads + Clone + Drop + Send + Sync>(
    rt: &R,
) -> Result<(bool, bool), Fail> {
    beside_each!(request, woken_beside_a_run(rt, request)?)
}

// The table makes a request under its lock: for the place of a run's queue.
#[test]
fn a_wake_waits_for_the_table(rt: HostRuntime) -> Result<(), Fail> {
    assert_eq!(rt; woken_beside_runs(&rt)?, (true, true));
    Ok(())
}

// Whether a future is given back that is tried to be spawned beside a spawn, which halts at this request,
// and whether the try waits.
fn tried_beside_a_spawn<R: AllocGlobal + Wait + Threads + Clone + Drop + Send + Sync>(
    rt: &R,
    request: u32,
) -> Result<Option<(bool, bool)>, Fail> {
    let it = Fixture::new(rt)?;
    let (future, tried) = (it.future(Never)?, it.future(Never)?);
    let is_back = AtomicBool::new(false);
    let seen = beside_request(
        rt,
        request,
        || drop(it.ex.spawn(future)),
        || is_back.store(it.ex.try_spawn(tried).is_err(), Ordering::SeqCst),
        || (),
    );
    Ok(seen.map(|seen| (is_back.load(Ordering::SeqCst), seen.waits)))
}

fn tried_beside_spawns<R: AllocGlobal + Wait + Threads + Clone + Drop + Send + Sync>(
    rt: &R,
) -> Result<(bool, bool), Fail> {
    beside_each!(request, tried_beside_a_spawn(rt, request)?)
}

// A spawn makes each of its requests while it has the futures.
#[test]
fn a_try_to_spawn_waits_for_no_spawn(rt: HostRuntime) -> Result<(), Fail> {
    assert_eq!(rt; tried_beside_spawns(&rt)?, (true, false));
    Ok(())
}

// How often a future is polled that is tried to be spawned while nobody is at work.
fn tried_alone<R: AllocGlobal + Wait + Clone + Drop + Send + Sync>(rt: &R) -> Result<u64, Fail> {
    let it = Fixture::new(rt)?;
    match it.ex.try_spawn(it.future(Never)?) {
        Ok(spawned) => spawned.ok().ok_or("refused")?.detach(),
        Err(_) => return Err("given back".into()),
    }
    it.ex.try_tick();
    Ok(it.record.times(FuturePoll))
}

#[test]
fn a_try_to_spawn_spawns_while_nobody_is_at_work(rt: HostRuntime) -> Result<(), Fail> {
    assert_eq!(rt; tried_alone(&rt)?, 1);
    Ok(())
}

// Whether a tick that sleeps is woken by a spawn beside ticks that are made, one of which halts at this
// request, and whether the spawn waits.
fn spawned_beside_ticks<R: AllocGlobal + Wait + Threads + Clone + Drop + Send + Sync>(
    rt: &R,
    request: u32,
) -> Result<Option<(bool, bool)>, Fail> {
    let it = Fixture::new(rt)?;
    let mut tick = it.ex.tick()?;
    tick.poll(&it.waker);
    let future = it.future(Never)?;
    let seen = beside_request(
        rt,
        request,
        || it.take_places(),
        || {
            if let Ok(task) = it.ex.spawn(future) {
                task.detach();
            }
        },
        || (),
    );
    let is_woken = it.waker.record().times(WakerWake) == 1;
    Ok(seen.map(|seen| (is_woken, seen.waits)))
}

// The same of the first request of all.
fn spawned_beside_a_tick<R: AllocGlobal + Wait + Threads + Clone + Drop + Send + Sync>(
    rt: &R,
) -> Result<Option<(bool, bool)>, Fail> {
    spawned_beside_ticks(rt, 1)
}

// The sleepers make each of their requests under their lock.
#[test]
fn a_spawn_waits_for_the_sleepers(rt: HostRuntime) -> Result<(), Fail> {
    assert_eq!(rt; spawned_beside_a_tick(&rt)?, Some((true, true)));
    Ok(())
}

// Whether the text stays the same while the handle of an ended task is polled beside a spawn, which
// halts at this request; and whether the poll waits though nobody holds the table.
fn polled_beside_a_spawn<R: AllocGlobal + Wait + Threads + Clone + Drop + Send + Sync>(
    rt: &R,
    tasks: usize,
    request: u32,
) -> Result<Option<(bool, bool)>, Fail> {
    let it = Fixture::new(rt)?;
    let mut task = it.ticked(Ready(7))?;
    for _ in 1..tasks {
        it.ticked(Never)?.detach();
    }
    let future = it.future(Never)?;
    let seen = beside_request(
        rt,
        request,
        || drop(it.ex.spawn(future)),
        || drop(task.poll(&it.waker)),
        || it.text(),
    );
    let free = it.text();
    Ok(seen.map(|seen| {
        let Seen {
            before,
            waits,
            after,
        } = seen;
        (before == after, waits && before == free)
    }))
}

// The same for each request of a spawn beside up to so many tasks: each table is full at one of them.
fn polled_beside_spawns<R: AllocGlobal + Wait + Threads + Clone + Drop + Send + Sync>(
    rt: &R,
    most: usize,
) -> Result<(bool, bool), Fail> {
    let (mut are_same, mut has_waited) = (true, false);
    for tasks in 1..most {
        let (is_same, waits): (bool, bool) = polled_beside_each(rt, tasks)?;
        are_same &= is_same;
        has_waited |= waits;
    }
    Ok((are_same, has_waited))
}

fn polled_beside_each<R: AllocGlobal + Wait + Threads + Clone + Drop + Send + Sync>(
    rt: &R,
    tasks: usize,
) -> Result<(bool, bool), Fail> {
    beside_each!(request, polled_beside_a_spawn(rt, tasks, request)?)
}

// Who has the table does not wait for the store: one who has the store waits for the table.
#[test]
fn a_handle_holds_no_table_while_it_waits_for_the_store(rt: HostRuntime) -> Result<(), Fail> {
    assert_eq!(rt; polled_beside_spawns(&rt, 10)?, (true, true));
    Ok(())
}
