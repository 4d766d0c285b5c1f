//! Tasks that wake many others, keep many wakers, or wake tasks of another executor.
use crate::tests::support::running::future::Kind::LeavesWaker;
use crate::tests::support::running::future::WakerPlace;
use crate::tests::support::running::record::Moment::{FutureDrop, FuturePoll};
use crate::tests::support::running::record::{AtDrop, Record};
use crate::tests::support::running::task::{FutureWaker, TaskFuture, spawned};
use crate::tests::support::running::waker::TestWaker;
use async_executor::{Executor, LocalExecutor, StaticExecutor, StaticLocalExecutor};
use executor_core::task::{Future, Poll, Wake};
use std::alloc::{AllocError, Global};
use std::sync::{Arc, Mutex, Wait};
use std::test::Fail;
use std::thread::{self, Threads};

// Wakers that tasks leave and others find.
type Wakers<R> = Arc<Mutex<Vec<FutureWaker<R>>>>;

fn no_wakers<R: Wait + Clone + Drop + Send + Sync>(alloc: Global) -> Result<Wakers<R>, AllocError> {
    Ok(Arc::new(alloc, Mutex::new(Vec::new(alloc)))?)
}

// Takes all wakers that are there and wakes them, and says how many those were.
fn wake_all<R: Wait + Clone + Drop + Send + Sync>(wakers: &Wakers<R>, alloc: Global) -> usize {
    let all = match wakers.try_lock() {
        Some(mut wakers) => std::mem::replace(&mut *wakers, Vec::new(alloc)),
        None => return 0,
    };
    for waker in all.iter() {
        waker.wake();
    }
    all.len()
}

// Leaves this many copies of its waker at each poll and is never ready; or is ready at once, after it
// woke all that others left.
#[derive(Drop)]
struct Leaving<R: Wait + Clone + Drop + Send + Sync> {
    copies: Option<usize>,
    wakers: Wakers<R>,
    parts: AtDrop,
    alloc: Global,
}

impl<R: Wait + Clone + Drop + Send + Sync> Leaving<R> {
    fn new(
        copies: Option<usize>,
        wakers: &Wakers<R>,
        record: &Record,
        alloc: Global,
    ) -> Result<Leaving<R>, AllocError> {
        Ok(Leaving {
            copies,
            wakers: Arc::try_clone(wakers)?,
            parts: AtDrop::new(record.share()?, FutureDrop),
            alloc,
        })
    }

    fn leave(&self, copies: usize, w: &FutureWaker<R>) {
        let Some(mut wakers) = self.wakers.try_lock() else {
            return;
        };
        for _ in 0..copies {
            if let Ok(copy) = w.copy() {
                if let Err(refused) = wakers.push(copy) {
                    drop(refused);
                }
            }
        }
    }
}

impl<R: Wait + Clone + Drop + Send + Sync> Future<FutureWaker<R>> for Leaving<R> {
    type Output = usize;

    fn poll(&mut self, w: &FutureWaker<R>) -> Poll<usize> {
        self.parts.record().meet(FuturePoll);
        match self.copies {
            Some(copies) => {
                self.leave(copies, w);
                Poll::Pending
            }
            None => Poll::Ready(wake_all(&self.wakers, self.alloc)),
        }
    }
}

// Any future of this module: one type for all, so that one executor of each kind is built for them.
#[derive(Drop)]
enum Waking<R: Wait + Clone + Drop + Send + Sync> {
    Leaving(Leaving<R>),
    Keeping(Keeping<R>),
    Crossed(Crossed<R>),
}

impl<R: Wait + Clone + Drop + Send + Sync> Future<FutureWaker<R>> for Waking<R> {
    type Output = usize;

    fn poll(&mut self, w: &FutureWaker<R>) -> Poll<usize> {
        match self {
            Waking::Leaving(future) => future.poll(w),
            Waking::Keeping(future) => future.poll(w),
            Waking::Crossed(future) => future.poll(w),
        }
    }
}

// Spawns and detaches a task of this future.
macro_rules! detached {
    ($ex:expr, $kind:ident, $future:expr) => {
        match $ex.spawn(Waking::$kind($future)) {
            Ok(task) => task.detach(),
            Err(_) => return Err("refused".into()),
        }
    };
}

// How many tasks ticks run until there is none.
macro_rules! ticks {
    ($ex:expr, $most:expr) => {{
        let mut ticks = 0u64;
        while ticks < $most && $ex.try_tick() {
            ticks += 1;
        }
        ticks
    }};
}

// More than there are.
const MOST: u64 = 1_000_000;

// How many tasks run before and after one wakes all others, and how often futures were polled.
macro_rules! woken_in_one_poll {
    ($executor:ident, $rt:expr, $many:expr) => {{
        let alloc = $rt.alloc();
        let ex = $executor::<Waking<R>, TestWaker, R>::new($rt.clone()?, alloc)?;
        let (wakers, record) = (no_wakers(alloc)?, Record::new(alloc)?);
        for _ in 0..$many {
            detached!(ex, Leaving, Leaving::new(Some(1), &wakers, &record, alloc)?);
        }
        let before = ticks!(ex, MOST);
        detached!(ex, Leaving, Leaving::new(None, &wakers, &record, alloc)?);
        let wakes = ex.try_tick();
        let after = ticks!(ex, MOST);
        (before, wakes, after, record.times(FuturePoll))
    }};
}

fn woken_on_each<R: AllocGlobal + Wait + Clone + Drop + Send + Sync>(
    rt: &R,
    many: u64,
) -> Result<[(u64, bool, u64, u64); 4], Fail> {
    Ok([
        woken_in_one_poll!(Executor, rt, many),
        woken_in_one_poll!(LocalExecutor, rt, many),
        woken_in_one_poll!(StaticExecutor, rt, many),
        woken_in_one_poll!(StaticLocalExecutor, rt, many),
    ])
}

#[test]
fn one_poll_wakes_a_thousand_tasks(rt: HostRuntime) -> Result<(), Fail> {
    assert_eq!(rt;
        woken_on_each(&rt, 1_000)?,
        [(1_000, true, 1_000, 2_001); 4]
    );
    Ok(())
}

fn woken_on_one<R: AllocGlobal + Wait + Clone + Drop + Send + Sync>(
    rt: &R,
    many: u64,
) -> Result<(u64, bool, u64, u64), Fail> {
    Ok(woken_in_one_poll!(Executor, rt, many))
}

#[test]
fn one_poll_wakes_twenty_thousand_tasks(rt: HostRuntime) -> Result<(), Fail> {
    assert_eq!(rt;
        woken_on_one(&rt, 20_000)?,
        (20_000, true, 20_000, 40_001)
    );
    Ok(())
}

// A hundred wakers of one idle task are woken. How many there are, how many tasks run then, and how
// many after one of them is woken while the others are gone.
macro_rules! woken_often {
    ($executor:ident, $rt:expr) => {{
        let alloc = $rt.alloc();
        let ex = $executor::<Waking<R>, TestWaker, R>::new($rt.clone()?, alloc)?;
        let (wakers, record) = (no_wakers(alloc)?, Record::new(alloc)?);
        detached!(ex, Leaving, Leaving::new(Some(100), &wakers, &record, alloc)?);
        let first = ticks!(ex, MOST);
        let woken = wake_all(&wakers, alloc);
        let second = ticks!(ex, MOST);
        let again = wake_all(&wakers, alloc);
        let third = ticks!(ex, MOST);
        ([woken, again], [first, second, third], record.times(FuturePoll))
    }};
}

fn woken_often<R: AllocGlobal + Wait + Clone + Drop + Send + Sync>(
    rt: &R,
) -> Result<[([usize; 2], [u64; 3], u64); 4], Fail> {
    Ok([
        woken_often!(Executor, rt),
        woken_often!(LocalExecutor, rt),
        woken_often!(StaticExecutor, rt),
        woken_often!(StaticLocalExecutor, rt),
    ])
}

#[test]
fn a_hundred_wakers_of_one_task_schedule_it_once(rt: HostRuntime) -> Result<(), Fail> {
    assert_eq!(rt; woken_often(&rt)?, [([100, 100], [1, 1, 1], 3); 4]);
    Ok(())
}

// Keeps a hundred copies of its waker at its first poll and wakes each of them then, and once more as
// it is dropped. It is never ready.
struct Keeping<R: Wait + Clone + Drop + Send + Sync> {
    kept: Vec<FutureWaker<R>>,
    record: Record,
}

impl<R: Wait + Clone + Drop + Send + Sync> Future<FutureWaker<R>> for Keeping<R> {
    type Output = usize;

    fn poll(&mut self, w: &FutureWaker<R>) -> Poll<usize> {
        self.record.meet(FuturePoll);
        if !self.kept.is_empty() {
            return Poll::Pending;
        }
        for _ in 0..100u8 {
            if let Ok(copy) = w.copy() {
                copy.wake();
                if let Err(refused) = self.kept.push(copy) {
                    drop(refused);
                }
            }
        }
        Poll::Pending
    }
}

impl<R: Wait + Clone + Drop + Send + Sync> Drop for Keeping<R> {
    fn drop(self) {
        let Keeping { kept, record } = self;
        for waker in kept.iter() {
            waker.wake();
        }
        drop(kept);
        record.meet(FutureDrop);
    }
}

// How many ticks run the task, and how often it was polled and dropped once its executor was.
macro_rules! keeping {
    ($executor:ident, $rt:expr) => {{
        let alloc = $rt.alloc();
        let ex = $executor::<Waking<R>, TestWaker, R>::new($rt.clone()?, alloc)?;
        let record = Record::new(alloc)?;
        detached!(ex, Keeping, Keeping { kept: Vec::new(alloc), record: record.share()? });
        let ticks = ticks!(ex, MOST);
        let before = record.times(FutureDrop);
        drop(ex);
        [ticks, record.times(FuturePoll), before, record.times(FutureDrop)]
    }};
}

fn keeping<R: AllocGlobal + Wait + Clone + Drop + Send + Sync>(
    rt: &R,
) -> Result<[[u64; 4]; 2], Fail> {
    Ok([keeping!(Executor, rt), keeping!(LocalExecutor, rt)])
}

#[test]
fn one_that_keeps_a_hundred_copies_of_its_waker_is_dropped_once(
    rt: HostRuntime,
) -> Result<(), Fail> {
    assert_eq!(rt; keeping(&rt)?, [[2, 2, 0, 1]; 2]);
    Ok(())
}

// Leaves its waker at one place and wakes the one that it finds at the other. It is never ready.
#[derive(Drop)]
struct Crossed<R: Wait + Clone + Drop + Send + Sync> {
    own: WakerPlace<FutureWaker<R>>,
    other: WakerPlace<FutureWaker<R>>,
    parts: AtDrop,
}

impl<R: Wait + Clone + Drop + Send + Sync> Crossed<R> {
    fn new(
        own: &WakerPlace<FutureWaker<R>>,
        other: &WakerPlace<FutureWaker<R>>,
        record: &Record,
    ) -> Result<Crossed<R>, AllocError> {
        Ok(Crossed {
            own: own.share()?,
            other: other.share()?,
            parts: AtDrop::new(record.share()?, FutureDrop),
        })
    }
}

impl<R: Wait + Clone + Drop + Send + Sync> Future<FutureWaker<R>> for Crossed<R> {
    type Output = usize;

    fn poll(&mut self, w: &FutureWaker<R>) -> Poll<usize> {
        self.parts.record().meet(FuturePoll);
        drop(self.own.replace(w.copy().ok()));
        if let Some(other) = self.other.take() {
            other.wake();
        }
        Poll::Pending
    }
}

// Two executors with one task each, of one type: each wakes the other. Gives whether each tick found
// a task, of the first, the second and the first executor again, and so on, each asked twice; the
// same of the second one after the first is gone; and how often each future was polled and dropped.
macro_rules! crossed {
    ($executor:ident, $rt:expr) => {{
        let alloc = $rt.alloc();
        let one = $executor::<Waking<R>, TestWaker, R>::new($rt.clone()?, alloc)?;
        let two = $executor::<Waking<R>, TestWaker, R>::new($rt.clone()?, alloc)?;
        let places = (WakerPlace::new(alloc)?, WakerPlace::new(alloc)?);
        let records = (Record::new(alloc)?, Record::new(alloc)?);
        detached!(one, Crossed, Crossed::new(&places.0, &places.1, &records.0)?);
        detached!(two, Crossed, Crossed::new(&places.1, &places.0, &records.1)?);
        let first = [one.try_tick(), one.try_tick(), two.try_tick(), two.try_tick()];
        let second = [one.try_tick(), one.try_tick(), two.try_tick(), two.try_tick()];
        drop(one);
        let polls = [records.0.times(FuturePoll), records.1.times(FuturePoll)];
        let left = two.try_tick();
        drop(two);
        let drops = [records.0.times(FutureDrop), records.1.times(FutureDrop)];
        (first, second, left, polls, drops)
    }};
}

type CrossedSeen = ([bool; 4], [bool; 4], bool, [u64; 2], [u64; 2]);

fn crossed<R: AllocGlobal + Wait + Clone + Drop + Send + Sync>(
    rt: &R,
) -> Result<[CrossedSeen; 4], Fail> {
    Ok([
        crossed!(Executor, rt),
        crossed!(LocalExecutor, rt),
        crossed!(StaticExecutor, rt),
        crossed!(StaticLocalExecutor, rt),
    ])
}

// In the first round the task of the first executor finds no waker; then each is woken by the other.
#[test]
fn tasks_of_two_executors_wake_each_other(rt: HostRuntime) -> Result<(), Fail> {
    let round = [true, false, true, false];
    let wanted = (round, round, false, [2, 2], [1, 1]);
    assert_eq!(rt; crossed(&rt)?, [wanted; 4]);
    Ok(())
}

// How often threads meet.
const ROUNDS: u64 = 2_000;

// Has one thread wake and drop a waker of an idle task, while another one drops a copy of it, and a
// third one, if it is to, the executor.
fn drop_at_once<R: AllocGlobal + Wait + Threads + Clone + Drop + Send + Sync>(
    rt: &R,
    record: &Record,
    keeps: bool,
) -> Result<(), Fail> {
    let alloc = rt.alloc();
    let place = WakerPlace::new(alloc)?;
    let ex: Executor<TaskFuture<R>, TestWaker, R> = Executor::new(rt.clone()?, alloc)?;
    spawned(
        &ex,
        TaskFuture::new(LeavesWaker(5), place.share()?, record)?,
    )?
    .detach();
    ex.try_tick();
    let Some(waker) = place.take() else {
        return Err("no waker".into());
    };
    let copy = waker.copy()?;
    let (ex, kept) = if keeps {
        (None, Some(ex))
    } else {
        (Some(ex), None)
    };
    thread::join(
        rt,
        move || {
            waker.wake();
            drop(waker);
        },
        move || thread::join(rt, move || drop(copy), move || drop(ex)),
    );
    drop(kept);
    Ok(())
}

// The last share of what an executor and its wakers have in common is given up by any of them.
#[test]
fn a_waker_is_woken_while_its_copy_and_its_executor_are_dropped(
    rt: HostRuntime,
) -> Result<(), Fail> {
    let record = Record::new(rt.alloc())?;
    for round in 0..ROUNDS {
        drop_at_once(&rt, &record, round % 4 == 0)?;
    }
    assert_eq!(rt;
        [record.times(FuturePoll), record.times(FutureDrop)],
        [ROUNDS; 2]
    );
    Ok(())
}
