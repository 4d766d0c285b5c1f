//! An executor that is dropped drops the futures of its tasks.
use crate::tests::support::running::future::Kind::{LeavesWaker, Never, Ready as ReadyKind};
use crate::tests::support::running::future::{Ready, Until, WakerPlace};
use crate::tests::support::running::halt::Halt;
use crate::tests::support::running::line::Answer::{Cancelled as IsCancelled, Gone, Output, Pending};
use crate::tests::support::running::line::Line;
use crate::tests::support::running::line::Line::{
    Cancel, Count, Detach, DropExecutor, DropExecutorHalts, DropHandle, Finished, HaltAt,
    ManyDropped, ManyRan, Poll as PollBy, Returns, Spawn, SpawnMany, Ticks, Wake as WakeBy,
};
use crate::tests::support::running::player::{play, play_once};
use crate::tests::support::running::record::Moment::{FutureDrop, FuturePoll, OutputDrop, WakerWake};
use crate::tests::support::running::record::Record;
use crate::tests::support::running::task::{FutureWaker, TaskFuture, TestExecutor, spawned};
use crate::tests::support::running::waiting::turns;
use crate::tests::support::running::waker::TestWaker;
use async_executor::{Cancelled, Executor, LocalExecutor, Task};
use executor_core::task::{Future, Poll, Wake};
use std::alloc::{AllocError, Global};
use std::sync::atomic::{AtomicU64, Ordering};
use std::sync::{Arc, Wait};
use std::test::Fail;
use std::thread::{self, Threads, yield_now};

#[test]
fn an_idle_task_is_cancelled(rt: HostRuntime) -> Result<(), Fail> {
    play(
        &rt,
        &[
            Spawn(LeavesWaker(1)),
            Ticks(1),
            PollBy(0, Pending),
            Count(0, FutureDrop, 0),
            DropExecutor,
            Count(0, FutureDrop, 1),
            Count(0, WakerWake, 1),
            PollBy(0, IsCancelled),
            WakeBy(0),
            Count(0, FuturePoll, 1),
            Count(0, FutureDrop, 1),
        ],
    )
}

#[test]
fn a_task_that_has_ended_keeps_its_output(rt: HostRuntime) -> Result<(), Fail> {
    play(
        &rt,
        &[
            Spawn(ReadyKind(7)),
            Spawn(ReadyKind(8)),
            PollBy(1, Pending),
            Ticks(2),
            Spawn(ReadyKind(9)),
            DropExecutor,
            PollBy(0, Output(7)),
            PollBy(1, Output(8)),
            Count(1, WakerWake, 1),
            Count(1, OutputDrop, 0),
            PollBy(2, IsCancelled),
            Count(2, FuturePoll, 0),
            Count(2, FutureDrop, 1),
        ],
    )
}

// So many tasks, and one whose handle is left. That keeps the store: what was not drained would stay there.
fn all_are_dropped(count: u64) -> [Line; 7] {
    [
        SpawnMany(count),
        Spawn(Never),
        ManyDropped(0),
        DropExecutor,
        ManyDropped(count),
        ManyRan(0),
        PollBy(0, IsCancelled),
    ]
}

#[test]
fn each_of_some_futures_is_dropped(rt: HostRuntime) -> Result<(), Fail> {
    play(&rt, &all_are_dropped(700))
}

// All kinds drain in one body, so one of them is enough for what takes seconds.
#[test]
fn each_of_many_futures_is_dropped(rt: HostRuntime) -> Result<(), Fail> {
    play_once(&rt, &all_are_dropped(70_000))
}

// The end of a task is told once its future was dropped: at that drop nobody knows of it.
#[test]
fn a_future_is_dropped_before_its_end_is_told(rt: HostRuntime) -> Result<(), Fail> {
    play(
        &rt,
        &[
            Spawn(LeavesWaker(1)),
            Ticks(1),
            PollBy(0, Pending),
            HaltAt(0, FutureDrop),
            DropExecutorHalts,
            Count(0, WakerWake, 0),
            PollBy(0, Pending),
            Returns(Gone),
            Count(0, WakerWake, 1),
            PollBy(0, IsCancelled),
        ],
    )
}

// Another thread drops the executor, and halts at the drop of the first future.
#[test]
fn handles_and_wakers_go_on_meanwhile(rt: HostRuntime) -> Result<(), Fail> {
    play(
        &rt,
        &[
            Spawn(LeavesWaker(1)),
            Spawn(LeavesWaker(1)),
            Spawn(LeavesWaker(1)),
            Spawn(LeavesWaker(1)),
            Spawn(LeavesWaker(1)),
            Ticks(5),
            HaltAt(0, FutureDrop),
            DropExecutorHalts,
            WakeBy(0),
            WakeBy(1),
            Finished(1, true),
            PollBy(1, Pending),
            Cancel(2),
            Detach(3),
            DropHandle(4),
            Count(1, FutureDrop, 0),
            Count(4, FutureDrop, 0),
            Returns(Gone),
            Count(0, FutureDrop, 1),
            Count(1, FutureDrop, 1),
            Count(2, FutureDrop, 1),
            Count(3, FutureDrop, 1),
            Count(4, FutureDrop, 1),
            Count(1, WakerWake, 1),
            PollBy(0, IsCancelled),
            PollBy(1, IsCancelled),
            PollBy(2, IsCancelled),
        ],
    )
}

// A handle of a task that has ended takes its output out of the store.
#[test]
fn handles_of_ended_tasks_go_on_meanwhile(rt: HostRuntime) -> Result<(), Fail> {
    play(
        &rt,
        &[
            Spawn(LeavesWaker(1)),
            Spawn(ReadyKind(7)),
            Spawn(ReadyKind(8)),
            Spawn(ReadyKind(9)),
            Ticks(4),
            HaltAt(0, FutureDrop),
            DropExecutorHalts,
            PollBy(1, Output(7)),
            Detach(2),
            DropHandle(3),
            Count(2, OutputDrop, 1),
            Count(3, OutputDrop, 1),
            Returns(Gone),
            Count(0, FutureDrop, 1),
            PollBy(0, IsCancelled),
        ],
    )
}

type Numbers<R> = Executor<Ready<u64>, TestWaker, R>;

// Waits until the number is so large, and says whether it was so in time.
fn is_reached(number: &AtomicU64, all: u64) -> bool {
    for _ in 0..turns() {
        if number.load(Ordering::SeqCst) >= all {
            return true;
        }
        yield_now();
    }
    false
}

// Whether a handle that is awaited answers once its waker was woken. Those who await are counted.
fn is_woken<R: Wait + Clone + Drop + Send + Sync>(
    mut task: Task<Ready<u64>, TestWaker, R>,
    awaiting: &AtomicU64,
    waker: &TestWaker,
) -> bool {
    let is_pending = task.poll(waker) == Poll::Pending;
    awaiting.fetch_add(1, Ordering::SeqCst);
    for _ in 0..turns() {
        if waker.record().times(WakerWake) > 0 {
            return is_pending && task.poll(waker) == Poll::Ready(Err(Cancelled));
        }
        yield_now();
    }
    false
}

// Drops an executor while three other threads await its tasks. Says whether each was woken.
fn are_woken<R: AllocGlobal + Wait + Threads + Clone + Drop + Send + Sync>(
    rt: &R,
) -> Result<[bool; 3], Fail> {
    let ex: Numbers<R> = Executor::new(rt.clone()?, rt.alloc())?;
    let one = (spawned(&ex, Ready::new(1))?, new_waker(rt.alloc())?);
    let two = (spawned(&ex, Ready::new(2))?, new_waker(rt.alloc())?);
    let three = (spawned(&ex, Ready::new(3))?, new_waker(rt.alloc())?);
    let awaiting = AtomicU64::new(0);
    let (first, (second, third)) = thread::join(
        rt,
        || is_woken(one.0, &awaiting, &one.1),
        || {
            thread::join(
                rt,
                || is_woken(two.0, &awaiting, &two.1),
                || {
                    thread::join(
                        rt,
                        || is_woken(three.0, &awaiting, &three.1),
                        || {
                            is_reached(&awaiting, 3);
                            drop(ex);
                        },
                    )
                    .0
                },
            )
        },
    );
    Ok([first, second, third])
}

// A waker that nobody else has a share of.
fn new_waker(alloc: Global) -> Result<TestWaker, AllocError> {
    TestWaker::new(&Record::new(alloc)?)
}

#[test]
fn who_awaits_on_another_thread_is_woken(rt: HostRuntime) -> Result<(), Fail> {
    assert_eq!(rt; are_woken(&rt)?, [true; 3]);
    Ok(())
}

const TASKS: usize = 500;

// How often futures were polled and dropped, how often the sleeper had been woken as the first one
// was dropped, and how many handles answer that their task was cancelled.
#[derive(Debug, PartialEq, Eq, Drop)]
struct Seen {
    polls: u64,
    wakes: u64,
    drops: u64,
    cancelled: usize,
}

// Tasks that are never ready, and a run and a tick that were forgotten: some tasks stand in the queue
// of the run, the others are idle, and the tick sleeps.
#[derive(Drop)]
struct Forgotten<R: Wait + Clone + Drop + Send + Sync> {
    tasks: Vec<Task<TaskFuture<R>, TestWaker, R>>,
    record: Record,
    sleeper: TestWaker,
    halt: Halt,
}

impl<R: Wait + Clone + Drop + Send + Sync> Forgotten<R> {
    // No task yet. The thread that drops the first future halts.
    fn new(alloc: Global) -> Result<Forgotten<R>, AllocError> {
        let halt = Halt::new(alloc)?;
        let record = Record::with_halt(alloc, &halt)?;
        record.halt_at(FutureDrop);
        Ok(Forgotten {
            tasks: Vec::new(alloc),
            record,
            sleeper: new_waker(alloc)?,
            halt,
        })
    }

    fn spawn(&mut self, ex: &TestExecutor<R>, alloc: Global) -> Result<(), Fail> {
        let mut futures = Vec::new(alloc);
        for _ in 0..TASKS {
            futures.push(TaskFuture::new(Never, WakerPlace::new(alloc)?, &self.record)?)?;
        }
        match ex.spawn_many(futures.into_iter(), &mut self.tasks) {
            Ok(_) => Ok(()),
            Err(_) => Err("refused".into()),
        }
    }

    // A run polls as many tasks as a turn has, `try_tick` those that it left in the global queue, and
    // then the tick finds none.
    fn forget(&self, ex: &TestExecutor<R>, alloc: Global) -> Result<bool, Fail> {
        let mut run = match ex.run(Until::new(&Arc::new(alloc, AtomicU64::new(0))?, 1)?) {
            Ok(run) => run,
            Err(_) => return Ok(false),
        };
        run.poll(&new_waker(alloc)?);
        std::mem::forget(run);
        for _ in 0..TASKS {
            if !ex.try_tick() {
                break;
            }
        }
        let mut tick = ex.tick()?;
        let asleep = tick.poll(&self.sleeper) == Poll::Pending;
        std::mem::forget(tick);
        Ok(asleep)
    }

    // What is seen while another thread drops the executor, and after that.
    fn seen(mut self, rt: &(impl Wait + Threads), ex: TestExecutor<R>) -> Option<Seen> {
        let (halt, sleeper) = (&self.halt, self.sleeper.record());
        let ((), wakes) = thread::join(
            rt,
            move || drop(ex),
            || {
                halt.await_other();
                let wakes = sleeper.times(WakerWake);
                halt.open();
                wakes
            },
        );
        let mut cancelled = 0usize;
        for task in self.tasks.iter_mut() {
            if matches!(task.poll(&self.sleeper), Poll::Ready(Err(Cancelled))) {
                cancelled = cancelled.saturating_add(1);
            }
        }
        if !self.halt.was_passed() {
            return None;
        }
        Some(Seen {
            polls: self.record.times(FuturePoll),
            wakes,
            drops: self.record.times(FutureDrop),
            cancelled,
        })
    }
}

fn seen_beside_forgotten<R: AllocGlobal + Wait + Threads + Clone + Drop + Send + Sync>(
    rt: &R,
) -> Result<Option<Seen>, Fail> {
    let ex = Executor::new(rt.clone()?, rt.alloc())?;
    let mut all = Forgotten::new(rt.alloc())?;
    all.spawn(&ex, rt.alloc())?;
    if !all.forget(&ex, rt.alloc())? {
        return Ok(None);
    }
    Ok(all.seen(rt, ex))
}

// The sleeper is woken before the first future is dropped, and every future is dropped.
#[test]
fn a_tick_and_a_run_may_be_forgotten(rt: HostRuntime) -> Result<(), Fail> {
    let seen = seen_beside_forgotten(&rt)?;
    let wanted = Seen {
        polls: 231,
        wakes: 1,
        drops: 500,
        cancelled: 500,
    };
    assert_eq!(rt; seen, Some(wanted));
    Ok(())
}

// Leaves its waker at its poll, and is never ready. As it is dropped it wakes its neighbour.
struct Neighbour<R: Wait + Clone + Drop + Send + Sync> {
    own: WakerPlace<FutureWaker<R>>,
    other: WakerPlace<FutureWaker<R>>,
    record: Record,
}

impl<R: Wait + Clone + Drop + Send + Sync> Future<FutureWaker<R>> for Neighbour<R> {
    type Output = ();

    fn poll(&mut self, w: &FutureWaker<R>) -> Poll<()> {
        self.record.meet(FuturePoll);
        drop(self.own.replace(w.copy().ok()));
        Poll::Pending
    }
}

impl<R: Wait + Clone + Drop + Send + Sync> Drop for Neighbour<R> {
    fn drop(self) {
        let Neighbour {
            own: _,
            other,
            record,
        } = self;
        if let Some(waker) = other.take() {
            waker.wake();
            record.meet(WakerWake);
        }
        record.meet(FutureDrop);
    }
}

const NEIGHBOURS: usize = 10_000;

// As many futures, each of which is the neighbour of the one before.
fn neighbours<R: Wait + Clone + Drop + Send + Sync>(
    record: &Record,
    alloc: Global,
) -> Result<Vec<Neighbour<R>>, Fail> {
    let mut futures = Vec::new(alloc);
    let mut own = WakerPlace::new(alloc)?;
    for _ in 0..NEIGHBOURS {
        let other = WakerPlace::new(alloc)?;
        let shared = other.share()?;
        let record = record.share()?;
        futures.push(Neighbour { own, other, record })?;
        own = shared;
    }
    Ok(futures)
}

// How often neighbours were polled, woken and dropped once their executor, of this type, was.
macro_rules! dropped_neighbours {
    ($executor:ident, $rt:expr) => {{
        let record = Record::new($rt.alloc())?;
        let ex = $executor::<Neighbour<R>, TestWaker, R>::new($rt.clone()?, $rt.alloc())?;
        let mut tasks = Vec::new($rt.alloc());
        let futures = neighbours(&record, $rt.alloc())?;
        if ex.spawn_many(futures.into_iter(), &mut tasks).is_err() {
            return Err("refused".into());
        }
        for _ in 0..NEIGHBOURS {
            ex.try_tick();
        }
        drop(ex);
        [
            record.times(FuturePoll),
            record.times(WakerWake),
            record.times(FutureDrop),
        ]
    }};
}

fn dropped_neighbours<R: AllocGlobal + Wait + Clone + Drop + Send + Sync>(
    rt: &R,
) -> Result<[[u64; 3]; 2], Fail> {
    Ok([
        dropped_neighbours!(Executor, rt),
        dropped_neighbours!(LocalExecutor, rt),
    ])
}

// The last one has no neighbour. The handles are there until all is seen.
#[test]
fn each_future_wakes_its_neighbour(rt: HostRuntime) -> Result<(), Fail> {
    assert_eq!(rt; dropped_neighbours(&rt)?, [[10_000, 9_999, 10_000]; 2]);
    Ok(())
}

// Never ready. It does this as it is dropped.
struct ActsAtDrop<C: Fn() + Drop> {
    act: C,
    ghost callable: { C.IsAlwaysCallable act },
}

impl<C: Fn() + Drop, R: Wait + Clone + Drop + Send + Sync> Future<FutureWaker<R>>
    for ActsAtDrop<C> {
    type Output = ();

    fn poll(&mut self, _w: &FutureWaker<R>) -> Poll<()> {
        Poll::Pending
    }
}

impl<C: Fn() + Drop> Drop for ActsAtDrop<C> {
    fn drop(self) {
        (self.act)();
        let ActsAtDrop { act: _ } = self;
    }
}

// Whether another executor of this type has a task before one is dropped, and after that.
macro_rules! is_spawned {
    ($executor:ident, $rt:expr) => {{
        let other = $executor::<Ready<u64>, TestWaker, R>::new($rt.clone()?, $rt.alloc())?;
        let act = || {
            if let Ok(task) = other.spawn(Ready::new(7)) {
                task.detach();
            }
        };
        let ex = $executor::<_, TestWaker, R>::new($rt.clone()?, $rt.alloc())?;
        match ex.spawn(ActsAtDrop { act }) {
            Ok(task) => task.detach(),
            Err(_) => return Err("refused".into()),
        }
        let before = other.try_tick();
        drop(ex);
        [before, other.try_tick()]
    }};
}

fn is_spawned<R: AllocGlobal + Wait + Clone + Drop + Send + Sync>(
    rt: &R,
) -> Result<[[bool; 2]; 2], Fail> {
    Ok([is_spawned!(Executor, rt), is_spawned!(LocalExecutor, rt)])
}

#[test]
fn a_future_spawns_on_another_executor(rt: HostRuntime) -> Result<(), Fail> {
    assert_eq!(rt; is_spawned(&rt)?, [[false, true]; 2]);
    Ok(())
}
