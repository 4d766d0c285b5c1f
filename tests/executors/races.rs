//! Executors that several threads use with no order between them.
use crate::tests::support::running::future::{Kind, WakerPlace};
use crate::tests::support::running::halt::Halt;
use crate::tests::support::running::record::{Moment, Record};
use crate::tests::support::running::task::{FutureWaker, TaskFuture, spawned};
use crate::tests::support::running::waiting::turns;
use crate::tests::support::running::waker::TestWaker;
use async_executor::executor::{Executor, Task};
use executor_core::task::{Future, Poll};
use std::alloc::{AllocError, Global};
use std::sync::Wait;
use std::sync::atomic::{AtomicU64, Ordering};
use std::test::Fail;
use std::thread;
use std::thread::{Threads, yield_now};

type TestTask<R> = Task<TaskFuture<R>, TestWaker, R>;

// An executor, the record of its futures and their outputs, a waker for its handles, and what the
// threads count.
#[derive(Drop)]
struct Fixture<R: Wait + Clone + Drop + Send + Sync> {
    ex: Executor<TaskFuture<R>, TestWaker, R>,
    waker: TestWaker,
    record: Record,
    place: WakerPlace<FutureWaker<R>>,
    halt: Halt,
    good: AtomicU64,
    done: AtomicU64,
}

impl<R: Wait + Clone + Drop + Send + Sync + AllocGlobal> Fixture<R> {
    fn new(rt: &R) -> Result<Fixture<R>, Fail> {
        let alloc = rt.alloc();
        let halt = Halt::new(alloc)?;
        let record = Record::with_halt(alloc, &halt)?;
        let waker = TestWaker::new(&Record::new(alloc)?)?;
        let place = WakerPlace::new(alloc)?;
        Ok(Fixture {
            ex: Executor::new(rt.clone()?, alloc)?,
            waker,
            record,
            place,
            halt,
            good: AtomicU64::new(0),
            done: AtomicU64::new(0),
        })
    }
}

impl<R: Wait + Clone + Drop + Send + Sync> Fixture<R> {
    fn future(&self, kind: Kind) -> Result<TaskFuture<R>, AllocError> {
        TaskFuture::new(kind, self.place.share()?, &self.record)
    }

    fn task(&self, kind: Kind) -> Option<TestTask<R>> {
        let Ok(future) = self.future(kind) else {
            return None;
        };
        self.ex.spawn(future).ok()
    }

    // So many tasks that have ended and keep their outputs.
    fn ended_tasks(&self, count: u64, alloc: Global) -> Result<Vec<TestTask<R>>, Fail> {
        let mut tasks = Vec::new(alloc);
        for i in 0..count {
            let future = self.future(Kind::Ready(i))?;
            tasks.push(spawned(&self.ex, future)?)?;
            self.ex.try_tick();
        }
        Ok(tasks)
    }

    // Whether this thread runs the task to its end.
    fn ticks_to_end(&self, task: &TestTask<R>) -> bool {
        self.ex.try_tick() && task.is_finished()
    }

    // Runs tasks until this many threads are done. Its turns are not counted: on a processor of its own it
    // has millions while those threads wait for theirs.
    fn ticks_until(&self, threads: u64) {
        while self.done.load(Ordering::SeqCst) < threads {
            if !self.ex.try_tick() {
                yield_now();
            }
        }
    }

    // Spawns tasks one by one, each of which yields once, and counts those that give the number of
    // their polls, up to the first that does not.
    fn awaits_each(&self, tasks: u64) {
        for _ in 0..tasks {
            let Some(mut task) = self.task(Kind::Yields(1)) else {
                break;
            };
            if awaited(&mut task, &self.waker) != Some(2) {
                break;
            }
            self.good.fetch_add(1, Ordering::SeqCst);
        }
        self.done.fetch_add(1, Ordering::SeqCst);
    }

    // Spawns and gives up tasks, and runs tasks, until all of them are over.
    fn spawns_and_ticks(&self, tasks: u64, all: u64) {
        for i in 0..tasks {
            let Some(task) = self.task(Kind::Ready(i)) else {
                return;
            };
            give_up(task, i % 2 == 0);
            self.ex.try_tick();
        }
        for _ in 0..turns() {
            if self.record.times(Moment::FutureDrop) >= all {
                return;
            }
            if !self.ex.try_tick() {
                yield_now();
            }
        }
    }

    // Spawns tasks and gives them up, and lets the other thread go on after each spawn.
    fn spawns_beside(&self) {
        for _ in 0..turns() {
            let Some(task) = self.task(Kind::Never) else {
                return;
            };
            self.halt.release();
            drop(task);
            self.ex.try_tick();
            if self.done.load(Ordering::SeqCst) > 0 || !self.halt.was_passed() {
                break;
            }
        }
        self.halt.open();
    }

    // Lets finished tasks go, whose outputs halt in their drop.
    fn lets_go(&self, tasks: &mut Vec<TestTask<R>>) {
        for i in 0..OUTPUTS {
            if let Some(task) = tasks.pop() {
                give_up(task, i % 2 == 0);
            }
        }
        self.done.fetch_add(1, Ordering::SeqCst);
    }
}

// A fixture, and a task of its executor that is ready with 7.
fn with_task<R: AllocGlobal + Wait + Clone + Drop + Send + Sync>(
    rt: &R,
) -> Result<(Fixture<R>, TestTask<R>), Fail> {
    let all = Fixture::new(rt)?;
    let future = all.future(Kind::Ready(7))?;
    let task = spawned(&all.ex, future)?;
    Ok((all, task))
}

// What the task gives in the end.
fn awaited<R: Wait + Clone + Drop + Send + Sync>(
    task: &mut TestTask<R>,
    waker: &TestWaker,
) -> Option<u64> {
    for _ in 0..turns() {
        match task.poll(waker) {
            Poll::Pending => yield_now(),
            Poll::Ready(Ok(output)) => return Some(output.number),
            Poll::Ready(Err(_)) => return None,
        }
    }
    None
}

// The same, after which its handle is dropped.
fn awaited_last<R: Wait + Clone + Drop + Send + Sync>(
    mut task: TestTask<R>,
    waker: &TestWaker,
) -> Option<u64> {
    awaited(&mut task, waker)
}

// Detaches the task, or drops its handle.
fn give_up<R: Wait + Clone + Drop + Send + Sync>(task: TestTask<R>, detaches: bool) {
    if detaches {
        task.detach();
    } else {
        drop(task);
    }
}

// Whether one of two threads alone ran the task, and what it gave.
fn run_by_one<R: AllocGlobal + Wait + Threads + Clone + Drop + Send + Sync>(
    rt: &R,
) -> Result<(bool, Option<u64>), Fail> {
    let (all, mut task) = with_task(rt)?;
    let (shared, handle) = (&all, &task);
    let (one, two) = thread::join(
        rt,
        || shared.ticks_to_end(handle),
        || shared.ticks_to_end(handle),
    );
    Ok((one != two, awaited(&mut task, &all.waker)))
}

#[test]
fn one_of_two_threads_runs_the_task(rt: HostRuntime) -> Result<(), Fail> {
    assert_eq!(rt; run_by_one(&rt)?, (true, Some(7)));
    Ok(())
}

// Whether this executor runs a task on another thread.
fn ticks_elsewhere<R: Wait + Threads + Clone + Drop + Send + Sync + 'static>(
    rt: &R,
    all: Fixture<R>,
) -> Result<bool, Fail> {
    Ok(thread::spawn(rt, move || all.ex.try_tick())?.join(rt))
}

// What the task of this handle gives on another thread.
fn awaited_elsewhere<R: AllocGlobal + Wait + Threads + Clone + Drop + Send + Sync + 'static>(
    rt: &R,
    task: TestTask<R>,
) -> Result<Option<u64>, Fail> {
    let waker = TestWaker::new(&Record::new(rt.alloc())?)?;
    Ok(thread::spawn(rt, move || awaited_last(task, &waker))?.join(rt))
}

// Whether a task is run where its executor is sent, and what it gives where its handle is sent.
fn sent<R: AllocGlobal + Wait + Threads + Clone + Drop + Send + Sync + 'static>(
    rt: &R,
) -> Result<(bool, Option<u64>), Fail> {
    let (all, task) = with_task(rt)?;
    Ok((ticks_elsewhere(rt, all)?, awaited_elsewhere(rt, task)?))
}

#[test]
fn an_executor_and_a_handle_are_sent(rt: HostRuntime) -> Result<(), Fail> {
    assert_eq!(rt; sent(&rt)?, (true, Some(7)));
    Ok(())
}

// Has two threads await tasks, and two run them.
fn await_beside<'x, R: Wait + Threads + Clone + Drop + Send + Sync>(
    rt: &'x R,
    all: &'x Fixture<R>,
) {
    thread::scope(thread::scope_env(), rt, |scope| {
        for _ in 0..2u8 {
            let _ = scope.spawn(move || all.ticks_until(2));
            let _ = scope.spawn(move || all.awaits_each(4_000));
        }
    });
}

// How many threads that await tasks are done beside those that run them, how many outputs they got,
// and whether no task is left.
fn awaited_beside<R: AllocGlobal + Wait + Threads + Clone + Drop + Send + Sync>(
    rt: &R,
) -> Result<(u64, u64, bool), Fail> {
    let all = Fixture::new(rt)?;
    await_beside(rt, &all);
    let done = all.done.load(Ordering::SeqCst);
    let good = all.good.load(Ordering::SeqCst);
    Ok((done, good, all.ex.is_empty()))
}

#[test]
fn no_output_is_lost_between_threads(rt: HostRuntime) -> Result<(), Fail> {
    assert_eq!(rt; awaited_beside(&rt)?, (2, 8_000, true));
    Ok(())
}

// Has each of four threads spawn tasks, and run tasks until all are over.
fn spawn_on_four<'x, R: Wait + Threads + Clone + Drop + Send + Sync>(
    rt: &'x R,
    all: &'x Fixture<R>,
) {
    thread::scope(thread::scope_env(), rt, |scope| {
        for _ in 0..4u8 {
            let _ = scope.spawn(move || all.spawns_and_ticks(2_500, 10_000));
        }
    });
}

// The record of the tasks of four threads, whether none is left, and whether one is scheduled.
fn run_by_four<R: AllocGlobal + Wait + Threads + Clone + Drop + Send + Sync>(
    rt: &R,
) -> Result<(Record, (bool, bool)), Fail> {
    let all = Fixture::new(rt)?;
    spawn_on_four(rt, &all);
    Ok((all.record.share()?, (all.ex.is_empty(), all.ex.try_tick())))
}

#[test]
fn each_task_of_four_threads_ends_once(rt: HostRuntime) -> Result<(), Fail> {
    // Each future was dropped, each that was polled gave an output that was dropped, and no task is
    // left, nor scheduled.
    let (record, left) = run_by_four(&rt)?;
    let polls = record.times(Moment::FuturePoll);
    let outputs = record.times(Moment::OutputDrop);
    let drops = record.times(Moment::FutureDrop);
    assert_eq!(rt; (drops, outputs, left), (10_000, polls, (true, false)));
    Ok(())
}

// How many outputs were dropped, and whether a spawn dropped none under a lock.
fn let_go_beside<R: AllocGlobal + Wait + Threads + Clone + Drop + Send + Sync>(
    rt: &R,
) -> Result<(u64, bool), Fail> {
    let all = Fixture::new(rt)?;
    let mut tasks = all.ended_tasks(OUTPUTS, rt.alloc())?;
    all.record.halt_at(Moment::OutputDrop);
    let (shared, handles) = (&all, &mut tasks);
    thread::join(
        rt,
        move || shared.lets_go(handles),
        move || shared.spawns_beside(),
    );
    Ok((all.record.times(Moment::OutputDrop), all.halt.was_passed()))
}

#[test]
fn an_output_of_a_handle_that_goes_is_not_left_to_a_spawn(rt: HostRuntime) -> Result<(), Fail> {
    assert_eq!(rt; let_go_beside(&rt)?, (OUTPUTS, true));
    Ok(())
}

// How many outputs are let go.
const OUTPUTS: u64 = 200;
