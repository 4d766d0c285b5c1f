//! Tasks that are spawned many at once.
use crate::tests::support::running::future::{Ready, Until};
use crate::tests::support::running::line::Answer::{Gone, Pending};
use crate::tests::support::running::line::Line::{
    Count, Empty, HaltsAgain, MakeTick, ManyRan, Poll as PollBy, Returns, SpawnManyHalts, Tick,
    Ticks, Used,
};
use crate::tests::support::running::player::play;
use crate::tests::support::running::record::{Moment, Record};
use crate::tests::support::running::refusal::refuse;
use crate::tests::support::running::waiting::turns;
use crate::tests::support::running::waker::TestWaker;
use async_executor::{Cancelled, Executor, LocalExecutor};
use executor_core::task::{Future, Poll};
use std::alloc::Global;
use std::sync::atomic::{AtomicU64, Ordering};
use std::sync::{Arc, Wait};
use std::test::Fail;
use std::thread::{self, Threads, yield_now};

#[test]
fn an_iterator_is_asked_with_no_lock_held(rt: HostRuntime) -> Result<(), Fail> {
    play(
        &rt,
        &[
            SpawnManyHalts(1),
            Used,
            HaltsAgain,
            Used,
            ManyRan(1),
            Returns(Gone),
            Empty(true),
        ],
    )
}

#[test]
fn a_tick_is_woken_once_one_task_is_queued(rt: HostRuntime) -> Result<(), Fail> {
    play(
        &rt,
        &[
            MakeTick,
            PollBy(0, Pending),
            SpawnManyHalts(2),
            Count(0, Moment::WakerWake, 0),
            HaltsAgain,
            Count(0, Moment::WakerWake, 1),
            Tick(true),
            ManyRan(1),
            Returns(Gone),
            Ticks(1),
            ManyRan(2),
        ],
    )
}

// Awaits tasks in their order, the first of which is to give 1, and the others one more each. It is
// ready with the number of those that did.
#[derive(Drop)]
struct InOrder<T> {
    tasks: Vec<T>,
    answered: usize,
    right: u64,
}

impl<W, T: Future<W, Output = Result<u64, Cancelled>>> Future<W> for InOrder<T> {
    type Output = u64;

    fn poll(&mut self, w: &W) -> Poll<u64> {
        for place in self.answered..self.tasks.len() {
            let Some(task) = self.tasks.get_mut(place) else {
                break;
            };
            match task.poll(w) {
                Poll::Pending => return Poll::Pending,
                Poll::Ready(output) => {
                    self.answered = place + 1;
                    if output == Ok(self.answered as u64) {
                        self.right = self.right.saturating_add(1);
                    }
                }
            }
        }
        Poll::Ready(self.right)
    }
}

// Polls a run until it ends, within as many polls as a test may take.
fn driven<T: Future<TestWaker>>(mut run: T, waker: &TestWaker) -> Option<T::Output> {
    for _ in 0..turns() {
        if let Poll::Ready(output) = run.poll(waker) {
            return Some(output);
        }
        yield_now();
    }
    None
}

// Spawns ready futures of the numbers from 1 to this last one, and has a run await their handles in
// order. Gives how many were spawned, and how many gave the number of their place, counted from 1.
macro_rules! awaited {
    ($ex:expr, $last:expr, $waker:expr, $alloc:expr) => {{
        let mut tasks = Vec::new($alloc);
        let numbers = 1..$last + 1;
        let spawned = $ex
            .spawn_many(numbers.map(|number| Ready::new(number)), &mut tasks)
            .ok()?;
        let own = InOrder {
            tasks,
            answered: 0,
            right: 0,
        };
        (spawned, driven($ex.run(own).ok()?, $waker)?)
    }};
}

// The same on a new executor of this type.
macro_rules! awaited_alone {
    ($executor:ident, $rt:expr, $last:expr) => {{
        let alloc = $rt.alloc();
        let ex = $executor::<Ready<u64>, TestWaker, R>::new($rt.clone().ok()?, alloc).ok()?;
        let waker = TestWaker::new(&Record::new(alloc).ok()?).ok()?;
        awaited!(ex, $last, &waker, alloc)
    }};
}

// The same on both types of executors by which one spawns many at once.
fn awaited_alone<R: AllocGlobal + Wait + Clone + Drop + Send + Sync>(
    rt: &R,
    last: u64,
) -> Option<[(usize, u64); 2]> {
    Some([
        awaited_alone!(Executor, rt, last),
        awaited_alone!(LocalExecutor, rt, last),
    ])
}

const MANY: u64 = 5_000;

#[test]
fn each_handle_is_that_of_its_future(rt: HostRuntime) -> Result<(), Fail> {
    let none = awaited_alone(&rt, 0);
    let three = awaited_alone(&rt, 3);
    let many = awaited_alone(&rt, MANY);
    assert_eq!(rt;
        (none, three, many),
        (
            Some([(0, 0); 2]),
            Some([(3, 3); 2]),
            Some([(5_000, MANY); 2])
        )
    );
    Ok(())
}

type Numbers<R> = Executor<Ready<u64>, TestWaker, R>;

// Spawns and awaits many tasks on an executor that others may drive too.
fn awaited_on<R: Wait + Clone + Drop + Send + Sync>(
    ex: &Numbers<R>,
    waker: &TestWaker,
    alloc: Global,
) -> Option<(usize, u64)> {
    Some(awaited!(ex, MANY, waker, alloc))
}

// Drives a run until the tasks were awaited.
fn is_driven<R: Wait + Clone + Drop + Send + Sync>(
    ex: &Numbers<R>,
    awaited: &Arc<AtomicU64>,
    waker: &TestWaker,
) -> bool {
    let Ok(own) = Until::new(awaited, 1) else {
        return false;
    };
    match ex.run(own) {
        Ok(run) => driven(run, waker).is_some(),
        Err(_) => false,
    }
}

// Spawns and awaits tasks while four other threads drive runs.
fn awaited_beside_runs<R: AllocGlobal + Wait + Threads + Clone + Drop + Send + Sync>(
    rt: &R,
    ex: &Numbers<R>,
    waker: &TestWaker,
    is_awaited: &Arc<AtomicU64>,
) -> (Option<(usize, u64)>, bool) {
    let one = || is_driven(ex, is_awaited, waker);
    let two = || thread::join(rt, one, one) == (true, true);
    let (seen, driven) = thread::join(
        rt,
        || {
            let seen = awaited_on(ex, waker, rt.alloc());
            is_awaited.store(1, Ordering::SeqCst);
            seen
        },
        || thread::join(rt, two, two) == (true, true),
    );
    (seen, driven && ex.is_empty())
}

fn awaited_on_threads<R: AllocGlobal + Wait + Threads + Clone + Drop + Send + Sync>(
    rt: &R,
) -> Result<(Option<(usize, u64)>, bool), Fail> {
    let alloc = rt.alloc();
    let ex = Executor::new(rt.clone()?, alloc)?;
    let waker = TestWaker::new(&Record::new(alloc)?)?;
    let is_awaited = Arc::new(alloc, AtomicU64::new(0))?;
    Ok(awaited_beside_runs(rt, &ex, &waker, &is_awaited))
}

#[test]
fn four_runs_take_meanwhile(rt: HostRuntime) -> Result<(), Fail> {
    assert_eq!(rt; awaited_on_threads(&rt)?, (Some((5_000, MANY)), true));
    Ok(())
}

// How many futures an iterator gives whose every item spawns a task too, and whether each tick but
// the last one finds a task.
macro_rules! spawned_within {
    ($executor:ident, $rt:expr) => {{
        let ex = $executor::<Ready<u64>, TestWaker, R>::new($rt.clone()?, $rt.alloc())?;
        let mut tasks = Vec::new($rt.alloc());
        let futures = (0..2).map(|number| {
            if let Ok(task) = ex.spawn(Ready::new(number)) {
                task.detach();
            }
            Ready::new(number)
        });
        let spawned = ex.spawn_many(futures, &mut tasks).ok();
        let ticks = [
            ex.try_tick(),
            ex.try_tick(),
            ex.try_tick(),
            ex.try_tick(),
            ex.try_tick(),
        ];
        (spawned, ticks)
    }};
}

fn spawned_within<R: AllocGlobal + Wait + Clone + Drop + Send + Sync>(
    rt: &R,
) -> Result<[(Option<usize>, [bool; 5]); 2], Fail> {
    Ok([
        spawned_within!(Executor, rt),
        spawned_within!(LocalExecutor, rt),
    ])
}

#[test]
fn an_iterator_spawns_too(rt: HostRuntime) -> Result<(), Fail> {
    let wanted = (Some(2), [true, true, true, true, false]);
    assert_eq!(rt; spawned_within(&rt)?, [wanted; 2]);
    Ok(())
}

// Ready futures, of which it says that there are as many as there are, and maybe a thousand times as
// many.
#[derive(Drop)]
struct Counted {
    left: usize,
}

impl Iterator for Counted {
    type Item = Ready<u64>;

    fn next(&mut self) -> Option<Ready<u64>> {
        self.left = self.left.checked_sub(1)?;
        Some(Ready::new(7))
    }

    fn size_hint(&self) -> (usize, Option<usize>) {
        (self.left, Some(self.left.saturating_mul(1_000)))
    }
}

// How many tasks are spawned, whether the Vec has room for no more than twice as many handles, and whether
// the next spawn makes so many requests: the last of them is refused.
macro_rules! room_after {
    ($executor:ident, $rt:expr, $tasks:expr, $request:expr) => {{
        let alloc = $rt.alloc();
        let ex = $executor::<Ready<u64>, TestWaker, R>::new($rt.clone()?, alloc)?;
        let mut tasks = Vec::new(alloc);
        let spawned = ex.spawn_many(Counted { left: $tasks }, &mut tasks);
        refuse(alloc, $request);
        let next = ex.spawn(Ready::new(8));
        refuse(alloc, 0);
        (spawned.ok(), tasks.capacity() <= 2 * $tasks, next.is_err())
    }};
}

fn room_after<R: AllocGlobal + Wait + Clone + Drop + Send + Sync>(
    rt: &R,
    request: usize,
) -> Result<[(Option<usize>, bool, bool); 2], Fail> {
    Ok([
        room_after!(Executor, rt, 1_000, request),
        room_after!(LocalExecutor, rt, 1_000, request),
    ])
}

// Both the store and the table are full then, and grow by a request each.
#[test]
fn room_is_made_for_as_many_tasks_as_are_sure_to_come(rt: HostRuntime) -> Result<(), Fail> {
    assert_eq!(rt; room_after(&rt, 1)?, [(Some(1_000), true, true); 2]);
    assert_eq!(rt; room_after(&rt, 2)?, [(Some(1_000), true, true); 2]);
    assert_eq!(rt; room_after(&rt, 3)?, [(Some(1_000), true, false); 2]);
    Ok(())
}
