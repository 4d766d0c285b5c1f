//! Each request for memory of an executor refused in turn: what was handed in comes back, all is as
//! before, and the same call goes well afterwards.
use crate::tests::support::running::future::Until;
use crate::tests::support::running::record::{Moment, Record};
use crate::tests::support::running::refusal::{MOST, ShortText, is_next_refused, is_order_left, refuse, text_of};
use crate::tests::support::running::waker::TestWaker;
use async_executor::runner::RandomGenerator;
use async_executor::{
    Executor, LocalExecutor, RunError, RunnerError, SpawnError, StaticExecutor, StaticLocalExecutor,
};
use executor_core::task::{Future, OutOfMemory, Poll, Wake};
use priority_executor::PriorityExecutor;
use sharded_executor::ShardedExecutor;
use std::fmt::Write;
use std::sync::atomic::{AtomicU64, Ordering};
use std::sync::{Arc, Wait};
use std::test::Fail;

// Without it no other test here could fail.
#[test]
fn requests_are_refused_by_order(rt: HostRuntime) -> Result<(), Fail> {
    let alloc = rt.alloc();
    refuse(alloc, 1);
    let first = [is_next_refused(alloc), is_next_refused(alloc)];
    refuse(alloc, 3);
    let third = [
        is_next_refused(alloc),
        is_next_refused(alloc),
        is_next_refused(alloc),
        is_next_refused(alloc),
    ];
    refuse(alloc, 2);
    refuse(alloc, 0);
    let left = is_order_left(alloc);
    assert_eq!(rt;
        (first, third, left),
        ([true, false], [false, false, true, false], false)
    );
    Ok(())
}

// Writes its number as a digit behind those of the tasks that ran before it.
#[derive(Drop)]
struct Numbered<'a> {
    number: u64,
    seen: &'a AtomicU64,
}

impl<W> Future<W> for Numbered<'_> {
    type Output = u64;

    fn poll(&mut self, _w: &W) -> Poll<u64> {
        self.seen.store(
            self.seen.load(Ordering::SeqCst) * 10 + self.number,
            Ordering::SeqCst,
        );
        Poll::Ready(self.number)
    }
}

// A future beside which a run runs tasks. It is never ready.
#[derive(Drop)]
struct Beside {
    number: u64,
}

impl<W> Future<W> for Beside {
    type Output = ();

    fn poll(&mut self, _w: &W) -> Poll<()> {
        Poll::Pending
    }
}

// How often each call was refused, and how often something was wrong.
#[derive(Clone, Copy, Debug, PartialEq, Eq)]
struct Met {
    new: u32,
    spawn: u32,
    spawn_many: u32,
    tick: u32,
    run: u32,
    wrong: u32,
}

impl Met {
    fn none() -> Met {
        Met {
            new: 0,
            spawn: 0,
            spawn_many: 0,
            tick: 0,
            run: 0,
            wrong: 0,
        }
    }

    fn expect(&mut self, holds: bool) {
        if !holds {
            self.wrong += 1;
        }
    }

    fn refusals(&self) -> u32 {
        self.new + self.spawn + self.spawn_many + self.tick + self.run
    }

    fn add(&mut self, other: Met) {
        self.new += other.new;
        self.spawn += other.spawn;
        self.spawn_many += other.spawn_many;
        self.tick += other.tick;
        self.run += other.run;
        self.wrong += other.wrong;
    }
}

// What a sweep meets: each request of the calls refused in turn, until none is. A call meets one
// refusal each time, and in the end nothing swallowed one.
macro_rules! sweep {
    ($alloc:expr, $once:expr) => {{
        let mut all = Met::none();
        let mut is_over = false;
        for request in 1..MOST {
            let mut met: Met = $once(request)?;
            let was_refused = met.refusals() > 0;
            met.expect(met.refusals() <= 1);
            met.expect(is_order_left($alloc) != was_refused);
            refuse($alloc, 0);
            all.add(met);
            if !was_refused {
                is_over = true;
                break;
            }
        }
        all.expect(is_over);
        all
    }};
}

// A call that is made again if it is refused, which it says of itself and nothing else; with the
// text of the executor as it was.
macro_rules! ticked {
    ($ex:expr, $met:expr) => {{
        let before = text_of!($ex);
        match $ex.tick() {
            Ok(tick) => tick,
            Err(OutOfMemory) => {
                $met.tick += 1;
                $met.expect(text_of!($ex) == before && before.is_some());
                $ex.tick()?
            }
        }
    }};
}

macro_rules! spawned {
    ($ex:expr, $met:expr, $number:expr, $seen:expr) => {{
        let before = text_of!($ex);
        let future = Numbered {
            number: $number,
            seen: $seen,
        };
        let again = match $ex.spawn(future) {
            Ok(task) => Ok(task),
            Err(SpawnError::OutOfMemory(future)) => {
                $met.spawn += 1;
                $met.expect(future.number == $number);
                $met.expect(text_of!($ex) == before && before.is_some());
                $ex.spawn(future)
            }
            Err(refused) => Err(refused),
        };
        match again {
            Ok(task) => task.detach(),
            Err(_) => $met.expect(false),
        }
    }};
}

macro_rules! run_made {
    ($ex:expr, $met:expr) => {{
        let before = text_of!($ex);
        let again = match $ex.run(Beside { number: 7 }) {
            Ok(run) => Ok(run),
            Err(RunError::OutOfMemory(future)) => {
                $met.run += 1;
                $met.expect(future.number == 7);
                $met.expect(text_of!($ex) == before && before.is_some());
                $ex.run(future)
            }
            Err(refused) => Err(refused),
        };
        match again {
            Ok(run) => run,
            Err(_) => return Err("refused again".into()),
        }
    }};
}

// An executor of this type is made, of which three ticks sleep; then tasks are spawned, and runs are
// made. Each tick runs a task, and the runs what is left, in the order in which they were spawned.
macro_rules! swept_once {
    ($executor:ident, $rt:expr, $request:expr) => {{
        let alloc = $rt.alloc();
        let mut met = Met::none();
        let seen = AtomicU64::new(0);
        let waker = TestWaker::new(&Record::new(alloc)?)?;
        let (one, two) = ($rt.clone()?, $rt.clone()?);
        refuse(alloc, $request);
        let ex = match $executor::<Numbered<'_>, TestWaker, R>::new(one, alloc) {
            Ok(ex) => ex,
            Err(OutOfMemory) => {
                met.new += 1;
                $executor::new(two, alloc)?
            }
        };
        let mut first = ticked!(ex, met);
        met.expect(first.poll(&waker) == Poll::Pending);
        let mut second = ticked!(ex, met);
        met.expect(second.poll(&waker) == Poll::Pending);
        let mut third = ticked!(ex, met);
        met.expect(third.poll(&waker) == Poll::Pending);
        for number in 1..8 {
            spawned!(ex, met, number, &seen);
        }
        let mut fourth = run_made!(ex, met);
        let mut fifth = run_made!(ex, met);
        let mut sixth = run_made!(ex, met);
        met.expect(third.poll(&waker) == Poll::Ready(()));
        met.expect(first.poll(&waker) == Poll::Ready(()));
        met.expect(second.poll(&waker) == Poll::Ready(()));
        met.expect(sixth.poll(&waker) == Poll::Pending);
        met.expect(fourth.poll(&waker) == Poll::Pending);
        met.expect(fifth.poll(&waker) == Poll::Pending);
        met.expect(seen.load(Ordering::SeqCst) == 1234567);
        met.expect(!ex.try_tick());
        Ok(met)
    }};
}

fn swept<R: AllocGlobal + Wait + Clone + Drop + Send + Sync>(rt: &R) -> Result<[Met; 4], Fail> {
    let alloc = rt.alloc();
    Ok([
        sweep!(alloc, |request| -> Result<Met, Fail> {
            swept_once!(Executor, rt, request)
        }),
        sweep!(alloc, |request| -> Result<Met, Fail> {
            swept_once!(LocalExecutor, rt, request)
        }),
        sweep!(alloc, |request| -> Result<Met, Fail> {
            swept_once!(StaticExecutor, rt, request)
        }),
        sweep!(alloc, |request| -> Result<Met, Fail> {
            swept_once!(StaticLocalExecutor, rt, request)
        }),
    ])
}

#[test]
fn each_call_of_the_four_executors_is_refused_and_goes_on(rt: HostRuntime) -> Result<(), Fail> {
    for met in swept(&rt)? {
        assert_eq!(rt; met.wrong, 0);
        assert!(rt; met.new > 0 && met.spawn > 1 && met.tick > 0 && met.run > 1);
    }
    Ok(())
}

// Ten tasks are spawned many at once, and what is left of them if that is refused. The iterator is
// one of them all, or one that is made of it.
macro_rules! many_once {
    ($executor:ident, $rt:expr, $request:expr $(, $made:ident ( $by:expr ))?) => {{
        let alloc = $rt.alloc();
        let mut met = Met::none();
        let (seen, asked) = (AtomicU64::new(0), AtomicU64::new(0));
        let ex = $executor::<Numbered<'_>, TestWaker, R>::new($rt.clone()?, alloc)?;
        let mut tasks = Vec::new(alloc);
        let numbered = |number| {
            asked.fetch_add(1, Ordering::SeqCst);
            Numbered {
                number,
                seen: &seen,
            }
        };
        refuse(alloc, $request);
        let spawned = match ex.spawn_many((0..10).map(numbered) $(.$made($by))?, &mut tasks) {
            Ok(spawned) => spawned,
            Err(refusal) => {
                met.spawn_many += 1;
                met.expect(refusal.cause == RunnerError::OutOfMemory);
                let spawned = refusal.spawned;
                let next = refusal.into_inner().map(|future| future.number);
                met.expect(next == Some(spawned as u64) || next.is_none());
                // One whose handle got no place was not asked for.
                let given = spawned as u64 + u64::from(next.is_some());
                met.expect(asked.load(Ordering::SeqCst) == given);
                spawned
            }
        };
        met.expect(tasks.len() == spawned);
        let left = ex.spawn_many((spawned as u64..10).map(numbered), &mut tasks);
        met.expect(left.is_ok_and(|left| left == 10 - spawned) && tasks.len() == 10);
        let mut ticks = 0;
        while ticks < 20 && ex.try_tick() {
            ticks += 1;
        }
        met.expect(ticks == 10 && seen.load(Ordering::SeqCst) == 123456789);
        met.expect(tasks.iter().all(|task| task.is_finished()));
        Ok(met)
    }};
}

// An iterator that does not say how many futures it gives, of which no room is made before.
fn swept_many<R: AllocGlobal + Wait + Clone + Drop + Send + Sync>(
    rt: &R,
) -> Result<[Met; 2], Fail> {
    let alloc = rt.alloc();
    Ok([
        sweep!(alloc, |request| -> Result<Met, Fail> {
            many_once!(Executor, rt, request, filter(|_| true))
        }),
        sweep!(alloc, |request| -> Result<Met, Fail> {
            many_once!(LocalExecutor, rt, request, filter(|_| true))
        }),
    ])
}

#[test]
fn ten_tasks_are_spawned_whatever_is_refused(rt: HostRuntime) -> Result<(), Fail> {
    for met in swept_many(&rt)? {
        assert!(rt; met.wrong == 0 && met.spawn_many > 3);
    }
    Ok(())
}

// If the room for all is refused, each task makes its own.
macro_rules! many_with_this_refused {
    ($executor:ident, $rt:expr, $request:expr) => {{
        let many = || -> Result<Met, Fail> { many_once!($executor, $rt, $request) };
        let mut met = many()?;
        met.expect(!is_order_left($rt.alloc()));
        met
    }};
}

fn many_with_this_refused<R: AllocGlobal + Wait + Clone + Drop + Send + Sync>(
    rt: &R,
    request: usize,
) -> Result<[Met; 2], Fail> {
    Ok([
        many_with_this_refused!(Executor, rt, request),
        many_with_this_refused!(LocalExecutor, rt, request),
    ])
}

#[test]
fn ten_tasks_are_spawned_though_the_room_for_all_is_refused(rt: HostRuntime) -> Result<(), Fail> {
    for request in 1..=3 {
        for met in many_with_this_refused(&rt, request)? {
            assert!(rt; met.wrong == 0 && met.spawn_many == 0);
        }
    }
    Ok(())
}

// Spawns a hundred tasks many at once, and has the request after so many be refused. Says how many were
// spawned, and whether that request was not made.
macro_rules! spawned_by_so_many_requests {
    ($executor:ident, $rt:expr, $requests:expr) => {{
        let alloc = $rt.alloc();
        let seen = AtomicU64::new(0);
        let numbered = |number| Numbered {
            number,
            seen: &seen,
        };
        let ex = $executor::<Numbered<'_>, TestWaker, R>::new($rt.clone()?, alloc)?;
        let mut tasks = Vec::new(alloc);
        refuse(alloc, $requests + 1);
        let spawned = ex.spawn_many((0..100).map(numbered), &mut tasks).ok();
        (spawned, is_order_left(alloc))
    }};
}

fn spawned_by_so_many_requests<R: AllocGlobal + Wait + Clone + Drop + Send + Sync>(
    rt: &R,
    requests: usize,
) -> Result<[(Option<usize>, bool); 2], Fail> {
    Ok([
        spawned_by_so_many_requests!(Executor, rt, requests),
        spawned_by_so_many_requests!(LocalExecutor, rt, requests),
    ])
}

#[test]
fn a_hundred_tasks_are_spawned_by_four_requests(rt: HostRuntime) -> Result<(), Fail> {
    assert_eq!(rt; spawned_by_so_many_requests(&rt, 4)?, [(Some(100), true); 2]);
    Ok(())
}

// The same of an executor with two levels, which has no text: a tick of all levels sleeps, and is woken
// by the first task, and a run runs the others.
fn priority_once<R: AllocGlobal + Wait + Clone + Drop + Send + Sync>(
    rt: &R,
    request: usize,
) -> Result<Met, Fail> {
    let alloc = rt.alloc();
    let mut met = Met::none();
    let seen = AtomicU64::new(0);
    let record = Record::new(alloc)?;
    let waker = TestWaker::new(&record)?;
    let (one, two) = (rt.clone()?, rt.clone()?);
    refuse(alloc, request);
    let ex = match PriorityExecutor::<Numbered<'_>, TestWaker, R, 2>::new(one, alloc) {
        Ok(ex) => ex,
        Err(OutOfMemory) => {
            met.new += 1;
            PriorityExecutor::new(two, alloc)?
        }
    };
    let mut tick = match ex.tick() {
        Ok(tick) => tick,
        Err(OutOfMemory) => {
            met.tick += 1;
            ex.tick()?
        }
    };
    met.expect(tick.poll(&waker) == Poll::Pending);
    for number in 1..8 {
        let level = number as usize % 2;
        let future = Numbered {
            number,
            seen: &seen,
        };
        met.expect(ex.is_empty() == (number == 1));
        let again = match ex.spawn(level, future) {
            Ok(task) => Ok(task),
            Err(SpawnError::OutOfMemory(future)) => {
                met.spawn += 1;
                met.expect(future.number == number && ex.is_empty() == (number == 1));
                ex.spawn(level, future)
            }
            Err(refused) => Err(refused),
        };
        match again {
            Ok(task) => task.detach(),
            Err(_) => met.expect(false),
        }
    }
    met.expect(tick.poll(&waker) == Poll::Ready(()));
    let again = match ex.run(Beside { number: 5 }) {
        Ok(run) => Ok(run),
        Err(RunError::OutOfMemory(own)) => {
            met.run += 1;
            met.expect(own.number == 5);
            ex.run(own)
        }
        Err(refused) => Err(refused),
    };
    match again {
        Ok(mut run) => met.expect(run.poll(&waker) == Poll::Pending),
        Err(_) => met.expect(false),
    }
    met.expect(seen.load(Ordering::SeqCst) == 2461357 && ex.is_empty());
    Ok(met)
}

fn swept_priority<R: AllocGlobal + Wait + Clone + Drop + Send + Sync>(rt: &R) -> Result<Met, Fail> {
    Ok(sweep!(rt.alloc(), |request| -> Result<Met, Fail> {
        priority_once(rt, request)
    }))
}

#[test]
fn each_call_of_the_priority_executor_is_refused_and_goes_on(rt: HostRuntime) -> Result<(), Fail> {
    let met = swept_priority(&rt)?;
    assert_eq!(rt; met.wrong, 0);
    assert!(rt; met.new > 2 && met.spawn > 3 && met.tick > 1 && met.run > 0);
    Ok(())
}

// The same of an executor with two shards: a run sleeps, and is woken by the first task. What is refused
// as the run goes to sleep is no request of its own: a `TestWaker` that cannot be copied has the run
// woken.
fn sharded_once<R: AllocGlobal + Wait + Clone + Drop + Send + Sync>(
    rt: &R,
    request: usize,
) -> Result<Met, Fail> {
    let alloc = rt.alloc();
    let mut met = Met::none();
    let seen = AtomicU64::new(0);
    let record = Record::new(alloc)?;
    let waker = TestWaker::new(&record)?;
    let (one, two) = (rt.clone()?, rt.clone()?);
    refuse(alloc, request);
    let ex = match ShardedExecutor::<Numbered<'_>, TestWaker, R>::new(one, alloc, 2) {
        Ok(ex) => ex,
        Err(OutOfMemory) => {
            met.new += 1;
            ShardedExecutor::new(two, alloc, 2)?
        }
    };
    let again = match ex.run(0, Beside { number: 5 }) {
        Ok(run) => Ok(run),
        Err(RunError::OutOfMemory(own)) => {
            met.run += 1;
            met.expect(own.number == 5);
            ex.run(0, own)
        }
        Err(refused) => Err(refused),
    };
    let Ok(mut run) = again else {
        return Err("the run was refused".into());
    };
    met.expect(run.poll(&waker) == Poll::Pending);
    met.expect(record.times(Moment::WakerWake) == 0);
    for number in 1..8 {
        let future = Numbered {
            number,
            seen: &seen,
        };
        met.expect(ex.is_empty() == (number == 1));
        let again = match ex.shard(1).spawn(future) {
            Ok(task) => Ok(task),
            Err(SpawnError::OutOfMemory(future)) => {
                met.spawn += 1;
                met.expect(future.number == number && ex.is_empty() == (number == 1));
                ex.shard(1).spawn(future)
            }
            Err(refused) => Err(refused),
        };
        match again {
            Ok(task) => task.detach(),
            Err(_) => met.expect(false),
        }
    }
    met.expect(record.times(Moment::WakerWake) == 1);
    met.expect(run.poll(&waker) == Poll::Pending);
    met.expect(seen.load(Ordering::SeqCst) == 1234567 && ex.is_empty());
    Ok(met)
}

fn swept_sharded<R: AllocGlobal + Wait + Clone + Drop + Send + Sync>(rt: &R) -> Result<Met, Fail> {
    Ok(sweep!(rt.alloc(), |request| -> Result<Met, Fail> {
        sharded_once(rt, request)
    }))
}

#[test]
fn each_call_of_the_sharded_executor_is_refused_and_goes_on(rt: HostRuntime) -> Result<(), Fail> {
    let met = swept_sharded(&rt)?;
    assert_eq!(rt; met.wrong, 0);
    assert!(rt; met.new > 4 && met.spawn > 3 && met.run > 4);
    Ok(())
}

// Says which of so many tasks was polled first, each by the number that it has.
#[derive(Drop)]
struct First<'a> {
    number: u64,
    first: &'a AtomicU64,
}

impl<W> Future<W> for First<'_> {
    type Output = ();

    fn poll(&mut self, _w: &W) -> Poll<()> {
        if self.first.load(Ordering::SeqCst) == 0 {
            self.first.store(self.number, Ordering::SeqCst);
        }
        Poll::Ready(())
    }
}

// Has three runs be left tasks in their queues, those of the first run of number 1 and so on, and a
// hundred runs be refused. Gives whether the text stays, the text, and of which run the next one steals.
macro_rules! after_refused_runs {
    ($executor:ident, $rt:expr) => {{
        let alloc = $rt.alloc();
        let first = AtomicU64::new(0);
        let waker = TestWaker::new(&Record::new(alloc)?)?;
        let ex = $executor::<First<'_>, TestWaker, R>::new($rt.clone()?, alloc)?;
        let endless = || Until::new(&Arc::new(alloc, AtomicU64::new(0))?, 1);
        let mut runs = Vec::new(alloc);
        for number in 1..4 {
            for _ in 0..300u32 {
                let future = First {
                    number,
                    first: &first,
                };
                match ex.spawn(future) {
                    Ok(task) => task.detach(),
                    Err(_) => return Err("refused".into()),
                }
            }
            let mut run = match ex.run(endless()?) {
                Ok(run) => run,
                Err(_) => return Err("refused".into()),
            };
            run.poll(&waker);
            while ex.try_tick() {}
            runs.push(run)?;
        }
        let before = text_of!(ex);
        let mut refused = 0u32;
        for _ in 0..100u32 {
            let own = endless()?;
            refuse(alloc, 1);
            if let Err(RunError::OutOfMemory(_)) = ex.run(own) {
                refused += 1;
            }
        }
        let after = text_of!(ex);
        first.store(0, Ordering::SeqCst);
        let mut run = match ex.run(endless()?) {
            Ok(run) => run,
            Err(_) => return Err("refused".into()),
        };
        run.poll(&waker);
        (refused, before == after, after, first.load(Ordering::SeqCst))
    }};
}

type AfterRefused = (u32, bool, Option<ShortText>, u64);

fn after_refused_runs<R: AllocGlobal + Wait + Clone + Drop + Send + Sync>(
    rt: &R,
) -> Result<[AfterRefused; 4], Fail> {
    Ok([
        after_refused_runs!(Executor, rt),
        after_refused_runs!(LocalExecutor, rt),
        after_refused_runs!(StaticExecutor, rt),
        after_refused_runs!(StaticLocalExecutor, rt),
    ])
}

const COUNTS: &str = "global_tasks: 0, local_runners: [82, 82, 82], sleepers: 0 }";

// The run after them has the number 3, by whose first word it steals from the second run. By that of
// number 103 it would steal from the third.
#[test]
fn a_hundred_refused_runs_leave_no_place_and_no_number_behind(rt: HostRuntime) -> Result<(), Fail> {
    let walks = (RandomGenerator::new(3).next() % 4, RandomGenerator::new(103).next() % 4);
    assert_eq!(rt; walks, (1, 2));
    for (refused, is_same, text, victim) in after_refused_runs(&rt)? {
        assert_eq!(rt; (refused, is_same, victim), (100, true, 2));
        assert!(rt; text.is_some_and(|text| text.ends_with(COUNTS)));
    }
    Ok(())
}
