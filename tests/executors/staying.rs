//! Executors that stay on their thread.
use crate::tests::support::running::future::{Ready, Until};
use crate::tests::support::running::record::Record;
use crate::tests::support::running::task::granted;
use crate::tests::support::running::waker::TestWaker;
use async_executor::{LocalExecutor, StaticLocalExecutor, TaskWaker};
use executor_core::task::{Future, OutOfMemory, Poll, Wake};
use std::cell::Cell;
use std::rc::Rc;
use std::sync::atomic::AtomicU64;
use std::sync::{Arc, Wait};
use std::test::Fail;

// Counts its polls where others on its thread see them, and gives what cannot be sent.
#[derive(Drop)]
struct Counting<'a> {
    shared: Rc<Cell<u64>>,
    borrowed: &'a Cell<u64>,
}

impl<R: Wait + Clone + Drop> Future<TaskWaker<TestWaker, R>> for Counting<'_> {
    type Output = Rc<Cell<u64>>;

    fn poll(&mut self, _w: &TaskWaker<TestWaker, R>) -> Poll<Rc<Cell<u64>>> {
        self.borrowed.set(self.borrowed.get().saturating_add(1));
        self.shared.set(self.shared.get().saturating_add(2));
        match self.shared.clone() {
            Ok(shared) => Poll::Ready(shared),
            Err(_) => Poll::Pending,
        }
    }
}

// How often the future of a task was polled, and what its handle gives.
macro_rules! counted {
    ($executor:ident, $rt:expr) => {{
        let alloc = $rt.alloc();
        let borrowed = Cell::new(0);
        let ex = $executor::new($rt.clone()?, alloc)?;
        let shared = Rc::new(alloc, Cell::new(0))?;
        let mut task = granted(ex.spawn(Counting {
            shared,
            borrowed: &borrowed,
        }))?;
        ex.try_tick();
        let output = match task.poll(&TestWaker::new(&Record::new(alloc)?)?) {
            Poll::Ready(Ok(shared)) => Some(shared.get()),
            _ => None,
        };
        (borrowed.get(), output)
    }};
}

fn counted<R: AllocGlobal + Wait + Clone + Drop>(rt: &R) -> Result<[(u64, Option<u64>); 2], Fail> {
    Ok([
        counted!(LocalExecutor, rt),
        counted!(StaticLocalExecutor, rt),
    ])
}

#[test]
fn a_future_may_hold_what_cannot_be_sent(rt: HostRuntime) -> Result<(), Fail> {
    assert_eq!(rt; counted(&rt)?, [(1, Some(2)); 2]);
    Ok(())
}

// Counts how often it and its copies are woken, in what cannot be sent.
#[derive(Drop)]
struct StayingWaker {
    wakes: Rc<Cell<u64>>,
}

impl Wake for StayingWaker {
    fn wake(&self) {
        self.wakes.set(self.wakes.get().saturating_add(1));
    }

    fn copy(&self) -> Result<Self, OutOfMemory> {
        let wakes = self.wakes.clone()?;
        Ok(StayingWaker { wakes })
    }
}

// Whether a handle is pending before a tick and ready after it; and how often the waker that it was
// polled by was woken before the tick, after it, and in the end.
macro_rules! awaited {
    ($executor:ident, $rt:expr) => {{
        let wakes = Rc::new($rt.alloc(), Cell::new(0))?;
        let waker = StayingWaker {
            wakes: wakes.clone()?,
        };
        let ex = $executor::<Ready<u64>, StayingWaker, R>::new($rt.clone()?, $rt.alloc())?;
        let mut task = granted(ex.spawn(Ready::new(7)))?;
        let is_pending = task.poll(&waker) == Poll::Pending;
        let before = wakes.get();
        ex.try_tick();
        let after = wakes.get();
        let is_ready = task.poll(&waker) == Poll::Ready(Ok(7));
        ([is_pending, is_ready], [before, after, wakes.get()])
    }};
}

fn awaited<R: AllocGlobal + Wait + Clone + Drop>(
    rt: &R,
) -> Result<[([bool; 2], [u64; 3]); 2], Fail> {
    Ok([
        awaited!(LocalExecutor, rt),
        awaited!(StaticLocalExecutor, rt),
    ])
}

#[test]
fn a_waker_may_hold_what_cannot_be_sent(rt: HostRuntime) -> Result<(), Fail> {
    assert_eq!(rt; awaited(&rt)?, [([true, true], [0, 1, 1]); 2]);
    Ok(())
}

// Whether the endless runs of two executors are pending before a task of the first one is spawned;
// and whether that of the second one is pending then, and that of the first one after it, each with
// how often the task was polled by then.
type PolledByRuns = ([bool; 2], [(bool, u64); 2]);

macro_rules! polled_by_runs {
    ($executor:ident, $rt:expr) => {{
        let alloc = $rt.alloc();
        let polls = Cell::new(0);
        let one = $executor::<Counting<'_>, TestWaker, R>::new($rt.clone()?, alloc)?;
        let two = $executor::<Counting<'_>, TestWaker, R>::new($rt.clone()?, alloc)?;
        let never = Arc::new(alloc, AtomicU64::new(0))?;
        let mut own = granted(one.run(Until::new(&never, 1)?))?;
        let mut other = granted(two.run(Until::new(&never, 1)?))?;
        let waker = TestWaker::new(&Record::new(alloc)?)?;
        let before = [
            own.poll(&waker) == Poll::Pending,
            other.poll(&waker) == Poll::Pending,
        ];
        let shared = Rc::new(alloc, Cell::new(0))?;
        granted(one.spawn(Counting {
            shared,
            borrowed: &polls,
        }))?
        .detach();
        let by_other = (other.poll(&waker) == Poll::Pending, polls.get());
        let by_own = (own.poll(&waker) == Poll::Pending, polls.get());
        (before, [by_other, by_own])
    }};
}

fn polled_by_runs<R: AllocGlobal + Wait + Clone + Drop>(rt: &R) -> Result<[PolledByRuns; 2], Fail> {
    Ok([
        polled_by_runs!(LocalExecutor, rt),
        polled_by_runs!(StaticLocalExecutor, rt),
    ])
}

#[test]
fn two_executors_have_nothing_in_common(rt: HostRuntime) -> Result<(), Fail> {
    let wanted = ([true, true], [(true, 0), (true, 1)]);
    assert_eq!(rt; polled_by_runs(&rt)?, [wanted; 2]);
    Ok(())
}
