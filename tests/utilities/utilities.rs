//! What the futures, the signal and the waiting thread of `async_utilities` do.
use crate::tests::support::running::record::{Moment, Record};
use crate::tests::support::running::waker::TestWaker;
use async_executor::executor::{Cancelled, Executor, Task};
use async_utilities::{
    Change, Either, JoinAll, Map, Never, Or, Ready, Signal, ThreadWaker, Waiting, YieldNow, Zip,
    block_on, run_until,
};
use executor_core::task::{Future, Poll, Wake};
use std::alloc::Global;
use std::sync::Wait;
use std::test::Fail;
use std::thread::{self, Threads};

// A waker that nobody else has a share of.
fn new_waker(alloc: Global) -> Result<TestWaker, Fail> {
    Ok(TestWaker::new(&Record::new(alloc)?)?)
}

fn wakes(waker: &TestWaker) -> u64 {
    waker.record().times(Moment::WakerWake)
}

// What three polls answer, and how often the waker was woken after them.
fn polls<G: Future<TestWaker>>(
    alloc: Global,
    mut future: G,
) -> Result<([Poll<G::Output>; 3], u64), Fail> {
    let waker = new_waker(alloc)?;
    let answers = [
        future.poll(&waker),
        future.poll(&waker),
        future.poll(&waker),
    ];
    Ok((answers, wakes(&waker)))
}

#[test]
fn a_ready_gives_its_value_once(rt: HostRuntime) -> Result<(), Fail> {
    let answers = [Poll::Ready(7), Poll::Pending, Poll::Pending];
    assert_eq!(rt; polls(rt.alloc(), Ready::new(7))?, (answers, 0));
    Ok(())
}

#[test]
fn what_is_never_ready_wakes_nobody(rt: HostRuntime) -> Result<(), Fail> {
    let never: Never<u64> = Never::new();
    let answers = [Poll::Pending, Poll::Pending, Poll::Pending];
    assert_eq!(rt; polls(rt.alloc(), never)?, (answers, 0));
    Ok(())
}

#[test]
fn a_yield_wakes_once_and_is_ready_then(rt: HostRuntime) -> Result<(), Fail> {
    let answers = [Poll::Pending, Poll::Ready(()), Poll::Ready(())];
    assert_eq!(rt; polls(rt.alloc(), YieldNow::new())?, (answers, 1));
    Ok(())
}

// Puts a number before the output.
#[derive(Drop)]
struct Before(u64);

impl Change<u64> for Before {
    type Output = (u64, u64);

    ghost makes = { λ before output. (before.0, output) };

    fn change(self, output: u64) -> (u64, u64) {
        (self.0, output)
    }
}

#[test]
fn a_map_changes_the_output_once(rt: HostRuntime) -> Result<(), Fail> {
    let answers = [Poll::Ready((2, 7)), Poll::Pending, Poll::Pending];
    assert_eq!(rt; polls(rt.alloc(), Map::new(Ready::new(7), Before(2)))?, (answers, 0));
    Ok(())
}

type Kind = Either<Ready<u64>, Never<u64>>;

#[test]
fn either_is_the_kind_that_it_was_made_of(rt: HostRuntime) -> Result<(), Fail> {
    let (left, _) = polls(rt.alloc(), Kind::Left(Ready::new(7)))?;
    let (right, _) = polls(rt.alloc(), Kind::Right(Never::new()))?;
    let wanted = [Poll::Ready(7), Poll::Pending, Poll::Pending];
    let pending = [Poll::Pending, Poll::Pending, Poll::Pending];
    assert_eq!(rt; (left, right), (wanted, pending));
    Ok(())
}

#[test]
fn a_zip_keeps_the_first_output_until_the_second_is_there(rt: HostRuntime) -> Result<(), Fail> {
    let zip = Zip::new(Ready::new(7), YieldNow::new());
    let answers = [Poll::Pending, Poll::Ready((7, ())), Poll::Pending];
    assert_eq!(rt; polls(rt.alloc(), zip)?, (answers, 1));
    Ok(())
}

#[test]
fn the_left_one_of_two_ready_ones_is_first(rt: HostRuntime) -> Result<(), Fail> {
    let answers = [Poll::Ready(1), Poll::Pending, Poll::Pending];
    assert_eq!(rt; polls(rt.alloc(), Or::new(Ready::new(1), Ready::new(2)))?, (answers, 0));
    Ok(())
}

#[test]
fn the_right_one_of_two_is_first_if_it_alone_is_ready(rt: HostRuntime) -> Result<(), Fail> {
    let answers = [Poll::Ready(2), Poll::Pending, Poll::Pending];
    assert_eq!(rt; polls(rt.alloc(), Or::new(Never::new(), Ready::new(2)))?, (answers, 0));
    Ok(())
}

// Ready with its number at this poll. It asks for each of the polls before.
#[derive(Drop)]
struct After {
    polls: u64,
    number: u64,
}

impl<W: Wake> Future<W> for After {
    type Output = u64;

    fn poll(&mut self, w: &W) -> Poll<u64> {
        if self.polls == 0 {
            return Poll::Ready(self.number);
        }
        self.polls = self.polls.saturating_sub(1);
        w.wake();
        Poll::Pending
    }
}

// Three tasks, of which the last one ends first.
fn three_tasks<W: Wake + Send, R: Wait + Clone + Drop + Send + Sync>(
    executor: &Executor<After, W, R>,
    alloc: Global,
) -> Result<Vec<Task<After, W, R>>, Fail> {
    let mut tasks = Vec::new(alloc);
    for number in 0..3 {
        let polls = 3 - number;
        match executor.spawn(After { polls, number }) {
            Ok(task) => tasks.push(task)?,
            Err(_) => return Err("refused".into()),
        }
    }
    Ok(tasks)
}

// Runs three tasks on this thread, and gives their outputs, in order.
fn joined<R: AllocGlobal + Wait + Clone + Drop + Send + Sync>(
    rt: &R,
) -> Result<Vec<Result<u64, Cancelled>>, Fail> {
    let executor = Executor::new(rt.clone()?, rt.alloc())?;
    let tasks = three_tasks(&executor, rt.alloc())?;
    let Ok(all) = JoinAll::new(rt.alloc(), tasks) else {
        return Err("no memory for the outputs".into());
    };
    let Ok(mut run) = executor.run(all) else {
        return Err("no memory for a run".into());
    };
    let waker = ThreadWaker::new(rt.alloc())?;
    for _ in 0..10 {
        if let Poll::Ready(outputs) = run.poll(&waker) {
            return Ok(outputs);
        }
    }
    Err("it is not ready".into())
}

#[test]
fn all_outputs_come_in_the_order_of_their_handles(rt: HostRuntime) -> Result<(), Fail> {
    let outputs = joined(&rt)?;
    assert!(rt; outputs.as_slice() == [Ok(0), Ok(1), Ok(2)].as_slice());
    Ok(())
}

// Awaits the first of three tasks, which ends last, and runs the others meanwhile. Gives its output, and
// whether all have ended.
fn awaited<R: AllocGlobal + Wait + Clone + Drop + Send + Sync>(
    rt: &R,
) -> Result<(Result<u64, Cancelled>, bool), Fail> {
    let executor = Executor::new(rt.clone()?, rt.alloc())?;
    let mut tasks = three_tasks(&executor, rt.alloc())?;
    let first = tasks.remove(0);
    let Ok(output) = run_until(rt, rt.alloc(), &executor, first) else {
        return Err("no memory for a run".into());
    };
    Ok((output, executor.is_empty()))
}

#[test]
fn a_thread_runs_tasks_until_its_future_is_ready(rt: HostRuntime) -> Result<(), Fail> {
    assert_eq!(rt; awaited(&rt)?, (Ok(0), true));
    Ok(())
}

#[test]
fn all_of_none_is_ready_at_once(rt: HostRuntime) -> Result<(), Fail> {
    let none: Vec<Ready<u64>> = Vec::new(rt.alloc());
    let Ok(mut all) = JoinAll::new(rt.alloc(), none) else {
        return Err("no memory for the outputs".into());
    };
    let waker = new_waker(rt.alloc())?;
    let is_empty = match all.poll(&waker) {
        Poll::Ready(outputs) => outputs.is_empty(),
        Poll::Pending => false,
    };
    assert!(rt; is_empty && all.poll(&waker) == Poll::Pending);
    Ok(())
}

type Stop<R> = Signal<TestWaker, R>;

// Polls one that waits for a signal before it is set, again after that, and once more, beside one that
// is dropped before and one that begins after. Gives the answers, and how often each waker was woken,
// and how often the wakers of the one that was dropped were dropped.
fn waits<R: AllocGlobal + Wait + Clone + Drop>(rt: &R) -> Result<([Poll<()>; 4], [u64; 3]), Fail> {
    let (waker, other) = (new_waker(rt.alloc())?, new_waker(rt.alloc())?);
    let stop = Stop::new(rt.clone()?, rt.alloc())?;
    let (mut waiting, mut gone) = (stop.waiting()?, stop.waiting()?);
    let first = waiting.poll(&waker);
    gone.poll(&other);
    drop(gone);
    stop.set();
    stop.set();
    let (second, third) = (waiting.poll(&waker), waiting.poll(&waker));
    let late = stop.waiting()?.poll(&other);
    let drops = other.record().times(Moment::WakerDrop);
    Ok(([first, second, third, late], [wakes(&waker), wakes(&other), drops]))
}

#[test]
fn a_signal_wakes_each_that_waits_once_and_stays_set(rt: HostRuntime) -> Result<(), Fail> {
    let answers = [Poll::Pending, Poll::Ready(()), Poll::Ready(()), Poll::Ready(())];
    assert_eq!(rt; waits(&rt)?, (answers, [1, 0, 1]));
    Ok(())
}

// Polls one that waits twice, by two wakers, and sets the signal. Gives how often each was woken.
fn changes_waker<R: AllocGlobal + Wait + Clone + Drop>(rt: &R) -> Result<[u64; 2], Fail> {
    let (waker, other) = (new_waker(rt.alloc())?, new_waker(rt.alloc())?);
    let stop = Stop::new(rt.clone()?, rt.alloc())?;
    let mut waiting = stop.waiting()?;
    waiting.poll(&waker);
    waiting.poll(&other);
    stop.copy()?.set();
    Ok([wakes(&waker), wakes(&other)])
}

#[test]
fn a_signal_wakes_the_waker_of_the_last_poll(rt: HostRuntime) -> Result<(), Fail> {
    assert_eq!(rt; changes_waker(&rt)?, [0, 1]);
    Ok(())
}

// Polls one that waits by a waker that refuses to be copied. Gives the answer, and how often it was
// woken before the signal is set, and after it.
fn refuses<R: AllocGlobal + Wait + Clone + Drop>(rt: &R) -> Result<(Poll<()>, [u64; 2]), Fail> {
    let waker = new_waker(rt.alloc())?;
    let stop = Stop::new(rt.clone()?, rt.alloc())?;
    let mut waiting = stop.waiting()?;
    waker.record().refuse();
    let answer = waiting.poll(&waker);
    let before = wakes(&waker);
    stop.set();
    Ok((answer, [before, wakes(&waker)]))
}

#[test]
fn one_that_waits_asks_again_if_no_copy_is_to_be_had(rt: HostRuntime) -> Result<(), Fail> {
    assert_eq!(rt; refuses(&rt)?, (Poll::Pending, [1, 1]));
    Ok(())
}

// A thread waits for a signal that another one sets. Says whether it was set then.
fn crosses<R: AllocGlobal + Wait + Threads + Clone + Drop + Send + Sync>(
    rt: &R,
) -> Result<bool, Fail> {
    let stop = Signal::new(rt.clone()?, rt.alloc())?;
    let waiting = stop.waiting()?;
    let (waited, ()) = thread::join(rt, || block_on(rt, rt.alloc(), waiting), || stop.set());
    waited?;
    Ok(stop.is_set())
}

#[test]
fn a_thread_waits_for_what_another_one_sets(rt: HostRuntime) -> Result<(), Fail> {
    for _ in 0..100 {
        assert!(rt; crosses(&rt)?);
    }
    Ok(())
}
