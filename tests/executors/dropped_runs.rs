//! Runs that four threads poll, drop and make anew, while they share the tasks of one executor.
use crate::tests::support::running::future::Until;
use crate::tests::support::running::record::Moment::{FutureDrop, FuturePoll};
use crate::tests::support::running::record::{AtDrop, Record};
use crate::tests::support::running::task::FutureWaker;
use crate::tests::support::running::waker::TestWaker;
use async_executor::{Executor, StaticExecutor};
use executor_core::task::{Future, Poll, Wake};
use std::alloc::Global;
use std::sync::atomic::{AtomicU64, Ordering};
use std::sync::{Arc, Wait};
use std::test::Fail;
use std::thread::{self, Threads};

const TASKS: u64 = 2_500;

// How often a thread polls at most.
const MOST_POLLS: u32 = 10_000_000;

// Wakes itself and stays pending at its first poll, and is ready at its second one, which is counted
// for all.
#[derive(Drop)]
struct Twice {
    was_polled: bool,
    ended: Arc<AtomicU64>,
    parts: AtDrop,
}

impl<R: Wait + Clone + Drop + Send + Sync> Future<FutureWaker<R>> for Twice {
    type Output = ();

    fn poll(&mut self, w: &FutureWaker<R>) -> Poll<()> {
        self.parts.record().meet(FuturePoll);
        if self.was_polled {
            self.ended.fetch_add(1, Ordering::SeqCst);
            return Poll::Ready(());
        }
        self.was_polled = true;
        w.wake();
        Poll::Pending
    }
}

// A future of each of the tasks, and its record.
fn futures(ended: &Arc<AtomicU64>, alloc: Global) -> Result<(Vec<Twice>, Vec<Record>), Fail> {
    let (mut futures, mut records) = (Vec::new(alloc), Vec::new(alloc));
    for _ in 0..TASKS {
        let record = Record::new(alloc)?;
        futures.push(Twice {
            was_polled: false,
            ended: Arc::try_clone(ended)?,
            parts: AtDrop::new(record.share()?, FutureDrop),
        })?;
        records.push(record)?;
    }
    Ok((futures, records))
}

// Polls an endless run, and another one after so many polls each, until all tasks have ended. Says
// whether they did in time.
macro_rules! is_driven {
    ($ex:expr, $ended:expr, $waker:expr, $polls:expr) => {{
        let mut left = MOST_POLLS;
        while left > 0 && $ended.load(Ordering::SeqCst) < TASKS {
            let endless = match Until::new($ended, u64::MAX) {
                Ok(endless) => endless,
                Err(_) => return false,
            };
            let mut run = match $ex.run(endless) {
                Ok(run) => run,
                Err(_) => return false,
            };
            let mut polls = 0u32;
            while polls < $polls && $ended.load(Ordering::SeqCst) < TASKS {
                run.poll($waker);
                polls += 1;
            }
            left = left.saturating_sub(polls);
        }
        $ended.load(Ordering::SeqCst) >= TASKS
    }};
}

// Whether four threads end all tasks by runs that each of them drops after so many polls; how many
// have ended; whether every future had two polls and one drop; and the text in the end.
macro_rules! driven {
    ($executor:ident, $rt:expr, $polls:expr) => {{
        let alloc = $rt.alloc();
        let ended = Arc::new(alloc, AtomicU64::new(0))?;
        let waker = TestWaker::new(&Record::new(alloc)?)?;
        let ex = $executor::<Twice, TestWaker, R>::new($rt.clone()?, alloc)?;
        let (futures, records) = futures(&ended, alloc)?;
        for future in futures {
            match ex.spawn(future) {
                Ok(task) => task.detach(),
                Err(_) => return Err("refused".into()),
            }
        }
        let one = || -> bool { is_driven!(ex, &ended, &waker, $polls) };
        let two = || thread::join($rt, one, one) == (true, true);
        let are_driven = thread::join($rt, two, two) == (true, true);
        let are_right = records
            .iter()
            .all(|record| record.times(FuturePoll) == 2 && record.times(FutureDrop) == 1);
        let text = format!(in alloc; "{ex:?}")?;
        (are_driven, ended.load(Ordering::SeqCst), are_right, text)
    }};
}

type Driven = (bool, u64, bool, String);

fn is_right(driven: &Driven, text: &str) -> bool {
    let (are_driven, ended, are_right, seen) = driven;
    *are_driven && *ended == TASKS && *are_right && seen.as_str() == text
}

fn shared<R: AllocGlobal + Wait + Threads + Clone + Drop + Send + Sync>(
    rt: &R,
    polls: u32,
) -> Result<Driven, Fail> {
    Ok(driven!(Executor, rt, polls))
}

fn of_static<R: AllocGlobal + Wait + Threads + Clone + Drop + Send + Sync>(
    rt: &R,
    polls: u32,
) -> Result<Driven, Fail> {
    Ok(driven!(StaticExecutor, rt, polls))
}

const SHARED: &str = "Executor { active: 0, global_tasks: 0, local_runners: [], sleepers: 0 }";

const STATIC: &str =
    "StaticExecutor { active: 0, global_tasks: 0, local_runners: [], sleepers: 0 }";

#[test]
fn each_run_is_dropped_after_a_hundred_polls(rt: HostRuntime) -> Result<(), Fail> {
    assert!(rt; is_right(&shared(&rt, 100)?, SHARED));
    assert!(rt; is_right(&of_static(&rt, 100)?, STATIC));
    Ok(())
}

// Each run leaves tasks in its queue.
#[test]
fn each_run_is_dropped_after_one_poll(rt: HostRuntime) -> Result<(), Fail> {
    assert!(rt; is_right(&shared(&rt, 1)?, SHARED));
    assert!(rt; is_right(&of_static(&rt, 1)?, STATIC));
    Ok(())
}
