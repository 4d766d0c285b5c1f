//! Runs beside a future that awaits a task of the executor.
use crate::tests::support::running::future::Ready;
use crate::tests::support::running::record::{Moment, Record};
use crate::tests::support::running::task::granted;
use crate::tests::support::running::waker::TestWaker;
use async_executor::{Cancelled, Executor, LocalExecutor, StaticExecutor, StaticLocalExecutor};
use executor_core::task::{Future, Poll};
use std::alloc::Global;
use std::sync::Wait;
use std::test::Fail;

// Gives twice what a task gives.
#[derive(Drop)]
struct Twice<G> {
    task: G,
}

impl<W, G: Future<W, Output = Result<u64, Cancelled>>> Future<W> for Twice<G> {
    type Output = Result<u64, Cancelled>;

    fn poll(&mut self, w: &W) -> Poll<Result<u64, Cancelled>> {
        match self.task.poll(w) {
            Poll::Ready(Ok(number)) => Poll::Ready(Ok(number.saturating_mul(2))),
            other => other,
        }
    }
}

// What a run gives at its second poll, if it was woken in the first one.
fn given_by<T: Future<TestWaker>>(mut run: T, alloc: Global) -> Result<Option<T::Output>, Fail> {
    let waker = TestWaker::new(&Record::new(alloc)?)?;
    let first = run.poll(&waker);
    let is_woken = waker.record().times(Moment::WakerWake) == 1;
    Ok(match (first, run.poll(&waker)) {
        (Poll::Pending, Poll::Ready(output)) if is_woken => Some(output),
        _ => None,
    })
}

// What a run gives beside a future that doubles what a task gives, and beside its handle.
type Given = [Option<Result<u64, Cancelled>>; 2];

macro_rules! awaits {
    ($executor:ident, $rt:expr) => {{
        let alloc = $rt.alloc();
        let ex = $executor::<Ready<u64>, TestWaker, R>::new($rt.clone()?, alloc)?;
        let task = granted(ex.spawn(Ready::new(1 + 2)))?;
        let twice = given_by(granted(ex.run(Twice { task }))?, alloc)?;
        let task = granted(ex.spawn(Ready::new(1 + 2)))?;
        [twice, given_by(granted(ex.run(task))?, alloc)?]
    }};
}

fn awaits<R: AllocGlobal + Wait + Clone + Drop + Send + Sync>(rt: &R) -> Result<[Given; 4], Fail> {
    Ok([
        awaits!(Executor, rt),
        awaits!(LocalExecutor, rt),
        awaits!(StaticExecutor, rt),
        awaits!(StaticLocalExecutor, rt),
    ])
}

#[test]
fn a_run_awaits_a_task(rt: HostRuntime) -> Result<(), Fail> {
    let wanted = [Some(Ok(6)), Some(Ok(3))];
    assert_eq!(rt; awaits(&rt)?, [wanted; 4]);
    Ok(())
}
