//! Futures of two kinds on one executor.
use async_executor::{Executor, Future, Poll, Wake};
use async_utilities::{YieldNow, Zip, run_until};
use std::alloc::Global;
use std::io;
use std::sync::Wait;

/// One type for futures of two kinds, since an executor has futures of one type. Each gives its number.
#[derive(Drop)]
enum Job {
    Now(u64),
    Later(YieldNow, u64),
}

impl<W: Wake> Future<W> for Job {
    type Output = u64;

    fn poll(&mut self, w: &W) -> Poll<u64> {
        match self {
            Job::Now(number) => Poll::Ready(*number),
            Job::Later(pause, number) => match pause.poll(w) {
                Poll::Ready(()) => Poll::Ready(*number),
                Poll::Pending => Poll::Pending,
            },
        }
    }
}

/// Runs futures of two kinds on one executor.
pub fn mixes<R: Wait + Clone + Drop + Send + Sync>(
    rt: &R,
    alloc: Global,
) -> io::Result<(u64, u64)> {
    let executor = Executor::new(rt.clone()?, alloc)?;
    let later = executor.spawn(Job::Later(YieldNow::new(), 3))?;
    let now = executor.spawn(Job::Now(7))?;
    let (first, second) = run_until(rt, alloc, &executor, Zip::new(later, now))?;
    // (3, 7)
    Ok((first?, second?))
}
