//! What an executor shares with its handles and wakers goes with the last of them: no call keeps a share
//! of it.
use crate::tests::support::running::future::Kind::LeavesWaker;
use crate::tests::support::running::future::WakerPlace;
use crate::tests::support::running::record::Record;
use crate::tests::support::running::task::TaskFuture;
use crate::tests::support::running::waker::TestWaker;
use async_executor::{Executor, LocalExecutor};
use executor_core::task::{Future, Poll, Wake};
use std::alloc::AllocError;
use std::sync::{Arc, Wait};
use std::test::Fail;

// Goes with a right to wait. What an executor shares has it, and all of its copies have shares of one
// value.
#[derive(Drop)]
struct Right {
    share: Arc<u64>,
}

impl Right {
    fn of(value: &Arc<u64>) -> Result<Right, AllocError> {
        Ok(Right {
            share: Arc::try_clone(value)?,
        })
    }
}

impl Clone for Right {
    fn clone(&self) -> Result<Right, AllocError> {
        Right::of(&self.share)
    }
}

// Whether every right is gone once these are: an executor of this type, the handle of a task on it, its
// waker, and a copy of that, by which the task was woken.
macro_rules! is_let_go {
    ($executor:ident, $rt:expr) => {{
        let alloc = $rt.alloc();
        let mut value = Arc::new(alloc, 0u64)?;
        let right = ($rt.clone()?, Right::of(&value)?);
        let place = WakerPlace::new(alloc)?;
        let record = Record::new(alloc)?;
        let waker = TestWaker::new(&record)?;
        let ex = $executor::<TaskFuture<(R, Right)>, TestWaker, (R, Right)>::new(right, alloc)?;
        let Ok(mut task) = ex.spawn(TaskFuture::new(LeavesWaker(1), place.share()?, &record)?) else {
            return Err("refused".into());
        };
        ex.try_tick();
        task.poll(&waker);
        let left = place.take();
        let copy = left.as_ref().map(|left| left.copy());
        if let Some(Ok(copy)) = &copy {
            copy.wake();
        }
        let is_ended = ex.try_tick() && matches!(task.poll(&waker), Poll::Ready(_));
        let is_shared = Arc::get_mut(&mut value).is_none();
        drop(ex);
        drop(task);
        drop(left);
        drop(copy);
        [is_ended, is_shared, Arc::get_mut(&mut value).is_some()]
    }};
}

fn are_let_go<R: AllocGlobal + Wait + Clone + Drop + Send + Sync>(
    rt: &R,
) -> Result<[[bool; 3]; 2], Fail> {
    Ok([is_let_go!(Executor, rt), is_let_go!(LocalExecutor, rt)])
}

#[test]
fn a_copy_of_a_waker_has_one_share(rt: HostRuntime) -> Result<(), Fail> {
    assert_eq!(rt; are_let_go(&rt)?, [[true; 3]; 2]);
    Ok(())
}
