//! What may cross threads. These functions only have to compile.
use async_executor::{Cancel, Executor, FallibleTask, Run, StaticExecutor, Task, TaskWaker, Tick};
use executor_core::task::{Future, Wake};
use priority_executor::{PriorityExecutor, PriorityTick};
use sharded_executor::ShardedExecutor;
use std::sync::Wait;

fn is_sent<T: Send>(_value: &T) {}

fn is_shared<T: Sync>(_value: &T) {}

/// An executor and its wakers may be sent and shared.
pub fn executor_crosses<
    F: Future<TaskWaker<W, R>> + Send,
    W: Wake + Send,
    R: Wait + Clone + Drop + Send + Sync,
>(ex: &Executor<F, W, R>, waker: &TaskWaker<W, R>)
where
    F::Output: Send,
{
    is_sent(ex);
    is_shared(ex);
    is_sent(waker);
    is_shared(waker);
}

/// So may one for as long as the program lives.
pub fn static_executor_crosses<
    F: Future<TaskWaker<W, R>> + Send,
    W: Wake + Send,
    R: Wait + Clone + Drop + Send + Sync,
>(ex: &StaticExecutor<F, W, R>)
where
    F::Output: Send,
{
    is_sent(ex);
    is_shared(ex);
}

/// So may its handles.
pub fn handles_cross<
    F: Future<TaskWaker<W, R>> + Send,
    W: Wake + Send,
    R: Wait + Clone + Drop + Send + Sync,
>(task: &Task<F, W, R>, cancel: &Cancel<F, W, R>, fallible: &FallibleTask<F, W, R>)
where
    F::Output: Send,
{
    is_sent(task);
    is_shared(task);
    is_sent(cancel);
    is_shared(cancel);
    is_sent(fallible);
    is_shared(fallible);
}

/// So may its ticks.
pub fn tick_crosses<
    F: Future<TaskWaker<W, R>> + Send,
    W: Wake + Send,
    R: Wait + Clone + Drop + Send + Sync,
>(tick: &Tick<'_, F, W, R>)
where
    F::Output: Send,
{
    is_sent(tick);
    is_shared(tick);
}

/// So may an executor with levels, and its ticks.
pub fn levels_cross<
    F: Future<TaskWaker<W, R>> + Send,
    W: Wake + Send,
    R: Wait + Clone + Drop + Send + Sync,
>(ex: &PriorityExecutor<F, W, R, 3>, tick: &PriorityTick<'_, F, W, R, 3>)
where
    F::Output: Send,
{
    is_sent(ex);
    is_shared(ex);
    is_sent(tick);
    is_shared(tick);
}

/// So may an executor with shards.
pub fn shards_cross<
    F: Future<TaskWaker<W, R>> + Send,
    W: Wake + Send,
    R: Wait + Clone + Drop + Send + Sync,
>(ex: &ShardedExecutor<F, W, R>)
where
    F::Output: Send,
{
    is_sent(ex);
    is_shared(ex);
}

/// A run may be sent if its own future may be.
pub fn run_is_sent<
    F: Future<TaskWaker<W, R>> + Send,
    W: Wake + Send,
    R: Wait + Clone + Drop + Send + Sync,
    G: Future<W> + Send,
>(run: &Run<'_, F, W, R, G>)
where
    F::Output: Send,
{
    is_sent(run);
}

/// A run may be shared if its own future may be.
pub fn run_is_shared<
    F: Future<TaskWaker<W, R>> + Send,
    W: Wake + Send,
    R: Wait + Clone + Drop + Send + Sync,
    G: Future<W> + Sync,
>(run: &Run<'_, F, W, R, G>)
where
    F::Output: Send,
{
    is_shared(run);
}
