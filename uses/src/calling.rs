//! Two callers with contracts of their own.
ghost use Rattle.std.specs.Prelude.{◌≡◌, true, IfErr};
ghost use Rattle.async_executor.specs.Answers.{is_ready, IsReadyErr};

use async_executor::{Cancelled, Executor, Future, Poll, Task, TaskWaker, Wake};
use std::sync::Wait;

/// Spawns a future, and gives it back if memory is refused or no task number is left.
pub fn gives_back<F, W, R>(executor: &Executor<F, W, R>, future: F) -> Result<Task<F, W, R>, F>
where
    F: Future<TaskWaker<W, R>> + Send,
    F::Output: Send,
    W: Wake + Send,
    R: Wait + Clone + Drop + Send + Sync,
    ensures { IfErr result (λ back. back ≡ future) }
{
    match executor.spawn(future) {
        Ok(task) => Ok(task),
        Err(refused) => Err(refused.into_inner()),
    }
}

/// Asks the same handle twice. An output goes out once: the second answer is `Cancelled`.
pub fn asks_again<F, W, R>(
    task: &mut Task<F, W, R>,
    w: &W,
) -> (
    Poll<Result<F::Output, Cancelled>>,
    Poll<Result<F::Output, Cancelled>>,
)
where
    F: Future<TaskWaker<W, R>> + Send,
    F::Output: Send,
    W: Wake + Send,
    R: Wait + Clone + Drop + Send + Sync,
    ensures { is_ready result.0 ≡ true → IsReadyErr result.1 }
{
    let first = task.poll(w);
    let second = task.poll(w);
    (first, second)
}
