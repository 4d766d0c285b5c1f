//! The five kinds of executors that a test is played on.
use super::future::{Output, TestFuture};
use super::line::Answer;
use super::shards::Shards;
use super::task::TaskFuture;
use super::waker::TestWaker;
use async_executor::{
    Cancel, Executor, FallibleTask, Limits, LocalCancel, LocalExecutor, LocalFallibleTask, LocalRun,
    LocalTask, LocalTick, Run, StaticExecutor, StaticLocalExecutor, Task, Tick,
};
use executor_core::task::{Future, Poll};
use sharded_executor::ShardedRun;
use std::alloc::Global;
use std::rc::Rc;
use std::sync::{Arc, Wait};
use std::test::Fail;

/// The future beside which a run of a test runs tasks.
pub type OwnFuture = TestFuture<TestWaker>;

/// A tick or a run of a kind of executors, with the types that go with it. Who uses it need not name
/// how long its executor lives.
pub trait Kind<R: Wait + Clone + Drop + Send + Sync>: Drop + Sized {
    /// A share of an executor.
    type Share: Drop;

    type Task: Drop;

    type Cancel: Drop;

    type Fallible: Drop;

    /// A new executor, with these limits if there are any.
    fn new(rt: R, alloc: Global, limits: Option<Limits>) -> Result<Self::Share, Fail>;

    /// Another share of it.
    fn share(ex: &Self::Share) -> Result<Self::Share, Fail>;

    fn try_tick(ex: &Self::Share) -> bool;

    fn try_tick_any(ex: &Self::Share) -> bool;

    fn is_empty(ex: &Self::Share) -> bool;

    /// Whether its drop cancels what is left.
    fn is_closed_by_drop() -> bool;

    /// The name of the type of executors.
    fn name() -> &'static str;

    /// The text of the executor.
    fn text(ex: &Self::Share, alloc: Global) -> Result<String, Fail>;

    fn spawn(ex: &Self::Share, future: TaskFuture<R>) -> Result<Self::Task, Fail>;

    /// A tick of this executor, whose share of it is never dropped.
    fn tick(ex: &Self::Share, alloc: Global) -> Result<Self, Fail>;

    /// A run of this executor beside this future. Its share of the executor is never dropped.
    fn run(ex: &Self::Share, own: OwnFuture, alloc: Global) -> Result<Self, Fail>;

    /// What a poll of it answers, and the output of a run's own future.
    fn poll(&mut self, w: &TestWaker) -> (Answer, Option<Output>);

    fn poll_task(task: &mut Self::Task, w: &TestWaker) -> Poll<Option<Output>>;

    fn poll_cancel(cancel: &mut Self::Cancel, w: &TestWaker) -> Poll<Option<Output>>;

    fn poll_fallible(fallible: &mut Self::Fallible, w: &TestWaker) -> Poll<Option<Output>>;

    fn is_finished(task: &Self::Task) -> bool;

    fn is_fallible_finished(fallible: &Self::Fallible) -> bool;

    fn cancel(task: Self::Task) -> Self::Cancel;

    fn cancel_fallible(fallible: Self::Fallible) -> Self::Cancel;

    fn fallible(task: Self::Task) -> Self::Fallible;

    fn detach(task: Self::Task);

    fn detach_fallible(fallible: Self::Fallible);
}

/// A tick or a run of an executor.
#[derive(Drop)]
pub enum Ticker<'a, R: Wait + Clone + Drop + Send + Sync> {
    Tick(Tick<'a, TaskFuture<R>, TestWaker, R>),
    Run(Run<'a, TaskFuture<R>, TestWaker, R, OwnFuture>),
}

/// A tick or a run of a local executor.
#[derive(Drop)]
pub enum LocalTicker<'a, R: Wait + Clone + Drop + Send + Sync> {
    Tick(LocalTick<'a, TaskFuture<R>, TestWaker, R>),
    Run(LocalRun<'a, TaskFuture<R>, TestWaker, R, OwnFuture>),
}

/// A tick or a run of a static executor.
#[derive(Drop)]
pub enum StaticTicker<'a, R: Wait + Clone + Drop + Send + Sync> {
    Tick(Tick<'a, TaskFuture<R>, TestWaker, R>),
    Run(Run<'a, TaskFuture<R>, TestWaker, R, OwnFuture>),
}

/// A tick or a run of a static local executor.
#[derive(Drop)]
pub enum StaticLocalTicker<'a, R: Wait + Clone + Drop + Send + Sync> {
    Tick(LocalTick<'a, TaskFuture<R>, TestWaker, R>),
    Run(LocalRun<'a, TaskFuture<R>, TestWaker, R, OwnFuture>),
}

/// A tick of the only shard of a sharded executor, or a run of that executor.
#[derive(Drop)]
pub enum ShardedTicker<'a, R: Wait + Clone + Drop + Send + Sync> {
    Tick(Tick<'a, TaskFuture<R>, TestWaker, R>),
    Run(ShardedRun<'a, TaskFuture<R>, TestWaker, R, OwnFuture>),
}

// Makes a ticker that of a kind, by the types that go with it, the name that the text of its executor
// begins with, and whether the drop of its executor closes that.
macro_rules! is_kind {
    ($ticker:ident, $executor:ident, $rc:ident, $share:expr, $task:ident, $cancel:ident, $fallible:ident, $name:expr, $closes:expr) => {
        impl<'a, R: Wait + Clone + Drop + Send + Sync> Kind<R> for $ticker<'a, R> {
            type Share = $rc<$executor<TaskFuture<R>, TestWaker, R>>;

            type Task = $task<TaskFuture<R>, TestWaker, R>;

            type Cancel = $cancel<TaskFuture<R>, TestWaker, R>;

            type Fallible = $fallible<TaskFuture<R>, TestWaker, R>;

            fn new(rt: R, alloc: Global, limits: Option<Limits>) -> Result<Self::Share, Fail> {
                let executor = match limits {
                    None => $executor::new(rt, alloc)?,
                    Some(limits) => $executor::new_with(rt, alloc, limits)?,
                };
                Ok($rc::new(alloc, executor)?)
            }

            fn share(ex: &Self::Share) -> Result<Self::Share, Fail> {
                Ok($share(ex)?)
            }

            fn try_tick(ex: &Self::Share) -> bool {
                ex.try_tick()
            }

            fn try_tick_any(ex: &Self::Share) -> bool {
                ex.try_tick_any()
            }

            fn is_empty(ex: &Self::Share) -> bool {
                ex.is_empty()
            }

            fn is_closed_by_drop() -> bool {
                $closes
            }

            fn name() -> &'static str {
                $name
            }

            fn text(ex: &Self::Share, alloc: Global) -> Result<String, Fail> {
                Ok(format!(in alloc; "{ex:?}")?)
            }

            fn spawn(ex: &Self::Share, future: TaskFuture<R>) -> Result<Self::Task, Fail> {
                match ex.spawn(future) {
                    Ok(task) => Ok(task),
                    Err(_) => Err("refused".into()),
                }
            }

            fn tick(ex: &Self::Share, alloc: Global) -> Result<Self, Fail> {
                let share: &'a Self::Share = Box::leak(Box::new(alloc, Self::share(ex)?)?);
                Ok($ticker::Tick(share.tick()?))
            }

            fn run(ex: &Self::Share, own: OwnFuture, alloc: Global) -> Result<Self, Fail> {
                let share: &'a Self::Share = Box::leak(Box::new(alloc, Self::share(ex)?)?);
                match share.run(own) {
                    Ok(run) => Ok($ticker::Run(run)),
                    Err(_) => Err("no memory for a run".into()),
                }
            }

            fn poll(&mut self, w: &TestWaker) -> (Answer, Option<Output>) {
                match self {
                    $ticker::Tick(tick) => match tick.poll(w) {
                        Poll::Ready(()) => (Answer::Ticked, None),
                        Poll::Pending => (Answer::Pending, None),
                    },
                    $ticker::Run(run) => match run.poll(w) {
                        Poll::Ready(output) => (Answer::Output(output.number), Some(output)),
                        Poll::Pending => (Answer::Pending, None),
                    },
                }
            }

            fn poll_task(task: &mut Self::Task, w: &TestWaker) -> Poll<Option<Output>> {
                match task.poll(w) {
                    Poll::Ready(answer) => Poll::Ready(answer.ok()),
                    Poll::Pending => Poll::Pending,
                }
            }

            fn poll_cancel(cancel: &mut Self::Cancel, w: &TestWaker) -> Poll<Option<Output>> {
                cancel.poll(w)
            }

            fn poll_fallible(
                fallible: &mut Self::Fallible,
                w: &TestWaker,
            ) -> Poll<Option<Output>> {
                fallible.poll(w)
            }

            fn is_finished(task: &Self::Task) -> bool {
                task.is_finished()
            }

            fn is_fallible_finished(fallible: &Self::Fallible) -> bool {
                fallible.is_finished()
            }

            fn cancel(task: Self::Task) -> Self::Cancel {
                task.cancel()
            }

            fn cancel_fallible(fallible: Self::Fallible) -> Self::Cancel {
                fallible.cancel()
            }

            fn fallible(task: Self::Task) -> Self::Fallible {
                task.fallible()
            }

            fn detach(task: Self::Task) {
                task.detach();
            }

            fn detach_fallible(fallible: Self::Fallible) {
                fallible.detach();
            }
        }
    };
}

is_kind!(Ticker, Executor, Arc, Arc::try_clone, Task, Cancel, FallibleTask, "Executor", true);
is_kind!(
    LocalTicker, LocalExecutor, Rc, Rc::clone, LocalTask, LocalCancel, LocalFallibleTask, "LocalExecutor",
    true
);
is_kind!(
    StaticTicker, StaticExecutor, Arc, Arc::try_clone, Task, Cancel, FallibleTask, "StaticExecutor", false
);
is_kind!(
    StaticLocalTicker, StaticLocalExecutor, Rc, Rc::clone, LocalTask, LocalCancel, LocalFallibleTask,
    "StaticLocalExecutor", false
);
is_kind!(ShardedTicker, Shards, Arc, Arc::try_clone, Task, Cancel, FallibleTask, "Executor", true);
