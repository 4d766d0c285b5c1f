//! One task, tick or run of a test.
use super::future::{Kind, Output, TestFuture, WakerPlace};
use super::halt::Halt;
use super::kinds::{Kind as ExecutorKind, OwnFuture};
use super::line::{Answer, Line};
use super::record::{Moment, Record};
use super::waker::TestWaker;
use async_executor::executor::{Executor, Task, TaskWaker};
use executor_core::task::{Future, Poll, Wake};
use std::alloc::{AllocError, Global};
use std::mem::ManuallyDrop;
use std::sync::Wait;
use std::test::Fail;

/// The wakers that futures are polled with.
pub type FutureWaker<R> = TaskWaker<TestWaker, R>;

/// The futures of a test. They are a type of their own, with no bound but those of R, since what is
/// generic over them takes long to be proved.
#[derive(Drop)]
pub struct TaskFuture<R: Wait + Clone + Drop + Send + Sync> {
    inner: TestFuture<FutureWaker<R>>,
}

impl<R: Wait + Clone + Drop + Send + Sync> TaskFuture<R> {
    /// A future of this kind, which leaves its waker at this place.
    pub fn new(
        kind: Kind,
        place: WakerPlace<FutureWaker<R>>,
        record: &Record,
    ) -> Result<TaskFuture<R>, AllocError> {
        Ok(TaskFuture {
            inner: TestFuture::new(kind, place, record)?,
        })
    }
}

impl<R: Wait + Clone + Drop + Send + Sync> Future<FutureWaker<R>> for TaskFuture<R> {
    type Output = Output;

    fn poll(&mut self, w: &FutureWaker<R>) -> Poll<Output> {
        self.inner.poll(w)
    }
}

/// The executors of a test.
pub type TestExecutor<R> = Executor<TaskFuture<R>, TestWaker, R>;

/// A handle of any kind, or a tick or a run, which is polled and dropped as a handle is.
#[derive(Drop)]
pub enum Handle<T: ExecutorKind<R>, R: Wait + Clone + Drop + Send + Sync> {
    Task(T::Task),
    Cancel(T::Cancel),
    Fallible(T::Fallible),
    Ticker(T),
}

impl<T: ExecutorKind<R>, R: Wait + Clone + Drop + Send + Sync> Handle<T, R> {
    pub fn poll(&mut self, w: &TestWaker) -> (Answer, Option<Output>) {
        let answer = match self {
            Handle::Task(task) => T::poll_task(task, w),
            Handle::Cancel(cancel) => T::poll_cancel(cancel, w),
            Handle::Fallible(fallible) => T::poll_fallible(fallible, w),
            Handle::Ticker(ticker) => return ticker.poll(w),
        };
        match answer {
            Poll::Pending => (Answer::Pending, None),
            Poll::Ready(None) => (Answer::Cancelled, None),
            Poll::Ready(Some(output)) => (Answer::Output(output.number), Some(output)),
        }
    }

    fn is_finished(&self) -> Option<bool> {
        match self {
            Handle::Task(task) => Some(T::is_finished(task)),
            Handle::Cancel(_) | Handle::Ticker(_) => None,
            Handle::Fallible(fallible) => Some(T::is_fallible_finished(fallible)),
        }
    }

    pub fn cancel(self) -> Handle<T, R> {
        match self {
            Handle::Task(task) => Handle::Cancel(T::cancel(task)),
            Handle::Fallible(fallible) => Handle::Cancel(T::cancel_fallible(fallible)),
            other => other,
        }
    }

    fn fallible(self) -> Handle<T, R> {
        match self {
            Handle::Task(task) => Handle::Fallible(T::fallible(task)),
            other => other,
        }
    }

    /// Detaches the task, and says whether the handle can.
    pub fn detach(self) -> bool {
        match self {
            Handle::Task(task) => {
                T::detach(task);
                true
            }
            Handle::Cancel(_) | Handle::Ticker(_) => false,
            Handle::Fallible(fallible) => {
                T::detach_fallible(fallible);
                true
            }
        }
    }
}

/// A handle that another thread polls, by the waker that it has, and the number of its task.
#[derive(Drop)]
pub struct LentHandle<T: ExecutorKind<R>, R: Wait + Clone + Drop + Send + Sync> {
    pub task: usize,
    handle: Handle<T, R>,
    waker: TestWaker,
}

impl<T: ExecutorKind<R>, R: Wait + Clone + Drop + Send + Sync> LentHandle<T, R> {
    /// What a poll answers. An output is dropped.
    pub fn poll(&mut self) -> Answer {
        self.handle.poll(&self.waker).0
    }
}

/// What a task, a tick or a run of a test is recorded by: the waker that it is polled by, the place
/// where its future leaves its waker, and its records.
#[derive(Drop)]
struct Parts<R: Wait + Clone + Drop + Send + Sync> {
    waker: TestWaker,
    place: WakerPlace<FutureWaker<R>>,
    record: Record,
    other: Record,
}

impl<R: Wait + Clone + Drop + Send + Sync> Parts<R> {
    fn new(alloc: Global, halt: &Halt) -> Result<Parts<R>, AllocError> {
        let place = WakerPlace::new(alloc)?;
        let other = Record::with_halt(alloc, halt)?;
        let (record, waker) = recorded(alloc, halt)?;
        Ok(Parts {
            waker,
            place,
            record,
            other,
        })
    }
}

// A record, and a waker that it is of.
fn recorded(alloc: Global, halt: &Halt) -> Result<(Record, TestWaker), AllocError> {
    let record = Record::with_halt(alloc, halt)?;
    let waker = TestWaker::new(&record)?;
    Ok((record, waker))
}

// The future of a run, which leaves its waker where nobody finds it.
fn own_future(kind: Kind, alloc: Global, record: &Record) -> Result<OwnFuture, AllocError> {
    let place = WakerPlace::new(alloc)?;
    TestFuture::new(kind, place, record)
}

/// A task, its handle, and the waker that its handle is polled by; or a tick or a run in place of
/// the handle.
#[derive(Drop)]
pub struct Entry<T: ExecutorKind<R>, R: Wait + Clone + Drop + Send + Sync> {
    pub handle: Option<Handle<T, R>>,
    waker: Option<TestWaker>,
    first: Option<TestWaker>,
    output: Option<Output>,
    place: WakerPlace<FutureWaker<R>>,
    record: Record,
    other: Record,
}

impl<T: ExecutorKind<R>, R: Wait + Clone + Drop + Send + Sync> Entry<T, R> {
    fn of(parts: Parts<R>, handle: Handle<T, R>) -> Entry<T, R> {
        let Parts {
            waker,
            place,
            record,
            other,
        } = parts;
        Entry {
            handle: Some(handle),
            waker: Some(waker),
            first: None,
            output: None,
            place,
            record,
            other,
        }
    }

    /// A new task of this executor.
    pub fn spawn(
        ex: &T::Share,
        kind: Kind,
        alloc: Global,
        halt: &Halt,
    ) -> Result<Entry<T, R>, Fail> {
        let parts = Parts::new(alloc, halt)?;
        let future = TaskFuture::new(kind, parts.place.share()?, &parts.record)?;
        let task = T::spawn(ex, future)?;
        Ok(Entry::of(parts, Handle::Task(task)))
    }

    /// A new tick of this executor.
    pub fn tick(
        ex: &T::Share,
        alloc: Global,
        halt: &Halt,
    ) -> Result<Entry<T, R>, Fail> {
        let parts = Parts::new(alloc, halt)?;
        let tick = T::tick(ex, alloc)?;
        Ok(Entry::of(parts, Handle::Ticker(tick)))
    }

    /// A new run of this executor, beside a future of this kind.
    pub fn run(
        ex: &T::Share,
        kind: Kind,
        alloc: Global,
        halt: &Halt,
    ) -> Result<Entry<T, R>, Fail> {
        let parts = Parts::new(alloc, halt)?;
        let own = own_future(kind, alloc, &parts.record)?;
        let run = T::run(ex, own, alloc)?;
        Ok(Entry::of(parts, Handle::Ticker(run)))
    }

    /// Whether what comes of the line, which is one on this task, is what has to.
    pub fn holds(&mut self, line: Line) -> Result<bool, Fail> {
        Ok(match line {
            Line::Poll(_, answer) => self.poll() == Some(answer),
            Line::Finished(_, answer) => self.is_finished() == Some(answer),
            Line::Cancel(_) => self.cancel(),
            Line::Fallible(_) => self.fallible(),
            Line::Detach(_) => self.detach(),
            Line::DropHandle(_) => self.handle.take().is_some(),
            Line::ForgetHandle(_) => self.forget(),
            Line::DropOutput(_) => self.output.take().is_some(),
            Line::Wake(_) => self.wake(),
            Line::WakeCopy(_) => self.wake_copy()?,
            Line::AnotherWaker(_) => self.change_waker()?,
            Line::OtherWoken(_, times) => self.other.times(Moment::WakerWake) == times,
            Line::Refuse(_) => {
                self.record.refuse();
                true
            }
            Line::HaltAt(_, moment) => {
                self.record.halt_at(moment);
                true
            }
            Line::PassOnAt(_, moment) => {
                self.record.pass_on_at(moment);
                true
            }
            Line::Count(_, moment, times) => self.record.times(moment) == times,
            _ => false,
        })
    }

    // An output is kept.
    fn poll(&mut self) -> Option<Answer> {
        let (Some(handle), Some(waker)) = (&mut self.handle, &self.waker) else {
            return None;
        };
        let (answer, output) = handle.poll(waker);
        if output.is_some() {
            self.output = output;
        }
        Some(answer)
    }

    /// Lends the handle of the task, which has this number, and the waker that it is polled by.
    pub fn lend(&mut self, task: usize) -> Option<LentHandle<T, R>> {
        let waker = self.waker.take()?;
        let handle = self.handle.take()?;
        Some(LentHandle {
            task,
            handle,
            waker,
        })
    }

    /// Takes back what was lent.
    pub fn put_back(&mut self, lent: LentHandle<T, R>) {
        let LentHandle { handle, waker, .. } = lent;
        self.handle = Some(handle);
        self.waker = Some(waker);
    }

    fn is_finished(&self) -> Option<bool> {
        match &self.handle {
            Some(handle) => handle.is_finished(),
            None => None,
        }
    }

    /// Drops the handle, and says whether there is one, which is not finished.
    pub fn give_up(&mut self) -> bool {
        let unfinished = self.is_finished() == Some(false);
        self.handle = None;
        unfinished
    }

    fn cancel(&mut self) -> bool {
        match self.handle.take() {
            Some(handle) => {
                self.handle = Some(handle.cancel());
                true
            }
            None => false,
        }
    }

    fn fallible(&mut self) -> bool {
        match self.handle.take() {
            Some(handle) => {
                self.handle = Some(handle.fallible());
                true
            }
            None => false,
        }
    }

    fn detach(&mut self) -> bool {
        match self.handle.take() {
            Some(handle) => handle.detach(),
            None => false,
        }
    }

    fn forget(&mut self) -> bool {
        match self.handle.take() {
            Some(handle) => {
                let _forgotten = ManuallyDrop::new(handle);
                true
            }
            None => false,
        }
    }

    /// Puts a waker where the task's future left its own, which is dropped.
    pub fn put_left(&mut self, waker: FutureWaker<R>) {
        drop(self.place.replace(Some(waker)));
    }

    /// The waker that the task's future left.
    pub fn take_left(&mut self) -> Option<FutureWaker<R>> {
        self.place.take()
    }

    fn wake(&mut self) -> bool {
        match self.place.take() {
            Some(waker) => {
                waker.wake();
                self.place.replace(Some(waker)).is_none()
            }
            None => false,
        }
    }

    fn wake_copy(&mut self) -> Result<bool, Fail> {
        match self.place.take() {
            Some(waker) => {
                waker.copy()?.wake();
                Ok(self.place.replace(Some(waker)).is_none())
            }
            None => Ok(false),
        }
    }

    // The first waker is kept, so that it is not dropped.
    fn change_waker(&mut self) -> Result<bool, Fail> {
        let other = TestWaker::new(&self.other)?;
        self.first = self.waker.replace(other);
        Ok(self.first.is_some())
    }
}

/// What was asked for. A test fails if it was refused.
pub fn granted<T, E: Drop>(answer: Result<T, E>) -> Result<T, Fail> {
    match answer {
        Ok(granted) => Ok(granted),
        Err(_) => Err("refused".into()),
    }
}

/// The task of this future. A test fails if it is refused.
pub fn spawned<
    F: Future<TaskWaker<W, R>> + Send,
    W: Wake + Send,
    R: Wait + Clone + Drop + Send + Sync,
>(ex: &Executor<F, W, R>, future: F) -> Result<Task<F, W, R>, Fail>
where
    F::Output: Send,
{
    granted(ex.spawn(future))
}

/// What this future gives at its first poll, on an executor of this type that is dropped after it.
macro_rules! output_on {
    ($executor:ident, $rt:expr, $future:expr) => {{
        let alloc = $rt.alloc();
        let waker = TestWaker::new(&Record::new(alloc).ok()?).ok()?;
        let ex = $executor::new($rt.clone().ok()?, alloc).ok()?;
        let mut task = ex.spawn($future).ok()?;
        let ticked = ex.try_tick();
        drop(ex);
        match task.poll(&waker) {
            Poll::Ready(Ok(output)) if ticked => Some(output),
            _ => None,
        }
    }};
}

pub(crate) use output_on;

/// What this future gives at its first poll, on an executor of its own that is dropped after it.
pub fn output_of<
    F: Future<TaskWaker<TestWaker, R>> + Send,
    R: AllocGlobal + Wait + Clone + Drop + Send + Sync,
>(rt: R, future: F) -> Option<F::Output>
where
    F::Output: Send,
{
    output_on!(Executor, rt, future)
}
