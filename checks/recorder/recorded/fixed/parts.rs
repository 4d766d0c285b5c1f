//! What the programs that are the same each time share: a future, its output, and the parts of a program.
use crate::support::waker::TestWaker;
use async_executor::TaskWaker;
use executor_core::recorder::{Word, say};
use executor_core::task::{Future, Poll, Wake};
use std::alloc::AllocError;
use std::sync::{Arc, Mutex, Wait};

/// Where a future leaves its waker.
pub type Place<R> = Arc<Mutex<Option<TaskWaker<TestWaker, R>>>>;

/// An output, of which it is written down that it was let go.
pub struct Output {
    number: u64,
}

impl Drop for Output {
    fn drop(self) {
        let Output { number } = self;
        say(Word::LetGo, number);
    }
}

/// Takes the waker that a future left, which keeps what the executor's tasks share.
pub fn left_waker<R: Wait + Clone + Drop + Send + Sync>(
    place: &Place<R>,
) -> Option<TaskWaker<TestWaker, R>> {
    match place.try_lock() {
        Some(mut place) => place.take(),
        None => None,
    }
}

/// A future that leaves its waker at its first poll, and is ready at its second one.
#[derive(Drop)]
pub struct Twice<R: Wait + Clone + Drop + Send + Sync> {
    number: u64,
    place: Place<R>,
    was_polled: bool,
}

impl<R: Wait + Clone + Drop + Send + Sync> Twice<R> {
    /// That of this number, which leaves its waker here.
    pub fn new(number: u64, place: &Place<R>) -> Result<Twice<R>, AllocError> {
        Ok(Twice {
            number,
            place: Arc::try_clone(place)?,
            was_polled: false,
        })
    }
}

impl<R: Wait + Clone + Drop + Send + Sync> Future<TaskWaker<TestWaker, R>> for Twice<R> {
    type Output = Output;

    fn poll(&mut self, w: &TaskWaker<TestWaker, R>) -> Poll<Output> {
        if self.was_polled {
            say(Word::Made, self.number);
            return Poll::Ready(Output {
                number: self.number,
            });
        }
        self.was_polled = true;
        if let (Ok(waker), Some(mut place)) = (w.copy(), self.place.try_lock()) {
            *place = Some(waker);
        }
        Poll::Pending
    }
}

/// Never ready.
#[derive(Drop)]
pub struct Endless;

impl<W> Future<W> for Endless {
    type Output = ();

    fn poll(&mut self, _w: &W) -> Poll<()> {
        Poll::Pending
    }
}

/// An executor, a place for a waker, and a waker for those who poll.
macro_rules! parts {
    ($rt:expr) => {{
        let alloc = $rt.alloc();
        let place: crate::fixed::parts::Place<R> = Arc::new(alloc, Mutex::new(None))?;
        let ex = Executor::new($rt.clone()?, alloc)?;
        let waker = TestWaker::new(&Record::new(alloc)?)?;
        (ex, place, waker)
    }};
}

/// Spawns a task, if there is memory for it, and lets its handle go.
macro_rules! spawn {
    ($ex:expr, $number:expr, $place:expr) => {
        if let Ok(future) = Twice::new($number, $place) {
            if let Ok(task) = $ex.spawn(future) {
                task.detach();
            }
        }
    };
}

pub(crate) use parts;
pub(crate) use spawn;
