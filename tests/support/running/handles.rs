//! The handles of a random program, and what has to become of their tasks.
use super::lives::{Given, Life, Living, add, read};
use super::programs::PLACES;
use super::record::Record;
use super::waker::TestWaker;
use async_executor::{Cancel, LocalCancel, LocalTask, Task};
use executor_core::task::{Future, Poll};
use std::alloc::Global;
use std::sync::atomic::Ordering;
use std::sync::{Arc, Mutex, Wait};
use std::test::Fail;

/// What is wrong, if anything.
pub type Ended = Result<(), &'static str>;

/// The handle of a task on an executor of one kind.
pub trait TaskHandle<R: Wait + Clone + Drop + Send + Sync>: Drop + Sized {
    /// What its cancel gives.
    type Cancel: Drop;

    fn cancel(task: Self) -> Self::Cancel;

    fn detach(task: Self);

    fn poll(task: &mut Self, w: &TestWaker) -> Poll<Option<Given<R>>>;

    fn poll_cancel(cancel: &mut Self::Cancel, w: &TestWaker) -> Poll<Option<Given<R>>>;
}

macro_rules! is_task_handle {
    ($task:ident, $cancel:ident) => {
        impl<R: Wait + Clone + Drop + Send + Sync> TaskHandle<R> for $task<Living<R>, TestWaker, R> {
            type Cancel = $cancel<Living<R>, TestWaker, R>;

            fn cancel(task: Self) -> Self::Cancel {
                task.cancel()
            }

            fn detach(task: Self) {
                task.detach();
            }

            fn poll(task: &mut Self, w: &TestWaker) -> Poll<Option<Given<R>>> {
                match task.poll(w) {
                    Poll::Ready(answer) => Poll::Ready(answer.ok()),
                    Poll::Pending => Poll::Pending,
                }
            }

            fn poll_cancel(cancel: &mut Self::Cancel, w: &TestWaker) -> Poll<Option<Given<R>>> {
                cancel.poll(w)
            }
        }
    };
}

is_task_handle!(Task, Cancel);
is_task_handle!(LocalTask, LocalCancel);

/// The handle of a task of this number, which may have been cancelled.
#[derive(Drop)]
pub enum Handle<T: TaskHandle<R>, R: Wait + Clone + Drop + Send + Sync> {
    Task(usize, T),
    Cancel(usize, T::Cancel),
}

/// The handles, each at a place where all threads find it, what becomes of each task, and a waker that
/// polls handles, ticks and runs.
#[derive(Drop)]
pub struct Handles<T: TaskHandle<R>, R: Wait + Clone + Drop + Send + Sync> {
    pub lives: Vec<Arc<Life<R>>>,
    pub waker: TestWaker,
    places: Vec<Mutex<Option<Handle<T, R>>>>,
}

impl<T: TaskHandle<R>, R: Wait + Clone + Drop + Send + Sync> Handles<T, R> {
    pub fn new(tasks: usize, alloc: Global) -> Result<Handles<T, R>, Fail> {
        let (mut lives, mut places) = (Vec::new(alloc), Vec::new(alloc));
        // One more, so that each task has another one.
        for _ in 0..=tasks {
            lives.push(Life::new(alloc)?)?;
        }
        for _ in 0..PLACES {
            places.push(Mutex::new(None))?;
        }
        Ok(Handles {
            lives,
            waker: TestWaker::new(&Record::new(alloc)?)?,
            places,
        })
    }

    /// A future of this task, whose words come of this one.
    pub fn future(&self, task: usize, word: u64) -> Option<Living<R>> {
        let life = &self.lives[task];
        let other = &self.lives[(task + 1) % self.lives.len()];
        let future = Living::new(task, word, life, other).ok()?;
        life.spawned.store(true, Ordering::SeqCst);
        Some(future)
    }

    /// Puts the handle of this task at a place. The one that was there is dropped.
    pub fn put(&self, place: usize, task: usize, handle: T) {
        self.drop_handle(self.replace(place, Some(Handle::Task(task, handle))));
    }

    /// Drops the handle at a place.
    pub fn drop_at(&self, place: usize) {
        self.drop_handle(self.replace(place, None));
    }

    pub fn cancel(&self, place: usize) {
        if let Some(handle) = self.replace(place, None) {
            let handle = match handle {
                Handle::Task(task, handle) => {
                    self.cancels(task);
                    Handle::Cancel(task, T::cancel(handle))
                }
                cancel => cancel,
            };
            self.drop_handle(self.replace(place, Some(handle)));
        }
    }

    pub fn detach(&self, place: usize) {
        match self.replace(place, None) {
            Some(Handle::Task(_, handle)) => T::detach(handle),
            other => self.drop_handle(other),
        }
    }

    /// Polls the handle, which ends with its answer, and says whether it has answered, if there is one.
    pub fn poll(&self, place: usize) -> Result<bool, &'static str> {
        let Some(mut handle) = self.replace(place, None) else {
            return Ok(true);
        };
        let (task, answer) = match &mut handle {
            Handle::Task(task, handle) => (*task, T::poll(handle, &self.waker)),
            Handle::Cancel(task, handle) => (*task, T::poll_cancel(handle, &self.waker)),
        };
        let Poll::Ready(answer) = answer else {
            self.drop_handle(self.replace(place, Some(handle)));
            return Ok(false);
        };
        drop(handle);
        self.judge(task, answer)?;
        Ok(true)
    }

    /// Whether each handle answers, once no task is left to its executor that could be run.
    pub fn answer_all(&self) -> Ended {
        for place in 0..PLACES {
            if !self.poll(place)? {
                return Err("a handle that is still pending");
            }
        }
        Ok(())
    }

    /// What is wrong in the end of a program that came to this: that, or what became of a task.
    pub fn judged(&self, ended: Ended, leaked: bool) -> Option<&'static str> {
        for life in self.lives.iter() {
            life.forget_waker();
        }
        match ended {
            Ok(()) => self.judge_lives(leaked).err(),
            Err(wrong) => Some(wrong),
        }
    }

    // Puts a handle at a place, and gives the one that was there. If the place is taken by another
    // thread, it comes back.
    fn replace(&self, place: usize, handle: Option<Handle<T, R>>) -> Option<Handle<T, R>> {
        match self.places[place].try_lock() {
            Some(mut kept) => std::mem::replace(&mut *kept, handle),
            None => handle,
        }
    }

    fn cancels(&self, task: usize) {
        self.lives[task].cancelled.store(true, Ordering::SeqCst);
    }

    // Drops a handle that has not answered, by which its task is cancelled.
    fn drop_handle(&self, handle: Option<Handle<T, R>>) {
        if let Some(Handle::Task(task, _) | Handle::Cancel(task, _)) = &handle {
            self.cancels(*task);
        }
        drop(handle);
    }

    fn judge(&self, task: usize, answer: Option<Given<R>>) -> Ended {
        let life = &self.lives[task];
        match answer {
            Some(given) => {
                add(&life.given);
                if given.task != task {
                    return Err("an output of another task");
                }
            }
            None => {
                if !life.cancelled.load(Ordering::SeqCst) {
                    return Err("no output, though nobody cancelled the task");
                }
            }
        }
        Ok(())
    }

    // Whether each task came to the end that it has to.
    fn judge_lives(&self, leaked: bool) -> Ended {
        let more = if leaked { 2 } else { 1 };
        for life in self.lives.iter() {
            let once = u64::from(life.spawned.load(Ordering::SeqCst));
            if read(&life.drops) != once {
                return Err("a future that was not dropped once");
            }
            if read(&life.output_drops) != once {
                return Err("an output that was not dropped once");
            }
            if read(&life.given) > 1 {
                return Err("an output that was given twice");
            }
            if read(&life.polls) > read(&life.wakes) + more * once {
                return Err("a future that was polled too often");
            }
        }
        Ok(())
    }
}
