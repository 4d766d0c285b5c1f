//! Futures of random programs, and what becomes of each.
use super::waker::TestWaker;
use async_executor::TaskWaker;
use async_executor::runner::RandomGenerator;
use executor_core::task::{Future, Poll, Wake};
use std::alloc::{AllocError, Global};
use std::sync::atomic::{AtomicBool, AtomicU64, Ordering};
use std::sync::{Arc, Mutex, Wait};

/// The wakers that these futures are polled with.
pub type LifeWaker<R> = TaskWaker<TestWaker, R>;

/// What became of a task: how often its future was polled, woken and dropped, how often its output was
/// dropped, and how often its handle gave that.
#[derive(Drop)]
pub struct Life<R: Wait + Clone + Drop + Send + Sync> {
    pub spawned: AtomicBool,
    pub cancelled: AtomicBool,
    pub polls: AtomicU64,
    pub wakes: AtomicU64,
    pub drops: AtomicU64,
    pub output_drops: AtomicU64,
    pub given: AtomicU64,
    waker: Mutex<Option<LifeWaker<R>>>,
}

pub fn add(number: &AtomicU64) {
    number.fetch_add(1, Ordering::SeqCst);
}

pub fn read(number: &AtomicU64) -> u64 {
    number.load(Ordering::SeqCst)
}

impl<R: Wait + Clone + Drop + Send + Sync> Life<R> {
    pub fn new(alloc: Global) -> Result<Arc<Life<R>>, AllocError> {
        let life = Life {
            spawned: AtomicBool::new(false),
            cancelled: AtomicBool::new(false),
            polls: AtomicU64::new(0),
            wakes: AtomicU64::new(0),
            drops: AtomicU64::new(0),
            output_drops: AtomicU64::new(0),
            given: AtomicU64::new(0),
            waker: Mutex::new(None),
        };
        Ok(Arc::new(alloc, life)?)
    }

    fn replace(&self, waker: Option<LifeWaker<R>>) -> Option<LifeWaker<R>> {
        match self.waker.try_lock() {
            Some(mut place) => std::mem::replace(&mut *place, waker),
            None => waker,
        }
    }

    /// Wakes the waker that the future left, if it is there. A wake is counted before it is made.
    pub fn wake(&self) {
        if let Some(waker) = self.replace(None) {
            add(&self.wakes);
            waker.wake();
            drop(self.replace(Some(waker)));
        }
    }

    /// Lets the waker go that the future left.
    pub fn forget_waker(&self) {
        drop(self.replace(None));
    }
}

/// An output: the number of its task. Its drop is counted.
pub struct Given<R: Wait + Clone + Drop + Send + Sync> {
    pub task: usize,
    life: Arc<Life<R>>,
}

impl<R: Wait + Clone + Drop + Send + Sync> Drop for Given<R> {
    fn drop(self) {
        let Given { task: _, life } = self;
        add(&life.output_drops);
    }
}

/// A future that goes by the words of a seed. It wakes itself and another one, leaves its waker, and is
/// ready after some polls, or never.
pub struct Living<R: Wait + Clone + Drop + Send + Sync> {
    task: usize,
    life: Arc<Life<R>>,
    other: Arc<Life<R>>,
    output: Option<Given<R>>,
    words: RandomGenerator,
}

impl<R: Wait + Clone + Drop + Send + Sync> Living<R> {
    /// That of this task and this word, which wakes another one.
    pub fn new(
        task: usize,
        word: u64,
        life: &Arc<Life<R>>,
        other: &Arc<Life<R>>,
    ) -> Result<Living<R>, AllocError> {
        Ok(Living {
            task,
            life: Arc::try_clone(life)?,
            other: Arc::try_clone(other)?,
            output: Some(Given {
                task,
                life: Arc::try_clone(life)?,
            }),
            words: RandomGenerator::new(word),
        })
    }

    fn wake_lent(&self, w: &LifeWaker<R>) {
        add(&self.life.wakes);
        w.wake();
    }

    fn leave(&self, w: &LifeWaker<R>) {
        drop(self.life.replace(w.copy().ok()));
    }
}

impl<R: Wait + Clone + Drop + Send + Sync> Future<LifeWaker<R>> for Living<R> {
    type Output = Given<R>;

    fn poll(&mut self, w: &LifeWaker<R>) -> Poll<Given<R>> {
        add(&self.life.polls);
        match self.words.next() % 16 {
            0..=4 => {
                if let Some(given) = self.output.take() {
                    return Poll::Ready(given);
                }
            }
            5..=6 => self.wake_lent(w),
            7 => {
                self.wake_lent(w);
                self.wake_lent(w);
            }
            8..=11 => self.leave(w),
            12..=13 => {
                self.leave(w);
                self.life.wake();
            }
            14 => {
                self.leave(w);
                self.other.wake();
            }
            _ => self.other.wake(),
        }
        Poll::Pending
    }
}

impl<R: Wait + Clone + Drop + Send + Sync> Drop for Living<R> {
    fn drop(self) {
        let Living {
            task: _,
            life,
            other,
            output,
            words: _,
        } = self;
        add(&life.drops);
        drop(output);
        other.wake();
    }
}
