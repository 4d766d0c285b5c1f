//! A mutex of a number, which each holder adds to, beside one permit of a model.
use super::permits::Permits;
use super::{Dice, LOCKS, Wakers, places};
use crate::tests::support::running::wakes::NumberedWaker;
use async_utilities::{Lock, Mutex, MutexGuard};
use executor_core::task::{Future, Poll};
use std::alloc::Global;
use std::sync::Wait;
use std::test::Fail;

type Guard<R> = MutexGuard<u64, NumberedWaker, R>;

/// A mutex, its futures and its guard, and the model beside them.
#[derive(Drop)]
pub struct MutexWalk<R: Wait + Drop> {
    mutex: Mutex<u64, NumberedWaker, R>,
    locks: Vec<Option<Lock<u64, NumberedWaker, R>>>,
    guard: Option<Guard<R>>,
    model: Permits,
    value: u64,
}

impl<R: Wait + Drop> MutexWalk<R> {
    pub fn new(rt: R, alloc: Global) -> Result<MutexWalk<R>, Fail> {
        Ok(MutexWalk {
            mutex: Mutex::new(rt, alloc, 0)?,
            locks: places(alloc)?,
            guard: None,
            model: Permits::new(alloc, LOCKS, 1),
            value: 0,
        })
    }

    // Says whether it is the only guard, and has the value that the holder before left.
    fn hold(&mut self, guard: Guard<R>) -> bool {
        let mut guard = guard;
        let is_right = *guard == self.value && self.guard.is_none();
        self.value += 1;
        *guard += 1;
        self.guard = Some(guard);
        is_right
    }

    fn lock(&mut self, one: usize, wakers: &Wakers) -> Result<bool, Fail> {
        let mut lock = match self.locks[one].take() {
            Some(old) => old,
            None => self.mutex.lock()?,
        };
        let is_taken = self.model.poll(one, 1)?;
        match lock.poll(&wakers.waker(LOCKS, one)?) {
            Poll::Ready(guard) => Ok(self.hold(guard) && is_taken),
            Poll::Pending => {
                self.locks[one] = Some(lock);
                Ok(!is_taken)
            }
        }
    }

    fn try_lock(&mut self) -> bool {
        let is_taken = self.model.try_take(1);
        match self.mutex.try_lock() {
            Ok(guard) => self.hold(guard) && is_taken,
            Err(_) => !is_taken,
        }
    }

    fn unlock(&mut self, wakers: &Wakers) -> bool {
        if self.guard.take().is_some() {
            self.model.give(1, wakers);
        }
        true
    }

    fn give_up(&mut self, one: usize, wakers: &Wakers) -> bool {
        if self.locks[one].take().is_some() {
            self.model.leave(one, wakers);
        }
        true
    }

    /// Takes a step. Says whether its answer is that of the model.
    pub fn step(&mut self, dice: &mut Dice, wakers: &Wakers) -> Result<bool, Fail> {
        let one = dice.future();
        match dice.below(8) {
            0..=3 => self.lock(one, wakers),
            4 => Ok(self.try_lock()),
            5 | 6 => Ok(self.unlock(wakers)),
            _ => Ok(self.give_up(one, wakers)),
        }
    }

    /// How many wakers the model keeps.
    pub fn kept(&self) -> usize {
        self.model.waiting()
    }
}
