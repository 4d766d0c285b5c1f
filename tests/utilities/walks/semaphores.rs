//! A semaphore beside the permits of a model.
use super::permits::Permits;
use super::{ACQUIRES, Dice, Wakers, places};
use crate::tests::support::running::wakes::NumberedWaker;
use async_utilities::{Acquire, Semaphore, SemaphoreGuard};
use executor_core::task::{Future, Poll};
use std::alloc::Global;
use std::sync::Wait;
use std::test::Fail;

/// A semaphore, its futures and the permits that are taken, and the model beside them.
#[derive(Drop)]
pub struct SemaphoreWalk<R: Wait + Drop> {
    semaphore: Semaphore<NumberedWaker, R>,
    acquires: Vec<Option<(Acquire<NumberedWaker, R>, usize)>>,
    taken: Vec<SemaphoreGuard<NumberedWaker, R>>,
    model: Permits,
}

impl<R: Wait + Drop> SemaphoreWalk<R> {
    pub fn new(rt: R, alloc: Global, permits: usize) -> Result<SemaphoreWalk<R>, Fail> {
        Ok(SemaphoreWalk {
            semaphore: Semaphore::new(rt, alloc, permits)?,
            acquires: places(alloc)?,
            taken: Vec::new(alloc),
            model: Permits::new(alloc, ACQUIRES, permits),
        })
    }

    // Polls one that waits, or that wants so many permits.
    fn acquire(&mut self, one: usize, wanted: usize, wakers: &Wakers) -> Result<bool, Fail> {
        let (mut acquire, wanted) = match self.acquires[one].take() {
            Some(old) => old,
            None => (self.semaphore.acquire_many(wanted)?, wanted),
        };
        let is_taken = self.model.poll(one, wanted)?;
        match acquire.poll(&wakers.waker(ACQUIRES, one)?) {
            Poll::Ready(permits) => {
                let is_right = is_taken && permits.permits() == wanted;
                Ok(self.taken.push(permits).is_ok() && is_right)
            }
            Poll::Pending => {
                self.acquires[one] = Some((acquire, wanted));
                Ok(!is_taken)
            }
        }
    }

    fn try_acquire(&mut self, wanted: usize) -> bool {
        let is_taken = self.model.try_take(wanted);
        match self.semaphore.try_acquire_many(wanted) {
            Ok(permits) => self.taken.push(permits).is_ok() && is_taken,
            Err(_) => !is_taken,
        }
    }

    fn give_back(&mut self, wakers: &Wakers) -> bool {
        if let Some(permits) = self.taken.pop() {
            self.model.give(permits.permits(), wakers);
        }
        true
    }

    fn add(&mut self, more: usize, wakers: &Wakers) -> bool {
        self.model.give(more, wakers);
        self.semaphore.add_permits(more).is_ok()
    }

    fn give_up(&mut self, one: usize, wakers: &Wakers) -> bool {
        if self.acquires[one].take().is_some() {
            self.model.leave(one, wakers);
        }
        true
    }

    /// Takes a step. Says whether its answer, and how many permits are left, are those of the model.
    pub fn step(&mut self, dice: &mut Dice, wakers: &Wakers) -> Result<bool, Fail> {
        let (one, count) = (dice.future(), dice.below(4) as usize);
        let is_right = match dice.below(16) {
            0..=7 => self.acquire(one, count, wakers)?,
            8 | 9 => self.try_acquire(count),
            10..=13 => self.give_back(wakers),
            14 => self.give_up(one, wakers),
            _ => self.add(count % 2, wakers),
        };
        Ok(is_right && self.semaphore.permits() == self.model.left)
    }

    /// How many wakers the model keeps.
    pub fn kept(&self) -> usize {
        self.model.waiting()
    }
}
