//! A barrier for three beside those who came to it, in order, and those whose round is over.
use super::{BARRIER_WAITS, Dice, Wakers, places};
use crate::tests::support::running::wakes::NumberedWaker;
use async_utilities::{Barrier, BarrierWait};
use executor_core::task::{Future, Poll};
use std::alloc::Global;
use std::collections::VecDeque;
use std::sync::Wait;
use std::test::Fail;

const SIZE: usize = 3;

#[derive(Drop)]
struct Model {
    came: VecDeque<usize>,
    over: Vec<usize>,
}

impl Model {
    // Whether one leads, if its round is over.
    fn poll(&mut self, one: usize, wakers: &Wakers) -> Result<Option<bool>, Fail> {
        if self.over.iter().any(|other| *other == one) {
            self.over.retain(|other| *other != one);
            return Ok(Some(false));
        }
        if self.came.iter().any(|other| *other == one) {
            return Ok(None);
        }
        if self.came.len() + 1 < SIZE {
            self.came.push_back(one)?;
            return Ok(None);
        }
        while let Some(first) = self.came.pop_front() {
            self.over.push(first)?;
            wakers.wake(BARRIER_WAITS, first);
        }
        Ok(Some(true))
    }

    fn leave(&mut self, one: usize) {
        self.came.retain(|other| *other != one);
        self.over.retain(|other| *other != one);
    }
}

/// A barrier, its futures, and the model beside them.
#[derive(Drop)]
pub struct BarrierWalk<R: Wait + Drop> {
    barrier: Barrier<NumberedWaker, R>,
    waits: Vec<Option<BarrierWait<NumberedWaker, R>>>,
    model: Model,
}

impl<R: Wait + Drop> BarrierWalk<R> {
    pub fn new(rt: R, alloc: Global) -> Result<BarrierWalk<R>, Fail> {
        let (came, over) = (VecDeque::new(alloc), Vec::new(alloc));
        Ok(BarrierWalk {
            barrier: Barrier::new(rt, alloc, SIZE)?,
            waits: places(alloc)?,
            model: Model { came, over },
        })
    }

    fn meet(&mut self, one: usize, wakers: &Wakers) -> Result<bool, Fail> {
        let mut wait = match self.waits[one].take() {
            Some(old) => old,
            None => self.barrier.wait()?,
        };
        let wanted = self.model.poll(one, wakers)?;
        match wait.poll(&wakers.waker(BARRIER_WAITS, one)?) {
            Poll::Ready(result) => Ok(wanted == Some(result.is_leader())),
            Poll::Pending => {
                self.waits[one] = Some(wait);
                Ok(wanted.is_none())
            }
        }
    }

    /// Takes a step. Says whether its answer is that of the model.
    pub fn step(&mut self, dice: &mut Dice, wakers: &Wakers) -> Result<bool, Fail> {
        let one = dice.future();
        if dice.below(8) > 0 {
            return self.meet(one, wakers);
        }
        if self.waits[one].take().is_some() {
            self.model.leave(one);
        }
        Ok(true)
    }

    /// How many wakers the model keeps.
    pub fn kept(&self) -> usize {
        self.model.came.len()
    }
}
