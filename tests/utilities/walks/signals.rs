//! A signal beside those who wait for it, in order. Once it is set, a new one comes in its place.
use super::{Dice, WAITINGS, Wakers, places};
use crate::tests::support::running::wakes::NumberedWaker;
use async_utilities::{Signal, Waiting};
use executor_core::task::{Future, Poll};
use std::alloc::Global;
use std::collections::VecDeque;
use std::sync::Wait;
use std::test::Fail;

/// Of a model: what is set once, and who waits for that.
#[derive(Drop)]
pub struct SetOnce {
    kind: u64,
    pub is_set: bool,
    waiting: VecDeque<usize>,
}

impl SetOnce {
    /// It is not set. Its futures are of this kind.
    pub fn new(alloc: Global, kind: u64) -> SetOnce {
        let waiting = VecDeque::new(alloc);
        SetOnce { kind, is_set: false, waiting }
    }

    pub fn set(&mut self, wakers: &Wakers) {
        self.is_set = true;
        while let Some(first) = self.waiting.pop_front() {
            wakers.wake(self.kind, first);
        }
    }

    /// One that waits goes.
    pub fn leave(&mut self, one: usize) {
        self.waiting.retain(|other| *other != one);
    }

    /// How many wait.
    pub fn waiting(&self) -> usize {
        self.waiting.len()
    }

    /// Polls one beside its future. Says whether the answer is right.
    pub fn poll<R: Wait + Drop>(
        &mut self,
        one: usize,
        future: &mut Waiting<NumberedWaker, R>,
        wakers: &Wakers,
    ) -> Result<bool, Fail> {
        if !self.is_set && !self.waiting.iter().any(|other| *other == one) {
            self.waiting.push_back(one)?;
        }
        let answer = future.poll(&wakers.waker(self.kind, one)?);
        Ok((answer == Poll::Ready(())) == self.is_set)
    }
}

/// A signal, its futures, and the model beside them.
#[derive(Drop)]
pub struct SignalWalk<R: Wait + Drop> {
    signal: Signal<NumberedWaker, R>,
    waits: Vec<Option<Waiting<NumberedWaker, R>>>,
    model: SetOnce,
    alloc: Global,
    rt: R,
}

impl<R: Wait + Clone + Drop> SignalWalk<R> {
    pub fn new(rt: R, alloc: Global) -> Result<SignalWalk<R>, Fail> {
        Ok(SignalWalk {
            signal: Signal::new(rt.clone()?, alloc)?,
            waits: places(alloc)?,
            model: SetOnce::new(alloc, WAITINGS),
            alloc,
            rt,
        })
    }

    // One begins to wait, or is polled. One that was ready stays so.
    fn wait(&mut self, one: usize, wakers: &Wakers) -> Result<bool, Fail> {
        let mut future = match self.waits[one].take() {
            Some(old) => old,
            None => self.signal.waiting()?,
        };
        let is_right = self.model.poll(one, &mut future, wakers)?;
        self.waits[one] = Some(future);
        Ok(is_right)
    }

    fn give_up(&mut self, one: usize) -> bool {
        if self.waits[one].take().is_some() {
            self.model.leave(one);
        }
        true
    }

    fn set(&mut self, wakers: &Wakers) -> bool {
        self.model.set(wakers);
        self.signal.set();
        true
    }

    // Another signal, for which nobody waits, in place of one that is set.
    fn renew(&mut self) -> Result<bool, Fail> {
        if self.model.is_set {
            self.waits = places(self.alloc)?;
            self.signal = Signal::new(self.rt.clone()?, self.alloc)?;
            self.model = SetOnce::new(self.alloc, WAITINGS);
        }
        Ok(true)
    }

    /// Takes a step. Says whether its answer, and whether it is set, are those of the model.
    pub fn step(&mut self, dice: &mut Dice, wakers: &Wakers) -> Result<bool, Fail> {
        let one = dice.future();
        let is_right = match dice.below(16) {
            0..=10 => self.wait(one, wakers)?,
            11 | 12 => self.give_up(one),
            13 => self.set(wakers),
            _ => self.renew()?,
        };
        Ok(is_right && self.signal.is_set() == self.model.is_set)
    }

    /// How many wakers the model keeps.
    pub fn kept(&self) -> usize {
        self.model.waiting()
    }
}
