//! A cell beside its value, the one permit of those who would make it, and who waits for it. Once it has a
//! value, a new one comes in its place.
use super::permits::Permits;
use super::signals::SetOnce;
use super::{Dice, FUTURES, MAKERS, READERS, Wakers, places};
use crate::tests::support::running::wakes::NumberedWaker;
use async_utilities::{OnceCell, OnceInit, Waiting};
use executor_core::task::{Future, Poll};
use std::alloc::Global;
use std::sync::Wait;
use std::test::Fail;

// Gives its number after so many polls.
#[derive(Clone, Copy)]
struct Late {
    polls: u64,
    number: u64,
}

impl<W> Future<W> for Late {
    type Output = u64;

    fn poll(&mut self, _w: &W) -> Poll<u64> {
        if self.polls == 0 {
            return Poll::Ready(self.number);
        }
        self.polls -= 1;
        Poll::Pending
    }
}

// One of a model that would make the value: the future that it was given, and whether it is its turn.
#[derive(Clone, Copy)]
struct Maker {
    future: Late,
    has_turn: bool,
    is_over: bool,
}

#[derive(Drop)]
struct Model {
    value: Option<u64>,
    turns: Permits,
    readers: SetOnce,
}

impl Model {
    fn new(alloc: Global) -> Model {
        Model {
            value: None,
            turns: Permits::new(alloc, MAKERS, 1),
            readers: SetOnce::new(alloc, READERS),
        }
    }

    fn set(&mut self, value: u64, wakers: &Wakers) -> bool {
        let is_first = self.value.is_none();
        if is_first {
            self.value = Some(value);
            self.readers.set(wakers);
        }
        is_first
    }

    // One that would make the value does so no longer.
    fn leave(&mut self, one: usize, maker: &mut Maker, wakers: &Wakers) {
        if maker.has_turn {
            self.turns.give(1, wakers);
        } else if !maker.is_over {
            self.turns.leave(one, wakers);
        }
        maker.has_turn = false;
        maker.is_over = true;
    }

    // Whether its own future gave the value, if one is ready.
    fn poll(
        &mut self,
        one: usize,
        maker: &mut Maker,
        wakers: &Wakers,
    ) -> Result<Option<bool>, Fail> {
        if maker.is_over {
            return Ok(Some(false));
        }
        if self.value.is_some() {
            self.leave(one, maker, wakers);
            return Ok(Some(false));
        }
        maker.has_turn = maker.has_turn || self.turns.poll(one, 1)?;
        if !maker.has_turn {
            return Ok(None);
        }
        if maker.future.polls > 0 {
            maker.future.polls -= 1;
            return Ok(None);
        }
        self.set(maker.future.number, wakers);
        self.leave(one, maker, wakers);
        Ok(Some(true))
    }
}

type Init<R> = OnceInit<Late, u64, NumberedWaker, R>;

/// A cell, its futures, and the model beside them.
#[derive(Drop)]
pub struct CellWalk<R: Wait + Clone + Drop> {
    cell: OnceCell<u64, NumberedWaker, R>,
    makers: Vec<Option<(Init<R>, Maker)>>,
    readers: Vec<Option<Waiting<NumberedWaker, R>>>,
    model: Model,
    next: u64,
    alloc: Global,
    rt: R,
}

impl<R: Wait + Clone + Drop> CellWalk<R> {
    pub fn new(rt: R, alloc: Global) -> Result<CellWalk<R>, Fail> {
        Ok(CellWalk {
            cell: OnceCell::new(&rt, alloc)?,
            makers: places(alloc)?,
            readers: places(alloc)?,
            model: Model::new(alloc),
            next: 0,
            alloc,
            rt,
        })
    }

    // One that would make a value, after so many polls.
    fn begin(&mut self, polls: u64) -> Result<(Init<R>, Maker), Fail> {
        self.next += 1;
        let future = Late { polls, number: self.next };
        match self.cell.get_or_init(future) {
            Ok(init) => Ok((init, Maker { future, has_turn: false, is_over: false })),
            Err(_) => Err("no memory".into()),
        }
    }

    // Polls one that would make the value. One that was ready stays so.
    fn make(&mut self, one: usize, polls: u64, wakers: &Wakers) -> Result<bool, Fail> {
        let (mut init, mut maker) = match self.makers[one].take() {
            Some(old) => old,
            None => self.begin(polls)?,
        };
        let wanted = self.model.poll(one, &mut maker, wakers)?;
        let is_right = match init.poll(&wakers.waker(MAKERS, one)?) {
            Poll::Ready(is_own) => wanted == Some(is_own),
            Poll::Pending => wanted.is_none(),
        };
        self.makers[one] = Some((init, maker));
        Ok(is_right)
    }

    fn read(&mut self, one: usize, wakers: &Wakers) -> Result<bool, Fail> {
        let mut future = match self.readers[one].take() {
            Some(old) => old,
            None => self.cell.wait()?,
        };
        let is_right = self.model.readers.poll(one, &mut future, wakers)?;
        self.readers[one] = Some(future);
        Ok(is_right)
    }

    fn set(&mut self, wakers: &Wakers) -> bool {
        self.next += 1;
        let is_first = self.model.set(self.next, wakers);
        match self.cell.set(self.next) {
            Ok(()) => is_first,
            Err(back) => !is_first && back == self.next,
        }
    }

    // One goes that would make the value, and one that waits for it.
    fn give_up(&mut self, one: usize, wakers: &Wakers) {
        if let Some((init, maker)) = self.makers[one].take() {
            let mut maker = maker;
            self.model.leave(one, &mut maker, wakers);
            drop(init);
        }
        if self.readers[one].take().is_some() {
            self.model.readers.leave(one);
        }
    }

    // Another cell, at which nobody waits, in place of one that has its value.
    fn renew(&mut self, wakers: &Wakers) -> Result<bool, Fail> {
        if self.model.value.is_some() {
            for one in 0..FUTURES {
                self.give_up(one, wakers);
            }
            self.cell = OnceCell::new(&self.rt, self.alloc)?;
            self.model = Model::new(self.alloc);
        }
        Ok(true)
    }

    /// Takes a step. Says whether its answer, and the value, are those of the model.
    pub fn step(&mut self, dice: &mut Dice, wakers: &Wakers) -> Result<bool, Fail> {
        let (one, polls) = (dice.future(), dice.below(4));
        let is_right = match dice.below(16) {
            0..=7 => self.make(one, polls, wakers)?,
            8..=11 => self.read(one, wakers)?,
            12 if polls == 0 => self.set(wakers),
            12 | 13 => {
                self.give_up(one, wakers);
                true
            }
            _ => self.renew(wakers)?,
        };
        let is_there = self.cell.is_initialized() == self.model.value.is_some();
        Ok(is_right && is_there && self.cell.get().copied() == self.model.value)
    }

    /// How many wakers the model keeps.
    pub fn kept(&self) -> usize {
        self.model.turns.waiting() + self.model.readers.waiting()
    }
}
