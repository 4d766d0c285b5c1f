//! An event beside those who listen for it, in order, and those who were told and did not hear of it.
use super::{Dice, FUTURES, LISTENERS, Wakers, places};
use crate::tests::support::running::wakes::NumberedWaker;
use async_utilities::{Event, EventListener};
use executor_core::task::{Future, Poll};
use std::alloc::Global;
use std::collections::VecDeque;
use std::sync::Wait;
use std::test::Fail;

struct Model {
    listening: VecDeque<usize>,
    polled: [bool; FUTURES],
    told: [bool; FUTURES],
}

impl Drop for Model {
    fn drop(self) {
        let Model { listening, polled: _, told: _ } = self;
        drop(listening);
    }
}

impl Model {
    fn tell(&mut self, most: usize, wakers: &Wakers) -> usize {
        let mut count = 0;
        while count < most {
            let Some(one) = self.listening.pop_front() else {
                return count;
            };
            self.told[one % FUTURES] = true;
            if self.polled[one % FUTURES] {
                wakers.wake(LISTENERS, one);
            }
            self.polled[one % FUTURES] = false;
            count += 1;
        }
        count
    }

    // Those who were told before count too.
    fn notify(&mut self, most: usize, wakers: &Wakers) -> usize {
        let told = self.told.iter().filter(|is_told| **is_told).count();
        self.tell(most.saturating_sub(told), wakers)
    }

    // Whether one was told. Else it waits.
    fn poll(&mut self, one: usize) -> bool {
        let is_told = self.told[one % FUTURES];
        self.told[one % FUTURES] = false;
        self.polled[one % FUTURES] = !is_told;
        is_told
    }

    fn leave(&mut self, one: usize, wakers: &Wakers) {
        self.listening.retain(|other| *other != one);
        self.polled[one % FUTURES] = false;
        if self.told[one % FUTURES] {
            self.told[one % FUTURES] = false;
            self.tell(1, wakers);
        }
    }
}

/// An event, its listeners, and the model beside them.
#[derive(Drop)]
pub struct EventWalk<R: Wait + Drop> {
    event: Event<NumberedWaker, R>,
    listeners: Vec<Option<EventListener<NumberedWaker, R>>>,
    model: Model,
}

impl<R: Wait + Drop> EventWalk<R> {
    pub fn new(rt: R, alloc: Global) -> Result<EventWalk<R>, Fail> {
        let listening = VecDeque::new(alloc);
        Ok(EventWalk {
            event: Event::new(rt, alloc)?,
            listeners: places(alloc)?,
            model: Model { listening, polled: [false; FUTURES], told: [false; FUTURES] },
        })
    }

    // One begins to listen, or is polled.
    fn listen(&mut self, one: usize, wakers: &Wakers) -> Result<bool, Fail> {
        let Some(mut listener) = self.listeners[one].take() else {
            self.listeners[one] = Some(self.event.listen()?);
            self.model.listening.push_back(one)?;
            return Ok(true);
        };
        let is_told = self.model.poll(one);
        match listener.poll(&wakers.waker(LISTENERS, one)?) {
            Poll::Ready(()) => Ok(is_told),
            Poll::Pending => {
                self.listeners[one] = Some(listener);
                Ok(!is_told)
            }
        }
    }

    fn give_up(&mut self, one: usize, wakers: &Wakers) -> bool {
        if self.listeners[one].take().is_some() {
            self.model.leave(one, wakers);
        }
        true
    }

    /// Takes a step. Says whether its answer is that of the model.
    pub fn step(&mut self, dice: &mut Dice, wakers: &Wakers) -> Result<bool, Fail> {
        let (one, count) = (dice.future(), dice.below(4) as usize);
        match dice.below(16) {
            0..=10 => self.listen(one, wakers),
            11 | 12 => Ok(self.event.notify(count) == self.model.notify(count, wakers)),
            13 => Ok(self.event.notify_additional(count) == self.model.tell(count, wakers)),
            14 => Ok(self.event.notify_all() == self.model.tell(FUTURES, wakers)),
            _ => Ok(self.give_up(one, wakers)),
        }
    }

    /// How many wakers the model keeps.
    pub fn kept(&self) -> usize {
        self.model.polled.iter().filter(|is_polled| **is_polled).count()
    }
}
