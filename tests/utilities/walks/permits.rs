//! Permits of a model: those that are left, who waits for how many, in order, and who was given some and has
//! not come.
use super::{FUTURES, Wakers};
use std::alloc::Global;
use std::collections::VecDeque;
use std::test::Fail;

pub struct Permits {
    kind: u64,
    pub left: usize,
    waiting: VecDeque<(usize, usize)>,
    given: [usize; FUTURES],
}

impl Drop for Permits {
    fn drop(self) {
        let Permits { kind: _, left: _, waiting, given: _ } = self;
        drop(waiting);
    }
}

impl Permits {
    /// So many are left. Their futures are of this kind.
    pub fn new(alloc: Global, kind: u64, left: usize) -> Permits {
        let waiting = VecDeque::new(alloc);
        Permits { kind, left, waiting, given: [0; FUTURES] }
    }

    /// So many more are there, for those who wait first.
    pub fn give(&mut self, more: usize, wakers: &Wakers) {
        self.left += more;
        while let Some((one, wanted)) = self.waiting.front().copied() {
            if wanted > self.left {
                return;
            }
            self.waiting.pop_front();
            self.left -= wanted;
            self.given[one % FUTURES] = wanted;
            wakers.wake(self.kind, one);
        }
    }

    /// Whether a try takes what it wants. None at all are always there.
    pub fn try_take(&mut self, wanted: usize) -> bool {
        let is_there = wanted == 0 || (self.waiting.is_empty() && wanted <= self.left);
        if is_there {
            self.left -= wanted;
        }
        is_there
    }

    /// Whether a poll takes what it wants. Else it waits.
    pub fn poll(&mut self, one: usize, wanted: usize) -> Result<bool, Fail> {
        if self.given[one % FUTURES] > 0 {
            self.given[one % FUTURES] = 0;
            return Ok(true);
        }
        if self.waiting.iter().any(|(other, _)| *other == one) {
            return Ok(false);
        }
        if self.try_take(wanted) {
            return Ok(true);
        }
        self.waiting.push_back((one, wanted))?;
        Ok(false)
    }

    /// One goes, and gives back what it was given.
    pub fn leave(&mut self, one: usize, wakers: &Wakers) {
        self.waiting.retain(|(other, _)| *other != one);
        let back = self.given[one % FUTURES];
        self.given[one % FUTURES] = 0;
        self.give(back, wakers);
    }

    /// How many wait.
    pub fn waiting(&self) -> usize {
        self.waiting.len()
    }
}
