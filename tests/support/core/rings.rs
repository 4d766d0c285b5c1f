//! Steals between two rings.
use crate::tests::support::core::lines::Player;
use crate::tests::support::core::tasks::{Tasks, spawn};
use executor_core::queue::{Ring, steal};
use std::alloc::Global;
use std::test::Fail;

/// What is done with two rings, and what has to come of it.
#[derive(Clone, Copy)]
pub enum Line {
    /// The source is a new ring, with room for so many tasks.
    Source(usize),
    /// The target is a new ring, with room for so many tasks.
    Target(usize),
    /// A new task goes to the end of the source, or comes back, the source being full.
    Push(bool),
    /// One new task goes to the end of the source as often as there is room, which is all of it.
    Fill,
    /// A steal moves so many.
    Steal(usize),
    /// So many stand in the source, and in the target.
    Stand(usize, usize),
    /// The task at the front of the target, which is taken out of it, or none.
    Pop(Option<u64>),
}

/// Two rings, and the table of their tasks.
#[derive(Drop)]
pub struct Rings {
    cells: Tasks,
    source: Ring,
    target: Ring,
    alloc: Global,
}

impl Rings {
    /// Two rings that have no room.
    pub fn new(alloc: Global) -> Result<Rings, Fail> {
        let source = Ring::new(alloc, 0)?;
        let target = Ring::new(alloc, 0)?;
        Ok(Rings {
            cells: Tasks::new(alloc)?,
            source,
            target,
            alloc,
        })
    }

    fn push(&mut self, goes_in: bool) -> Result<bool, Fail> {
        let id = spawn(&mut self.cells, 0)?;
        Ok(match self.source.push(id) {
            Ok(()) => goes_in,
            Err(back) => !goes_in && back == id,
        })
    }

    fn fill(&mut self) -> Result<bool, Fail> {
        let id = spawn(&mut self.cells, 0)?;
        for _ in 0..self.source.capacity() {
            if self.source.push(id).is_err() {
                return Ok(false);
            }
        }
        Ok(true)
    }

    fn stand(&self, source: usize, target: usize) -> bool {
        self.source.len() == source
            && self.target.len() == target
            && self.target.is_empty() == (target == 0)
    }
}

impl Player<Line> for Rings {
    fn holds(&mut self, line: Line) -> Result<bool, Fail> {
        Ok(match line {
            Line::Source(room) => {
                self.source = Ring::new(self.alloc, room)?;
                true
            }
            Line::Target(room) => {
                self.target = Ring::new(self.alloc, room)?;
                true
            }
            Line::Push(goes_in) => self.push(goes_in)?,
            Line::Fill => self.fill()?,
            Line::Steal(count) => steal(&mut self.source, &mut self.target) == count,
            Line::Stand(source, target) => self.stand(source, target),
            Line::Pop(number) => match self.target.pop() {
                Some(id) => number == Some(id.number()),
                None => number.is_none(),
            },
        })
    }
}
