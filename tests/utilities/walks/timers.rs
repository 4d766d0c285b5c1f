//! A timer beside its deadlines, in the order in which they were set, and the latest time.
use super::{AFTERS, Dice, INTERVALS, Wakers, places};
use crate::tests::support::running::clock::TestClock;
use crate::tests::support::running::wakes::NumberedWaker;
use async_utilities::{After, Firing, Interval, Reading, Timer};
use executor_core::task::{Future, Poll};
use std::alloc::Global;
use std::sync::Wait;
use std::test::Fail;
use std::time::Duration;

// A deadline that is set: its time, and the kind and the number of its future.
#[derive(Clone, Copy)]
struct Deadline {
    time: u64,
    kind: u64,
    one: usize,
}

#[derive(Drop)]
struct Model {
    // In the order in which they were set.
    deadlines: Vec<Deadline>,
    latest: u64,
}

impl Model {
    // The clock was read.
    fn read(&mut self, now: u64) {
        self.latest = self.latest.max(now);
    }

    fn is_set(&self, kind: u64, one: usize) -> bool {
        self.deadlines.iter().any(|it| it.kind == kind && it.one == one)
    }

    fn remove(&mut self, kind: u64, one: usize) {
        self.deadlines.retain(|it| it.kind != kind || it.one != one);
    }

    // The latest time, if this one is reached. Else the deadline is set, unless it was set before.
    fn poll(&mut self, time: u64, kind: u64, one: usize) -> Result<Option<u64>, Fail> {
        if time <= self.latest {
            self.remove(kind, one);
            return Ok(Some(self.latest));
        }
        if !self.is_set(kind, one) {
            self.deadlines.push(Deadline { time, kind, one })?;
        }
        Ok(None)
    }

    // The first deadline: the earliest, and of two at one time the one that was set first.
    fn first(&self) -> Option<Deadline> {
        let mut first: Option<Deadline> = None;
        for it in self.deadlines.iter() {
            let is_first = match first {
                Some(other) => it.time < other.time,
                None => true,
            };
            if is_first {
                first = Some(*it);
            }
        }
        first
    }

    // All that are reached are woken, the first one first.
    fn fire(&mut self, now: u64, wakers: &Wakers) -> Firing {
        self.read(now);
        let mut has_woken = false;
        while let Some(first) = self.first() {
            if first.time > self.latest {
                let left = Some(Duration::from_nanos(first.time.saturating_sub(now)));
                return Firing { has_woken, left };
            }
            self.remove(first.kind, first.one);
            wakers.wake(first.kind, first.one);
            has_woken = true;
        }
        Firing { has_woken, left: None }
    }
}

type Still<R> = Timer<NumberedWaker, TestClock, R>;

/// A timer and its clock, which may go back, its futures with their times, and the model beside them.
#[derive(Drop)]
pub struct TimerWalk<R: Wait + Drop> {
    timer: Still<R>,
    clock: TestClock,
    now: u64,
    afters: Vec<Option<(After<NumberedWaker, R>, u64)>>,
    // Each with its time, and its period.
    intervals: Vec<Option<(Interval<NumberedWaker, R>, u64, u64)>>,
    model: Model,
}

impl<R: Wait + Drop> TimerWalk<R> {
    pub fn new(rt: R, alloc: Global) -> Result<TimerWalk<R>, Fail> {
        let clock = TestClock::new(alloc)?;
        Ok(TimerWalk {
            timer: Timer::new(rt, clock.share()?, alloc)?,
            clock,
            now: 0,
            afters: places(alloc)?,
            intervals: places(alloc)?,
            model: Model { deadlines: Vec::new(alloc), latest: 0 },
        })
    }

    // A time so much after that of the clock.
    fn later(&self, more: u64) -> Result<Reading, Fail> {
        let later = Reading::now(&self.clock)?.checked_add(Duration::from_nanos(more));
        Ok(later.ok_or("too far")?)
    }

    // One that is due so much after the time of the clock, or after the latest time.
    fn begin(&mut self, more: u64) -> Result<(After<NumberedWaker, R>, u64), Fail> {
        if more % 2 == 0 {
            return Ok((self.timer.at(self.later(more)?)?, self.now + more));
        }
        self.model.read(self.now);
        let after = self.timer.after(Duration::from_nanos(more))?;
        Ok((after, self.model.latest + more))
    }

    fn wait(&mut self, one: usize, more: u64, wakers: &Wakers) -> Result<bool, Fail> {
        let (mut after, time) = match self.afters[one].take() {
            Some(old) => old,
            None => self.begin(more)?,
        };
        let wanted = self.model.poll(time, AFTERS, one)?;
        let answer = after.poll(&wakers.waker(AFTERS, one)?);
        self.afters[one] = Some((after, time));
        Ok(is_at(answer, wanted))
    }

    // Moves one, and the waker that it left, to another time.
    fn reset(&mut self, one: usize, more: u64) -> Result<bool, Fail> {
        let (to, at) = (self.later(more)?, self.now + more);
        let Some((after, time)) = &mut self.afters[one] else {
            return Ok(true);
        };
        *time = at;
        after.reset(to);
        if self.model.is_set(AFTERS, one) {
            self.model.remove(AFTERS, one);
            self.model.deadlines.push(Deadline { time: at, kind: AFTERS, one })?;
        }
        Ok(true)
    }

    // Polls an interval, of this period if it is new.
    fn beat(&mut self, one: usize, period: u64, wakers: &Wakers) -> Result<bool, Fail> {
        let (mut interval, time, period) = match self.intervals[one].take() {
            Some(old) => old,
            None => {
                self.model.read(self.now);
                let interval = self.timer.interval(Duration::from_nanos(period))?;
                (interval, self.model.latest + period, period)
            }
        };
        let wanted = self.model.poll(time, INTERVALS, one)?;
        let answer = interval.poll_next(&wakers.waker(INTERVALS, one)?);
        let next = if wanted.is_some() { time + period } else { time };
        self.intervals[one] = Some((interval, next, period));
        Ok(is_at(answer, wanted))
    }

    // One of each kind goes.
    fn give_up(&mut self, one: usize) -> bool {
        if self.afters[one].take().is_some() {
            self.model.remove(AFTERS, one);
        }
        if self.intervals[one].take().is_some() {
            self.model.remove(INTERVALS, one);
        }
        true
    }

    // Moves the clock on, or back.
    fn turn(&mut self, time: u64) -> bool {
        self.now = time;
        self.clock.set(time);
        true
    }

    fn fire(&mut self, wakers: &Wakers) -> Result<bool, Fail> {
        let wanted = self.model.fire(self.now, wakers);
        Ok(self.timer.driver()?.fire()? == wanted)
    }

    /// Takes a step. Says whether its answer is that of the model.
    pub fn step(&mut self, dice: &mut Dice, wakers: &Wakers) -> Result<bool, Fail> {
        let (one, more, now) = (dice.future(), dice.below(16), self.now);
        match dice.below(16) {
            0..=4 => self.wait(one, more, wakers),
            5 | 6 => self.reset(one, more),
            7..=9 => self.beat(one, more + 1, wakers),
            10 => Ok(self.give_up(one)),
            11 => Ok(self.turn(now.saturating_sub(more))),
            12 | 13 => Ok(self.turn(now + more)),
            _ => self.fire(wakers),
        }
    }

    /// How many wakers the model keeps.
    pub fn kept(&self) -> usize {
        self.model.deadlines.len()
    }
}

// Whether a poll gave the time that it was to give, if it was to be ready.
fn is_at(answer: Poll<Reading>, wanted: Option<u64>) -> bool {
    match (answer, wanted) {
        (Poll::Ready(now), Some(time)) => now.nanos() == u128::from(time),
        (Poll::Pending, None) => true,
        _ => false,
    }
}
