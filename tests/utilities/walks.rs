//! Random walks over a channel, a semaphore, a mutex, an event, a barrier, a cell, a signal and a timer at
//! once, beside plain models of them.
//!
//! All that a walk does comes from its seed. After each step the answer is that of the model, those whom
//! the model wakes were woken, in its order and each by the waker of its last poll, and as many wakers are
//! kept as wait in it.
//!
//! `checks/by_hand/walks` takes more of them, with other numbers in place of the first two.
mod barriers;
mod cells;
mod channels;
mod events;
mod mutexes;
mod permits;
mod semaphores;
mod signals;
mod timers;

use async_executor::runner::RandomGenerator;
use async_utilities::bounded;
use barriers::BarrierWalk;
use cells::CellWalk;
use channels::{ChannelWalk, Receives, Sends};
use crate::tests::support::running::wakes::{NumberedWaker, Wakes};
use events::EventWalk;
use mutexes::MutexWalk;
use semaphores::SemaphoreWalk;
use signals::SignalWalk;
use std::alloc::Global;
use std::sync::Wait;
use std::sync::atomic::{AtomicBool, Ordering};
use std::test::Fail;
use timers::TimerWalk;

const WALKS: u64 = 200;

// The seed of the first.
const FIRST: u64 = 0;

const STEPS: u64 = 400;

// How many futures of each kind there are at once.
const FUTURES: usize = 4;

// The number of the first waker of each kind. Each future has two wakers, which it is polled with by turns.
const SENDS: u64 = 8;
const RECEIVES: u64 = 16;
const ACQUIRES: u64 = 24;
const LOCKS: u64 = 32;
const LISTENERS: u64 = 40;
const BARRIER_WAITS: u64 = 48;
const MAKERS: u64 = 56;
const READERS: u64 = 64;
const WAITINGS: u64 = 72;
const AFTERS: u64 = 80;
const INTERVALS: u64 = 88;

/// What a walk goes by.
#[derive(Drop)]
pub struct Dice {
    words: RandomGenerator,
}

impl Dice {
    pub fn below(&mut self, limit: u64) -> u64 {
        self.words.next() % limit
    }

    /// One of the futures of a kind.
    pub fn future(&mut self) -> usize {
        self.below(FUTURES as u64) as usize
    }
}

// Places for the futures of a kind.
fn places<T: Drop>(alloc: Global) -> Result<Vec<Option<T>>, Fail> {
    let mut places = Vec::new(alloc);
    for _ in 0..FUTURES {
        if places.push(None).is_err() {
            return Err("no memory".into());
        }
    }
    Ok(places)
}

/// Who was woken, and whom the models wake.
#[derive(Drop)]
pub struct Wakers {
    there: Wakes,
    wanted: Wakes,
    // By the number of the first waker of each future: whether it was polled with its second one last.
    is_second: Vec<AtomicBool>,
}

impl Wakers {
    fn new(alloc: Global) -> Result<Wakers, Fail> {
        let mut is_second = Vec::new(alloc);
        for _ in 0..INTERVALS + 2 * FUTURES as u64 {
            is_second.push(AtomicBool::new(false))?;
        }
        Ok(Wakers {
            there: Wakes::new(alloc)?,
            wanted: Wakes::new(alloc)?,
            is_second,
        })
    }

    // The number of the waker that this future of a kind was polled with last.
    fn last(&self, kind: u64, one: usize) -> u64 {
        let first = kind + one as u64;
        if self.is_second[first as usize].load(Ordering::SeqCst) {
            first + FUTURES as u64
        } else {
            first
        }
    }

    /// One for a poll of this future of a kind, and another one than that of the poll before.
    pub fn waker(&self, kind: u64, one: usize) -> Result<NumberedWaker, Fail> {
        let is_second = &self.is_second[kind as usize + one];
        is_second.store(!is_second.load(Ordering::SeqCst), Ordering::SeqCst);
        Ok(self.there.waker(self.last(kind, one))?)
    }

    /// The model wakes this future of a kind.
    pub fn wake(&self, kind: u64, one: usize) {
        self.wanted.add(self.last(kind, one));
    }

    // Whether those were woken whom the models wake, and so many wakers are kept.
    fn agree(&self, kept: usize) -> bool {
        self.there.take() == self.wanted.take() && self.there.wakers() == kept as u64
    }
}

#[derive(Drop)]
struct Walk<'a, R: Wait + Clone + Drop> {
    channel: ChannelWalk<'a, R>,
    semaphore: SemaphoreWalk<R>,
    mutex: MutexWalk<R>,
    event: EventWalk<R>,
    barrier: BarrierWalk<R>,
    cell: CellWalk<R>,
    signal: SignalWalk<R>,
    timer: TimerWalk<R>,
}

impl<'a, R: Wait + Clone + Drop> Walk<'a, R> {
    fn new(
        rt: &R,
        alloc: Global,
        ends: (&'a Sends<R>, &'a Receives<R>),
        permits: usize,
    ) -> Result<Walk<'a, R>, Fail> {
        Ok(Walk {
            channel: ChannelWalk::new(alloc, ends.0, ends.1)?,
            semaphore: SemaphoreWalk::new(rt.clone()?, alloc, permits)?,
            mutex: MutexWalk::new(rt.clone()?, alloc)?,
            event: EventWalk::new(rt.clone()?, alloc)?,
            barrier: BarrierWalk::new(rt.clone()?, alloc)?,
            cell: CellWalk::new(rt.clone()?, alloc)?,
            signal: SignalWalk::new(rt.clone()?, alloc)?,
            timer: TimerWalk::new(rt.clone()?, alloc)?,
        })
    }

    // Takes a step. Gives its kind, and whether its answer is that of the model.
    fn step(&mut self, dice: &mut Dice, wakers: &Wakers) -> Result<(&'static str, bool), Fail> {
        Ok(match dice.below(8) {
            0 => ("a channel", self.channel.step(dice, wakers)?),
            1 => ("a semaphore", self.semaphore.step(dice, wakers)?),
            2 => ("a mutex", self.mutex.step(dice, wakers)?),
            3 => ("an event", self.event.step(dice, wakers)?),
            4 => ("a barrier", self.barrier.step(dice, wakers)?),
            5 => ("a cell", self.cell.step(dice, wakers)?),
            6 => ("a signal", self.signal.step(dice, wakers)?),
            _ => ("a timer", self.timer.step(dice, wakers)?),
        })
    }

    // How many wakers the models keep.
    fn kept(&self) -> usize {
        let rounds = self.event.kept() + self.barrier.kept();
        let permits = self.semaphore.kept() + self.mutex.kept();
        let sets = self.cell.kept() + self.signal.kept();
        self.channel.kept() + permits + rounds + sets + self.timer.kept()
    }
}

// One walk. Gives the first step after which something is not as its model, and the kind of this step.
fn walk<R: AllocGlobal + Wait + Clone + Drop>(
    rt: &R,
    seed: u64,
) -> Result<Option<(u64, &'static str)>, Fail> {
    let words = RandomGenerator::new(seed);
    let mut dice = Dice { words };
    let wakers = Wakers::new(rt.alloc())?;
    let capacity = 1 + dice.below(3) as usize;
    let permits = dice.below(5) as usize;
    let (sender, receiver) = bounded(rt.clone()?, rt.alloc(), capacity)?;
    let mut walk = Walk::new(rt, rt.alloc(), (&sender, &receiver), permits)?;
    for step in 0..STEPS {
        let (kind, is_right) = walk.step(&mut dice, &wakers)?;
        if !is_right || !wakers.agree(walk.kept()) {
            return Ok(Some((step, kind)));
        }
    }
    Ok(None)
}

#[test]
fn all_do_as_their_models(rt: HostRuntime) -> Result<(), Fail> {
    for seed in FIRST..FIRST.saturating_add(WALKS) {
        if let Some((step, kind)) = walk(&rt, seed)? {
            return Err(Fail::new(format_args!("seed {seed}, step {step}: {kind}, or a waker")));
        }
    }
    Ok(())
}
