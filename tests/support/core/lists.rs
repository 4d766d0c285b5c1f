//! Lists of steps of a world, each from a seed.
use async_executor::runner::RandomGenerator;
use executor_core::interleave::Step;
use std::alloc::{AllocError, Global};

/// The steps of these worlds: their futures are units, and their outputs numbers.
pub type ListStep = Step<(), u64>;

/// How many steps a list has.
pub const LENGTH: usize = 300;

/// How many kinds of steps there are.
pub const KINDS: usize = 28;

/// The place of a step's kind among all.
pub fn kind_of(step: &ListStep) -> usize {
    match step {
        Step::Spawn(()) => 0,
        Step::Wake(_) => 1,
        Step::TryTick => 2,
        Step::Pend(_) => 3,
        Step::Ready(_, _) => 4,
        Step::PollHandle(_) => 5,
        Step::Cancel(_) => 6,
        Step::Detach(_) => 7,
        Step::DropHandle(_) => 8,
        Step::Dropped(_) => 9,
        Step::Exchange => 10,
        Step::Notify => 11,
        Step::Tick => 12,
        Step::Run => 13,
        Step::Register(_) => 14,
        Step::Poll(_) => 15,
        Step::Search(_, _) => 16,
        Step::Sleep(_) => 17,
        Step::Yield(_) => 18,
        Step::Remove(_) => 19,
        Step::Store(_) => 20,
        Step::Fair(_) => 21,
        Step::Unregister(_) => 22,
        Step::Drop(_) => 23,
        Step::Close => 24,
        Step::Drain => 25,
        Step::TryAny => 26,
        Step::Leak => 27,
    }
}

// What is chosen of a list so far: how many tasks and tickers it asks for, whether any ticker is a
// tick, whether it has wound up, and whether it is closed.
#[derive(Drop)]
struct Choice {
    words: RandomGenerator,
    tasks: u64,
    tickers: u64,
    has_ticks: bool,
    has_wound_up: bool,
    is_closed: bool,
    steps: Vec<ListStep>,
}

/// The list of this seed. Each second one makes no ticks. Of three, one winds up and is closed, and one
/// winds up and is leaked.
pub fn list(seed: u64, alloc: Global) -> Result<Vec<ListStep>, AllocError> {
    let mut choice = Choice {
        words: RandomGenerator::new(seed),
        tasks: 0,
        tickers: 0,
        has_ticks: seed % 2 == 0,
        has_wound_up: false,
        is_closed: false,
        steps: Vec::with_capacity(alloc, LENGTH)?,
    };
    while choice.steps.len() < LENGTH {
        if seed % 3 < 2 && !choice.has_wound_up && choice.steps.len() > LENGTH / 2 {
            choice.wind_up()?;
            choice.end(seed % 3 == 0)?;
        } else if choice.below(8) == 0 {
            choice.go_round()?;
        } else {
            let step = choice.step();
            choice.add(step)?;
        }
    }
    let Choice { steps, .. } = choice;
    Ok(steps)
}

impl Choice {
    fn below(&mut self, limit: u64) -> u64 {
        self.words.next() % limit
    }

    fn add(&mut self, step: ListStep) -> Result<(), AllocError> {
        if self.steps.len() < LENGTH {
            self.steps.push(step)?;
        }
        Ok(())
    }

    // One of the last tasks, or one that is not there yet.
    fn task(&mut self) -> u64 {
        let back = self.below(8);
        self.tasks.saturating_sub(back)
    }

    fn ticker(&mut self) -> usize {
        let tickers = self.tickers.saturating_add(1);
        self.below(tickers) as usize
    }

    // What a ticker does from one poll to the next, with steps of others between.
    fn go_round(&mut self) -> Result<(), AllocError> {
        let k = self.ticker();
        let (first, second) = (self.below(8), self.below(8));
        let rests = if self.below(4) == 0 {
            Step::Yield(k)
        } else {
            Step::Sleep(k)
        };
        let round = [
            Step::Register(k),
            Step::Poll(k),
            Step::Search(k, first),
            Step::Remove(k),
            rests,
            Step::Store(k),
            Step::Search(k, second),
            Step::Sleep(k),
            Step::Store(k),
        ];
        for step in round {
            while self.below(3) == 0 {
                let other = self.step();
                self.add(other)?;
            }
            self.add(step)?;
        }
        Ok(())
    }

    // Brings each ticker to rest and ends each poll.
    fn wind_up(&mut self) -> Result<(), AllocError> {
        for k in 0..self.tickers as usize {
            self.add(Step::Store(k))?;
        }
        for k in 0..self.tickers as usize {
            for step in [
                Step::Search(k, 0),
                Step::Yield(k),
                Step::Remove(k),
                Step::Store(k),
            ] {
                self.add(step)?;
            }
            if self.below(2) == 0 {
                self.add(Step::Drop(k))?;
                self.add(Step::Store(k))?;
            }
        }
        for n in 0..self.tasks {
            self.add(Step::Pend(n))?;
            self.add(Step::Dropped(n))?;
        }
        self.has_wound_up = true;
        Ok(())
    }

    fn end(&mut self, is_closed: bool) -> Result<(), AllocError> {
        self.is_closed = is_closed;
        self.add(if is_closed { Step::Close } else { Step::Leak })
    }

    fn step(&mut self) -> ListStep {
        match self.below(20) {
            0..=1 => {
                self.tasks += 1;
                Step::Spawn(())
            }
            2..=12 => self.step_of_task(),
            13..=15 => self.step_of_notice(),
            16 => self.step_of_all(),
            _ => self.step_of_ticker(),
        }
    }

    fn step_of_task(&mut self) -> ListStep {
        let n = self.task();
        match self.below(24) {
            0..=4 => Step::Wake(n),
            5 => Step::TryTick,
            6 => Step::TryAny,
            7..=10 => Step::Pend(n),
            11..=14 => Step::Ready(n, self.below(100)),
            15..=16 => Step::Dropped(n),
            17..=19 => Step::PollHandle(n),
            20 => Step::Cancel(n),
            21 => Step::Detach(n),
            22 => Step::DropHandle(n),
            _ => Step::Dropped(n),
        }
    }

    fn step_of_notice(&mut self) -> ListStep {
        if self.below(3) == 0 {
            Step::Notify
        } else {
            Step::Exchange
        }
    }

    // A new ticker, and once all is closed, that it is drained. Without winding up, a close is mostly
    // refused.
    fn step_of_all(&mut self) -> ListStep {
        if self.is_closed && self.below(8) > 0 {
            return Step::Drain;
        }
        if self.below(8) == 0 {
            return Step::Close;
        }
        self.tickers += 1;
        if self.has_ticks && self.below(2) == 0 {
            Step::Tick
        } else {
            Step::Run
        }
    }

    fn step_of_ticker(&mut self) -> ListStep {
        let k = self.ticker();
        match self.below(16) {
            0..=1 => Step::Poll(k),
            2..=5 => Step::Search(k, self.below(8)),
            6..=7 => Step::Sleep(k),
            8 => Step::Yield(k),
            9 => Step::Remove(k),
            10..=11 => Step::Store(k),
            12..=13 => Step::Fair(k),
            14 => Step::Unregister(k),
            _ => Step::Drop(k),
        }
    }
}
