//! Rows whose tasks work in each poll.
use crate::futures::Works;
use crate::parking::parked_copies;
use crate::running::run_copies;
use crate::sharding::working_copies;
use crate::timing::Ran;
use std::alloc::{AllocError, Global};
use std::fmt;
use std::fmt::{Display, Formatter, Write};
use std::rt::Clock;
use std::sync::Wait;
use std::thread::Threads;

/// How many tasks a row has.
const TASKS: u64 = 1_000;

/// How many steps of a poll took a microsecond where the rows were measured.
const STEPS_A_MICRO: u32 = 613;

/// How many nanoseconds of work a poll has.
const WORK: [u32; 8] = [0, 30, 100, 300, 1_000, 3_000, 10_000, 100_000];

/// On how many threads.
const THREADS: [u32; 3] = [1, 2, 4];

/// Which runs a row has.
#[derive(Debug, Clone, Copy, PartialEq, Eq)]
pub enum Runs {
    /// Those of an executor, which never park.
    NeverPark,
    /// Those of an executor, which park while there is nothing to run.
    Park,
    /// The same of an executor with a shard for each thread.
    ParkOnShards,
}

/// Which runs there are, and how the names of their rows begin.
const RUNS: [(Runs, &str); 3] = [
    (Runs::NeverPark, "busy_"),
    (Runs::Park, "parked_busy_"),
    (Runs::ParkOnShards, "sharded_busy_"),
];

/// 1,000 tasks, each of which works in each poll and wakes itself, by a run on each of some
/// threads. Its name is `busy_W_T`, `parked_busy_W_T` or `sharded_busy_W_T`: the nanoseconds and the
/// threads.
#[derive(Debug, Clone, Copy, PartialEq, Eq)]
pub struct Busy {
    /// Which runs there are.
    pub runs: Runs,
    /// How many nanoseconds each poll works.
    pub nanos: u32,
    /// How many threads run tasks.
    pub threads: u32,
}

impl Busy {
    /// Each row that is measured.
    pub fn all(alloc: Global) -> Result<Vec<Busy>, AllocError> {
        let mut rows = Vec::new(alloc);
        for (runs, _) in RUNS {
            for nanos in WORK {
                for threads in THREADS {
                    rows.push(Busy {
                        runs,
                        nanos,
                        threads,
                    })?;
                }
            }
        }
        Ok(rows)
    }

    /// The row of this name.
    pub fn from_name(name: &str) -> Option<Busy> {
        for (runs, beginning) in RUNS {
            if let Some(numbers) = name.strip_prefix(beginning) {
                let (nanos, threads) = numbers.split_once('_')?;
                return Some(Busy {
                    runs,
                    nanos: nanos.parse().ok()?,
                    threads: threads.parse().ok()?,
                });
            }
        }
        None
    }

    /// Polls tasks this often or a little more. `None` if memory, a thread or the time was refused.
    pub fn run<R: Wait + Clone + Drop + Send + Sync + Threads + Clock>(
        self,
        rt: &R,
        alloc: Global,
        operations: u64,
    ) -> Option<Ran> {
        let yields = operations.saturating_sub(1) / TASKS;
        let steps = self.nanos.saturating_mul(STEPS_A_MICRO) / 1_000;
        let future = &Works::after(yields, steps);
        let polls = yields.saturating_add(1);
        let threads = self.threads as usize;
        match self.runs {
            Runs::NeverPark => run_copies(rt, alloc, self.threads, TASKS, future, polls),
            Runs::Park => parked_copies(rt, alloc, threads, TASKS, future, polls),
            Runs::ParkOnShards => working_copies(rt, alloc, threads, TASKS, yields, steps),
        }
    }
}

impl Display for Busy {
    fn fmt<W: Write>(&self, f: &mut Formatter<W>) -> fmt::Result {
        for (runs, beginning) in RUNS {
            if runs == self.runs {
                write!(f, "{beginning}{}_{}", self.nanos, self.threads)?;
            }
        }
        Ok(())
    }
}
