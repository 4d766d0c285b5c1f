//! The places of ticks and runs among the sleepers, and those of runs among the runners: none stays
//! behind. A place takes memory, so a table that keeps those of ticks and runs which are gone grows.
use crate::tests::support::running::future::{Ready, Until};
use crate::tests::support::running::task::granted;
use async_executor::{
    Executor, Future, LocalExecutor, OutOfMemory, Poll, StaticExecutor, StaticLocalExecutor, Wake,
};
use std::fs::{self, Files};
use std::sync::atomic::AtomicU64;
use std::sync::{Arc, Wait};
use std::test::Fail;

// A waker that takes much room in its place, and wakes nobody.
#[derive(Drop)]
struct Wide {
    room: [u64; 64],
}

impl Wake for Wide {
    fn wake(&self) {}

    fn copy(&self) -> Result<Self, OutOfMemory> {
        Ok(Wide { room: self.room })
    }
}

// How many pages of memory this process has.
fn pages<R: AllocGlobal + Files>(rt: &R) -> Result<u64, Fail> {
    let sizes = fs::read_to_string(rt, "/proc/self/statm")?;
    match sizes.split(' ').next() {
        Some(pages) => Ok(pages.parse()?),
        None => Err("no size".into()),
    }
}

// What a tick or a run answers at its first poll. It is dropped after that.
fn first_answer<T: Future<Wide, Output = ()>>(mut ticker: T, waker: &Wide) -> Poll<()> {
    ticker.poll(waker)
}

// Whether a first round and so many others end as they should, and the others leave the process with
// as much memory as it had before them, but for some pages.
macro_rules! stays_small {
    ($rt:expr, $rounds:expr, $round:expr) => {{
        let mut is_right = $round;
        let before = pages($rt)?;
        for _ in 0..$rounds {
            is_right &= $round;
        }
        is_right && pages($rt)? < before.saturating_add(MOST_PAGES)
    }};
}

// Makes ticks that end in each way: before the first poll, asleep, notified by a spawn, and with a
// task. Says whether each poll answers as it should.
macro_rules! ticks_end {
    ($ex:expr, $waker:expr) => {{
        drop($ex.tick()?);
        let asleep = first_answer($ex.tick()?, $waker);
        let mut tick = $ex.tick()?;
        let notified = tick.poll($waker);
        granted($ex.spawn(Ready::new(7)))?.detach();
        drop(tick);
        let with_task = first_answer($ex.tick()?, $waker);
        [asleep, notified, with_task] == [Poll::Pending, Poll::Pending, Poll::Ready(())]
    }};
}

macro_rules! stays_small_by_ticks {
    ($executor:ident, $rt:expr) => {{
        let ex = $executor::<Ready<u64>, Wide, R>::new($rt.clone()?, $rt.alloc())?;
        let waker = Wide { room: [0; 64] };
        stays_small!($rt, ROUNDS, ticks_end!(ex, &waker))
    }};
}

fn stay_small_by_ticks<R: AllocGlobal + Files + Wait + Clone + Drop + Send + Sync>(
    rt: &R,
) -> Result<[bool; 4], Fail> {
    Ok([
        stays_small_by_ticks!(Executor, rt),
        stays_small_by_ticks!(LocalExecutor, rt),
        stays_small_by_ticks!(StaticExecutor, rt),
        stays_small_by_ticks!(StaticLocalExecutor, rt),
    ])
}

#[test]
fn no_tick_leaves_its_place_behind(rt: HostRuntime) -> Result<(), Fail> {
    assert_eq!(rt; stay_small_by_ticks(&rt)?, [true; 4]);
    Ok(())
}

// On each type of executors.
const ROUNDS: u32 = 625;

// Makes runs that end in each way: before the first poll, asleep, and with their own future. Says
// whether each poll answers as it should.
macro_rules! runs_end {
    ($ex:expr, $waker:expr, $count:expr) => {{
        drop(granted($ex.run(Until::new($count, 1)?))?);
        let asleep = first_answer(granted($ex.run(Until::new($count, 1)?))?, $waker);
        let ended = first_answer(granted($ex.run(Until::new($count, 0)?))?, $waker);
        [asleep, ended] == [Poll::Pending, Poll::Ready(())]
    }};
}

macro_rules! stays_small_by_runs {
    ($executor:ident, $rt:expr) => {{
        let ex = $executor::<Ready<u64>, Wide, R>::new($rt.clone()?, $rt.alloc())?;
        let waker = Wide { room: [0; 64] };
        let count = Arc::new($rt.alloc(), AtomicU64::new(0))?;
        stays_small!($rt, ROUNDS_OF_RUNS, runs_end!(ex, &waker, &count))
    }};
}

fn stay_small_by_runs<R: AllocGlobal + Files + Wait + Clone + Drop + Send + Sync>(
    rt: &R,
) -> Result<[bool; 4], Fail> {
    Ok([
        stays_small_by_runs!(Executor, rt),
        stays_small_by_runs!(LocalExecutor, rt),
        stays_small_by_runs!(StaticExecutor, rt),
        stays_small_by_runs!(StaticLocalExecutor, rt),
    ])
}

#[test]
fn no_run_leaves_its_places_behind(rt: HostRuntime) -> Result<(), Fail> {
    assert_eq!(rt; stay_small_by_runs(&rt)?, [true; 4]);
    Ok(())
}

// More than of ticks, since the place of a runner takes less memory than that of a sleeper.
const ROUNDS_OF_RUNS: u32 = 2_500;

// Less than half of what the places take if one stays behind in each round.
const MOST_PAGES: u64 = 20;
