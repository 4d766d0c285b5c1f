//! What takes no memory: the drop of an executor, limits that are refused, and as many ticks and runs as there is room for. A run that is over leaves
//! as much room as there was before it, and so does one that was refused, whichever of its requests
//! was.
use crate::outcome::{Outcome, count};
use crate::running::{AddingExecutor, Adds, Beside, CountingWaker, made, made_with, spawn_all};
use async_executor::executor::{Limits, NewError, Run, Tick};
use executor_core::interleave::World;
use executor_core::queue::Ring;
use std::alloc::{AllocError, Global};
use std::sync::Wait;
use std::sync::atomic::{AtomicU64, Ordering};

/// The request for a ring of this capacity and N places more is an order to the library of
/// `checks/lib/fail_nth.c`: the Nth request after it is refused.
const ORDER: usize = 1 << 16;

/// More ticks or runs than there is room for.
const MOST: usize = 100;

/// For so many sleepers there is room at first, which is more than there is for runners.
const SLEEPERS: usize = 20;

/// Orders that this request be refused, of those that follow; none if it is 0.
pub fn order(alloc: Global, request: usize) -> bool {
    Ring::new(alloc, ORDER.saturating_add(request)).is_ok()
}

fn is_ring_refused(alloc: Global) -> bool {
    Ring::new(alloc, 1).is_err()
}

/// Whether the library takes orders. If it does not, it refuses one of these requests at most.
pub fn takes_orders(alloc: Global, outcome: &mut Outcome) -> bool {
    let refused = [
        !order(alloc, 1),
        is_ring_refused(alloc),
        !order(alloc, 1),
        is_ring_refused(alloc),
    ];
    if refused == [false, true, false, true] {
        return true;
    }
    if refused != [false; 4] {
        count(&mut outcome.orders);
    }
    false
}

type Ticks<'x, 'a, R> = Vec<Tick<'x, Adds<'a>, CountingWaker<'a>, R>>;

type Runs<'x, 'a, R> = Vec<Run<'x, Adds<'a>, CountingWaker<'a>, R, Beside>>;

// So many ticks.
fn ticks<'x, 'a, R: Wait + Clone + Drop + Send + Sync>(
    ex: &'x AddingExecutor<'a, R>,
    alloc: Global,
    wanted: usize,
) -> Result<Ticks<'x, 'a, R>, AllocError> {
    let mut ticks = Vec::with_capacity(alloc, wanted)?;
    for _ in 0..wanted {
        if let Ok(tick) = ex.tick() {
            ticks.push(tick)?;
        }
    }
    Ok(ticks)
}

// As many ticks as there is room for.
fn all_ticks<'x, 'a, R: Wait + Clone + Drop + Send + Sync>(
    ex: &'x AddingExecutor<'a, R>,
    alloc: Global,
) -> Result<Ticks<'x, 'a, R>, AllocError> {
    let mut ticks = Vec::with_capacity(alloc, MOST)?;
    for _ in 0..MOST {
        order(alloc, 1);
        match ex.tick() {
            Ok(tick) => ticks.push(tick)?,
            Err(_) => return Ok(ticks),
        }
    }
    Ok(ticks)
}

// As many runs as there is room for. The first request of each is that for its queue.
fn all_runs<'x, 'a, R: Wait + Clone + Drop + Send + Sync>(
    ex: &'x AddingExecutor<'a, R>,
    alloc: Global,
) -> Result<Runs<'x, 'a, R>, AllocError> {
    let mut runs = Vec::with_capacity(alloc, MOST)?;
    for _ in 0..MOST {
        order(alloc, 2);
        match ex.run(Beside::new()) {
            Ok(run) => runs.push(run)?,
            Err(_) => return Ok(runs),
        }
    }
    Ok(runs)
}

// Whether a run is refused if this one of its requests is.
fn is_refused<R: Wait + Clone + Drop + Send + Sync>(
    ex: &AddingExecutor<'_, R>,
    alloc: Global,
    request: usize,
) -> bool {
    order(alloc, request);
    ex.run(Beside::new()).is_err()
}

// Each request of the first run is refused in turn: those for its queue and for two tables of runners.
// Says for how many sleepers there is room, which is the same after each.
fn refuse_first<R: Wait + Clone + Drop + Send + Sync>(
    ex: &AddingExecutor<'_, R>,
    alloc: Global,
    outcome: &mut Outcome,
) -> Result<usize, AllocError> {
    drop(ticks(ex, alloc, SLEEPERS)?);
    let room = all_ticks(ex, alloc)?.len();
    for request in 1..4 {
        outcome.expect(is_refused(ex, alloc, request));
        outcome.expect(all_ticks(ex, alloc)?.len() == room);
    }
    Ok(room)
}

// A run is refused that finds no room among the sleepers, and one is dropped that was never polled.
// Says for how many runners there is room, which is the same after both.
fn refuse_later<R: Wait + Clone + Drop + Send + Sync>(
    ex: &AddingExecutor<'_, R>,
    alloc: Global,
    outcome: &mut Outcome,
) -> Result<usize, AllocError> {
    drop(ex.run(Beside::new()));
    let room = all_runs(ex, alloc)?.len();
    let ticks = all_ticks(ex, alloc)?;
    outcome.expect(is_refused(ex, alloc, 2));
    drop(ticks);
    outcome.expect(all_runs(ex, alloc)?.len() == room);
    drop(ex.run(Beside::new()));
    outcome.expect(all_runs(ex, alloc)?.len() == room);
    Ok(room)
}

// Drops an executor that has tasks. No request for memory is made, so one that comes after it is the
// first.
fn drop_one<R: Wait + Clone + Drop + Send + Sync>(rt: &R, alloc: Global, outcome: &mut Outcome) {
    let sum = AtomicU64::new(0);
    let Some(ex) = made(rt, alloc, outcome) else {
        return outcome.expect(false);
    };
    spawn_all(&ex, &sum, outcome);
    order(alloc, 1);
    drop(ex);
    outcome.expect(is_ring_refused(alloc));
    outcome.expect(sum.load(Ordering::SeqCst) == 0);
}

// Limits that are out of their range are refused before a request for memory is made, so one that
// comes after is the first.
fn refuse_limits<R: Wait + Clone + Drop + Send + Sync>(
    rt: &R,
    alloc: Global,
    outcome: &mut Outcome,
) {
    let limits = Limits {
        turn: 0,
        ..Limits::default()
    };
    order(alloc, 1);
    outcome.expect(matches!(&made_with(rt, alloc, limits), Err(NewError::BadLimits)));
    outcome.expect(is_ring_refused(alloc));
    order(alloc, 1);
    let world = World::<(), u64>::new_with(alloc, 1, limits);
    outcome.expect(matches!(&world, Err(NewError::BadLimits)));
    outcome.expect(is_ring_refused(alloc));
}

/// For how many sleepers and runners a new executor has room, before and after runs that were
/// refused. There is no answer if the library takes no orders.
pub fn keep_rooms<R: Wait + Clone + Drop + Send + Sync>(
    rt: &R,
    alloc: Global,
    outcome: &mut Outcome,
) -> Option<(usize, usize)> {
    if !takes_orders(alloc, outcome) {
        return None;
    }
    drop_one(rt, alloc, outcome);
    refuse_limits(rt, alloc, outcome);
    let ex = made(rt, alloc, outcome)?;
    let sleepers = refuse_first(&ex, alloc, outcome).ok()?;
    let runners = refuse_later(&ex, alloc, outcome).ok()?;
    outcome.expect(all_ticks(&ex, alloc).ok()?.len() == sleepers);
    outcome.expect(sleepers >= SLEEPERS && sleepers < MOST && runners > 0 && runners < MOST);
    Some((sleepers, runners))
}
