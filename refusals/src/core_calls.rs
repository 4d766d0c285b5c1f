//! The calls of the core that take memory.
use crate::outcome::{Outcome, count};
use executor_core::interleave::{Reply, Step, World};
use executor_core::limits::{Limits, NewError};
use executor_core::plain_core::{Core, FlagValue};
use executor_core::queue::Ring;
use executor_core::sleepers::Sleepers;
use executor_core::task::{Cells, Notice, SpawnError};
use std::alloc::Global;

/// So many runners that each table of theirs grows more than once.
const RUNNERS: u64 = 5;

/// Nobody sleeps, so nobody is to be notified.
pub fn spend(notice: Notice) {
    match FlagValue::new().exchange(notice) {
        None => {}
        Some(_) => unreachable!(),
    }
}

/// Spawns a task in a table, and again if that is refused: with the same number.
pub fn spawn_task(alloc: Global, outcome: &mut Outcome) {
    let Ok(mut cells) = Cells::<u8, (), ()>::new(alloc) else {
        return outcome.expect(false);
    };
    let future = match cells.spawn(7) {
        Ok((_, notice)) => return spend(notice),
        Err(refusal) => {
            outcome.expect(matches!(&refusal, SpawnError::OutOfMemory(_)));
            refusal.into_inner()
        }
    };
    count(&mut outcome.cells_spawn);
    outcome.expect(future == 7 && cells.is_empty() && cells.global_len() == 0);
    match cells.spawn(future) {
        Ok((id, notice)) => {
            spend(notice);
            outcome.expect(id.number() == 0 && cells.global_len() == 1);
        }
        Err(_) => outcome.expect(false),
    }
}

/// Reserves places for runners in a table, each again if that is refused: no number is lost.
pub fn reserve_runners(alloc: Global, outcome: &mut Outcome) {
    let Ok(mut cells) = Cells::<u8, (), ()>::new(alloc) else {
        return outcome.expect(false);
    };
    let mut last = None;
    for _ in 0..RUNNERS {
        let mut place = cells.reserve_runner();
        if place.is_err() {
            count(&mut outcome.cells_reserve_runner);
            place = cells.reserve_runner();
        }
        outcome.expect(place.is_ok() && place.ok() != last);
        last = place.ok();
    }
}

/// Makes a ring, and again if that is refused.
pub fn make_ring(alloc: Global, outcome: &mut Outcome) {
    if Ring::new(alloc, 1).is_err() {
        count(&mut outcome.ring_new);
        outcome.expect(Ring::new(alloc, 1).is_ok());
    }
}

/// Reserves a sleeper's place, and again if that is refused.
pub fn reserve_place(alloc: Global, outcome: &mut Outcome) {
    let mut sleepers = Sleepers::<()>::new(alloc);
    if sleepers.reserve().is_err() {
        count(&mut outcome.sleepers_reserve);
        outcome.expect(sleepers.reserve().is_ok());
    }
}

/// Reserves a sleeper's place in a core, and again if that is refused.
pub fn reserve_in_core(alloc: Global, outcome: &mut Outcome) {
    let Ok(mut core) = Core::<(), (), ()>::new(alloc) else {
        return outcome.expect(false);
    };
    if core.reserve().is_err() {
        count(&mut outcome.core_reserve);
        outcome.expect(core.reserve().is_ok());
    }
}

// A world that takes one step, made again if that is refused.
fn one_step_world(alloc: Global, outcome: &mut Outcome) -> Option<World<(), u64>> {
    if let Ok(world) = World::new(alloc, 1) {
        return Some(world);
    }
    count(&mut outcome.world_new);
    World::new(alloc, 1).ok()
}

/// Makes a world with limits, and again if that is refused.
pub fn make_world_with(alloc: Global, outcome: &mut Outcome) {
    let made = World::<(), u64>::new_with(alloc, 1, Limits::default());
    if made.is_err() {
        count(&mut outcome.world_new_with);
        outcome.expect(matches!(&made, Err(NewError::OutOfMemory)));
        outcome.expect(World::<(), u64>::new_with(alloc, 1, Limits::default()).is_ok());
    }
}

// The list of the one step, made again if that is refused.
fn one_step(alloc: Global, outcome: &mut Outcome) -> Option<Vec<Step<(), u64>>> {
    for _ in 0..2u8 {
        let mut steps = Vec::new(alloc);
        if steps.push(Step::TryTick).is_ok() {
            return Some(steps);
        }
        count(&mut outcome.steps);
    }
    None
}

/// Runs a world's one step, and again if that is refused: the refused run took no step.
pub fn run_world(alloc: Global, outcome: &mut Outcome) {
    let Some(mut world) = one_step_world(alloc, outcome) else {
        return outcome.expect(false);
    };
    for _ in 0..2u8 {
        let Some(steps) = one_step(alloc, outcome) else {
            return outcome.expect(false);
        };
        match world.run(steps) {
            Ok(replies) => {
                return outcome.expect(matches!(replies.first(), Some(Reply::NoTask)));
            }
            Err(_) => count(&mut outcome.world_run),
        }
    }
    outcome.expect(false);
}

// Makes a tick or a run.
fn make(world: &mut World<(), u64>, is_run: bool) -> Reply<u64> {
    world.step(if is_run { Step::Run } else { Step::Tick })
}

/// Makes a ticker in a world, and again if that is refused: the refused step made none.
pub fn make_ticker(alloc: Global, outcome: &mut Outcome, is_run: bool) {
    let Some(mut world) = one_step_world(alloc, outcome) else {
        return outcome.expect(false);
    };
    let mut reply = make(&mut world, is_run);
    if reply == Reply::OutOfMemory {
        count(&mut outcome.world_step);
        outcome.expect(world.phase(0).is_none());
        reply = make(&mut world, is_run);
    }
    outcome.expect(reply == Reply::Ticker(0));
}
