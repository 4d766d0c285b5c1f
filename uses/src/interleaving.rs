//! The steps of several parties, in an order of the caller's own.
use executor_core::interleave::{Reply, Step, World};
use std::alloc::Global;

/// Takes the steps of several parties on a world: a wake in the middle of a poll is not lost, and
/// the task is queued again as the poll ends.
pub fn interleaves(alloc: Global) -> Option<bool> {
    let mut world: World<(), u64> = World::new(alloc, 4).ok()?;
    world.step(Step::Spawn(()));
    world.step(Step::TryTick);
    world.step(Step::Wake(0));
    Some(matches!(world.step(Step::Pend(0)), Reply::Queued(0)))
}
