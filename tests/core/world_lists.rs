//! A thousand lists of steps, after which a world keeps its promises. They show that the definitions,
//! written once more as plain functions, are true of the running core.
use crate::tests::support::core::laws::{ListWorld, broken};
use crate::tests::support::core::lists::{KINDS, LENGTH, kind_of, list};
use executor_core::interleave::{Reply, Step, World};
use std::alloc::Global;
use std::test::Fail;

// So many lists are looked at by one test. Of so many lists the world of one is looked at after each
// of its steps, of the others once it took them all.
const LISTS: u64 = 250;

const CLOSE_LOOK: u64 = 10;

fn new_world(alloc: Global) -> Result<ListWorld, Fail> {
    Ok(World::new(alloc, LENGTH as u32)?)
}

fn is_refused(reply: &Reply<u64>) -> bool {
    matches!(reply, Reply::NotNow | Reply::LogFull | Reply::OutOfMemory)
}

// What a world made of the list of a seed, step by step.
#[derive(Drop)]
struct Taken {
    world: ListWorld,
    replies: Vec<Reply<u64>>,
}

// Says which promise the world does not keep, if any.
fn look(world: &ListWorld, has_ticks: bool, seed: u64, alloc: Global) -> Result<(), Fail> {
    match broken(world, has_ticks, alloc)? {
        Some(promise) => {
            let events = world.log().len();
            Err(Fail::new(format_args!("seed {seed}, after {events} events: {promise}")))
        }
        None => Ok(()),
    }
}

// Takes the steps of the list of this seed one by one, and counts how often a step of each kind was
// accepted.
fn taken(seed: u64, counts: &mut [u64; KINDS], alloc: Global) -> Result<Taken, Fail> {
    let mut world = new_world(alloc)?;
    let mut replies = Vec::new(alloc);
    let mut has_ticks = false;
    for step in list(seed, alloc)? {
        let kind = kind_of(&step);
        let is_tick = matches!(step, Step::Tick);
        let reply = world.step(step);
        if !is_refused(&reply) {
            counts[kind] += 1;
            has_ticks |= is_tick;
        }
        replies.push(reply)?;
        if seed % CLOSE_LOOK == 0 {
            look(&world, has_ticks, seed, alloc)?;
        }
    }
    look(&world, has_ticks, seed, alloc)?;
    Ok(Taken { world, replies })
}

// The same of so many lists from this seed on. Each is taken once more as a whole, with the same
// replies. A step of each kind is accepted often.
fn look_at(first: u64, alloc: Global) -> Result<(), Fail> {
    let mut counts = [0; KINDS];
    for seed in first..first + LISTS {
        let Taken { world, replies } = taken(seed, &mut counts, alloc)?;
        let mut whole = new_world(alloc)?;
        let all = whole.run(list(seed, alloc)?)?;
        if all.as_slice() != replies.as_slice() || whole.log() != world.log() {
            return Err(Fail::new(format_args!("seed {seed}: the whole list has other replies")));
        }
    }
    for (kind, count) in counts.iter().enumerate() {
        if *count < 20 {
            return Err(Fail::new(format_args!("kind {kind} was accepted {count} times")));
        }
    }
    Ok(())
}

#[test]
fn the_first_lists_keep_each_promise(rt: HostRuntime) -> Result<(), Fail> {
    look_at(0, rt.alloc())
}

#[test]
fn the_second_lists_keep_each_promise(rt: HostRuntime) -> Result<(), Fail> {
    look_at(LISTS, rt.alloc())
}

#[test]
fn the_third_lists_keep_each_promise(rt: HostRuntime) -> Result<(), Fail> {
    look_at(2 * LISTS, rt.alloc())
}

#[test]
fn the_last_lists_keep_each_promise(rt: HostRuntime) -> Result<(), Fail> {
    look_at(3 * LISTS, rt.alloc())
}
