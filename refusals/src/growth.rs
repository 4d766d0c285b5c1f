//! How often the table of tasks asks for memory: no more often than a slab with as many values.
use crate::core_calls::spend;
use crate::outcome::Outcome;
use crate::rooms::{order, takes_orders};
use executor_core::task::Cells;
use slab::Slab;
use std::alloc::Global;

/// So many that each table grows often.
const TASKS: usize = 1000;

/// More requests than there are.
const MOST: usize = 16;

// Whether one of the spawns is refused if this request of theirs is.
fn is_spawn_refused(alloc: Global, request: usize) -> bool {
    let Ok(mut cells) = Cells::<(), (), ()>::new(alloc) else {
        return true;
    };
    order(alloc, request);
    for _ in 0..TASKS {
        match cells.spawn(()) {
            Ok((_, notice)) => spend(notice),
            Err(_) => return true,
        }
    }
    false
}

// The same of as many inserts into a slab.
fn is_insert_refused(alloc: Global, request: usize) -> bool {
    let mut slab = Slab::<[u64; 8]>::new(alloc);
    order(alloc, request);
    for _ in 0..TASKS {
        if slab.insert([0; 8]).is_err() {
            return true;
        }
    }
    false
}

// How many requests the spawns make on an empty table.
fn spawn_requests(alloc: Global) -> usize {
    for request in 1..MOST {
        if !is_spawn_refused(alloc, request) {
            return request - 1;
        }
    }
    MOST
}

// How many the inserts make into an empty slab.
fn insert_requests(alloc: Global) -> usize {
    for request in 1..MOST {
        if !is_insert_refused(alloc, request) {
            return request - 1;
        }
    }
    MOST
}

/// How many requests for memory 1,000 spawns make, and how many as many inserts into a slab of 64
/// bytes each: the first are no more than the second. There is no answer if the library takes no
/// orders.
pub fn count_requests(alloc: Global, outcome: &mut Outcome) -> Option<(usize, usize)> {
    if !takes_orders(alloc, outcome) {
        return None;
    }
    let spawns = spawn_requests(alloc);
    let inserts = insert_requests(alloc);
    order(alloc, 0);
    outcome.expect(spawns > 0 && inserts < MOST && spawns <= inserts);
    Some((spawns, inserts))
}
